//! The allocation's lookups: their answers and their requests. The crate answers, inside document 01's refusals. libopus has them inline alone, so
//! that its archive has none. A request is one line that stands for itself, and its answer is the letter and what was found, or X and a refusal's number.
//!
//!     G i               get_pulses
//!     B band LM bits    bits2pulses               b band LM pulses    pulses2bits
use crate::random::Random;
use crate::{Sequence, Side};
use oracle::celt::modes::static_modes_float_h::{cache_bits50, cache_index50};
use oracle::celt::{modes, rate};

/// The row of a band and an LM in the crate's cache, where there is one: its entries, the first of which says how many follow.
pub fn row(band: i32, lm: i32) -> Option<&'static [u8]> {
    let at = usize::try_from(cache_index50[((lm + 1) * 21 + band) as usize]).ok()?;
    Some(&cache_bits50[at..=at + cache_bits50[at] as usize])
}

/// Document 01's refusals of a lookup in a row: 1, 5 and, of an index, 6.
fn refusal(letter: &str, band: i32, lm: i32, v: i32) -> u32 {
    if !(0..=20).contains(&band) || !(-1..=3).contains(&lm) || letter == "B" && !(-81600..=81600).contains(&v) {
        return 1;
    }
    match row(band, lm) {
        None => 5,
        Some(row) if letter == "b" && !(0..row.len() as i32).contains(&v) => 6,
        Some(_) => 0,
    }
}

/// The answer to G, B or b.
pub fn answer(letter: &str, n: &[i64]) -> String {
    let n: Vec<i32> = n.iter().map(|&v| i32::try_from(v).expect("an i32")).collect();
    let no = match *n {
        [i] => !(0..=40).contains(&i) as u32,
        [band, lm, v] => refusal(letter, band, lm, v),
        _ => panic!("'{letter}' has one number or three"),
    };
    if no != 0 {
        return format!("X {no}");
    }
    // The band and the LM have a row, and an index is one of it.
    let found = unsafe {
        let mode = modes::opus_custom_mode_create(48000, 960, &mut 0);
        match (letter, n.as_slice()) {
            ("G", &[i]) => rate::get_pulses(i),
            ("B", &[band, lm, bits]) => rate::bits2pulses(mode, band, lm, bits),
            ("b", &[band, lm, pulses]) => rate::pulses2bits(mode, band, lm, pulses),
            _ => panic!("'{letter}' {n:?} is no lookup"),
        }
    };
    format!("{letter} {found}")
}

/// The oracle's side of a sequence.
pub struct Oracle;

impl Side for Oracle {
    fn answer(&mut self, line: &str) -> Option<String> {
        let n: Vec<i64> = line[1..].split_whitespace().map(|w| w.parse().unwrap_or_else(|_| panic!("'{line}' is no request"))).collect();
        Some(answer(&line[..1], &n))
    }
}

/// Every index, and those outside.
fn indices() -> Sequence {
    [i32::MIN].into_iter().chain(-1..=41).chain([i32::MAX]).map(|i| format!("G {i}")).collect()
}

/// Each number at the ends of its domain and outside, alone and with another; a band without a row.
fn edges() -> Sequence {
    let (least, most) = (i32::MIN, i32::MAX);
    let bits = [
        [-1, 0, 100], [0, 0, 100], [20, 0, 100], [21, 0, 100], [20, -2, 100], [20, -1, 100], [20, 3, 100], [20, 4, 100], [20, 3, -81601],
        [20, 3, -81600], [20, 3, 81600], [20, 3, 81601], [0, -1, 100], [7, -1, 100], [8, -1, 8], [0, -1, 81601], [0, -2, 100],
        [most, most, most], [least, least, least],
    ];
    let pulses = [
        [-1, 0, 1], [21, 0, 1], [20, -2, 1], [20, 4, 1], [20, 4, 100], [0, -2, 1], [0, -1, 1], [0, -1, 100], [7, -1, -1], [20, 3, least],
        [20, 3, most], [most, most, most], [least, least, least],
    ];
    let lines = |letter: char, list: &[[i32; 3]]| list.iter().map(|[band, lm, v]| format!("{letter} {band} {lm} {v}")).collect::<Vec<_>>();
    [lines('B', &bits), lines('b', &pulses)].concat()
}

/// Of every band and LM: the least and the most bits, the bits on both sides of half the way to an entry, at the entry and above the last; the
/// indices at both ends of the row, one outside and one at random.
fn rows(r: &mut Random) -> Vec<Sequence> {
    let mut list = vec![];
    for (band, lm) in (-1..=3).flat_map(|lm| (0..=20).map(move |band| (band, lm))) {
        let Some(row) = row(band, lm) else {
            list.push(vec![format!("B {band} {lm} 100"), format!("b {band} {lm} 1")]);
            continue;
        };
        let last = row.len() as u32 - 1;
        let mut bits = vec![-81600, -1, 0, 1, row[last as usize] as i32 + 2, 81600];
        for at in [1, r.within(1, last), last] {
            let entry = row[at as usize] as i32;
            let below = if at == 1 { -1 } else { row[at as usize - 1] as i32 };
            let half = below + (entry - below) / 2;
            bits.extend([half + 1, half + 2, entry, entry + 1]);
        }
        let indices = [-1, 0, 1, r.within(1, last) as i32, last as i32, last as i32 + 1];
        let asked = bits.iter().map(|v| ('B', v)).chain(indices.iter().map(|v| ('b', v)));
        list.push(asked.map(|(letter, v)| format!("{letter} {band} {lm} {v}")).collect());
    }
    list
}

pub fn all(r: &mut Random) -> Vec<Sequence> {
    [vec![indices(), edges()], rows(r)].concat()
}

/// What the sequences reach, for the reader of the record.
pub fn figures(sequences: &[Sequence]) -> Vec<String> {
    let mut calls = std::collections::BTreeMap::<String, u32>::new();
    for line in &sequences.concat() {
        let n: Vec<i64> = line.split(' ').skip(1).map(|w| w.parse().expect("a number")).collect();
        let answer = answer(&line[..1], &n);
        *calls.entry(if answer.starts_with('X') { answer } else { line[..1].to_string() }).or_default() += 1;
    }
    let calls: Vec<String> = calls.iter().map(|(name, n)| format!("{name}: {n}")).collect();
    vec![format!("lookups by letter, refused ones by number: {}", calls.join(", "))]
}
