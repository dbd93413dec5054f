//! Sequences of pulse words: every pair N 2..176, K 1..128 whose V(N,K) is below 2^32 and in the oracles' tables, with the first vector, the
//! last, a middle one and one at random; damaged bytes, of which some give a number that is too high; refusals; states that are handed in. 24
//! pairs are left out: their counts are in neither oracle's table, and libopus would read past its end.
use crate::random::Random;
use crate::words::{count, Maker, Oracle};
use crate::{Sequence, Side};
use oracle::celt::{cwrs, entdec, entenc};
use std::sync::OnceLock;

pub type Pair = (u32, u32);

/// The pairs whose count is below 2^32, and whether the oracles have them.
pub fn pairs(known: bool) -> Vec<Pair> {
    let all = (2..=176).flat_map(|n| (1..=128).map(move |k| (n, k)));
    all.filter(|&(n, k)| count(n, k).is_some() && cwrs::has_count(n, k) == known).collect()
}

/// All of them, those of the oracles first.
pub fn counted() -> &'static [Pair] {
    static PAIRS: OnceLock<Vec<Pair>> = OnceLock::new();
    PAIRS.get_or_init(|| [pairs(true), pairs(false)].concat())
}

/// The vector with that number, by libopus.
pub fn vector(pair: Pair, number: u32, ft: u32) -> Vec<i32> {
    let mut bytes = [0; 16];
    let mut c = entenc::ec_enc_init(&mut bytes);
    entenc::ec_enc_uint(&mut c, number, ft);
    entenc::ec_enc_done(&mut c);
    let mut c = entdec::ec_dec_init(&mut bytes);
    let mut places = vec![0; 176];
    // The places suffice for every n, and the pair is one of the oracles'.
    unsafe { cwrs::decode_pulses(places.as_mut_ptr(), pair.0 as i32, pair.1 as i32, &mut c) };
    places
}

impl Maker {
    fn lay(&mut self, places: &[i32]) {
        self.ask("Z".to_string());
        for (place, v) in places.iter().enumerate().filter(|(_, &v)| v != 0) {
            self.ask(format!("A {place} {v}"));
        }
    }

    fn put_number(&mut self, pair: Pair, number: u32) {
        let ft = count(pair.0, pair.1).expect("a count");
        self.lay(&vector(pair, number, ft));
        assert!(!self.ask(format!("W {} {}", pair.0, pair.1)), "{:?}", self.lines);
    }

    fn get(&mut self, pair: Pair) -> bool {
        self.ask("Z".to_string());
        self.ask(format!("w {} {}", pair.0, pair.1))
    }
}

/// Every pair, four to a sequence: written, closed, read back.
fn every_pair(r: &mut Random, list: &mut Vec<Sequence>) {
    for group in pairs(true).chunks(4) {
        let mut m = Maker::new(72, r.below(256));
        for &pair in group {
            let last = count(pair.0, pair.1).expect("a count") - 1;
            for number in [0, last, last / 2, r.within(0, last)] {
                m.put_number(pair, number);
            }
        }
        m.ask_all(&["C", "O"]);
        for &pair in group {
            for _ in 0..4 {
                assert!(!m.get(pair), "{:?}", m.lines);
            }
        }
        list.push(m.lines);
    }
}

/// For each N its greatest K, and for each K its greatest N: the last vector, and the raw bits of its number set to 1, which gives a number
/// that is too high where they were not all 1.
fn too_high(r: &mut Random, list: &mut Vec<Sequence>) {
    let known = pairs(true);
    let mut ends: Vec<Pair> = (2..=176).filter_map(|n| known.iter().filter(|p| p.0 == n).max().copied()).collect();
    ends.extend((1..=128).filter_map(|k| known.iter().filter(|p| p.1 == k).max().copied()));
    for pair in ends {
        let mut m = Maker::new(10, r.below(256));
        m.put_number(pair, count(pair.0, pair.1).expect("a count") - 1);
        m.ask("C".to_string());
        for place in 6..10 {
            m.ask(format!("D {place} 255"));
        }
        m.ask("O".to_string());
        m.get(pair);
        m.get((2, 1));
        list.push(m.lines);
    }
}

/// Bytes that no writer made, read as vectors of random pairs, on past their end until reads are refused; in every other one the places
/// past N keep what an earlier vector left.
fn any_bytes(r: &mut Random, list: &mut Vec<Sequence>) {
    let known = pairs(true);
    for turn in 0..40 {
        let storage = r.one_of(&[0, 1, 2, 3, 5, 12, 20, 40]);
        let mut m = Maker::new(storage, 0);
        m.ask("Z".to_string());
        m.open_any(r, storage);
        for _ in 0..60 {
            let (n, k) = known[r.below(known.len() as u32) as usize];
            if turn % 2 == 0 {
                m.ask("Z".to_string());
            }
            if m.ask(format!("w {n} {k}")) {
                break;
            }
        }
        list.push(m.lines);
    }
}

/// Numbers outside the domain, counts of 2^32 and more, vectors of another sum, a write after the close, a full storage.
fn refused(_: &mut Random, list: &mut Vec<Sequence>) {
    let asked = ["1 1", "0 1", "177 1", "2 0", "2 129", "176 5", "110 5", "15 14", "6 96", "176 128", "4294967295 1", "2 4294967295", "2 1", "2 2", "3 2"];
    for storage in [0, 1, 40] {
        let mut m = Maker::new(storage, 0);
        m.ask_all(&["Z", "A 0 1", "A 2 -1"]);
        for line in asked {
            m.ask(format!("W {line}"));
        }
        m.ask_all(&["A 1 2147483647", "A 175 2147483647", "W 2 1", "W 176 1", "Z", "A 175 -128", "W 176 4", "W 175 4", "A 175 -4"]);
        m.ask_all(&["W 176 4", "W 176 4", "W 176 4", "C", "W 176 4", "W 176 3", "W 176 5", "W 177 4", "O"]);
        for line in asked {
            m.ask(format!("w {line}"));
        }
        list.push(m.lines);
    }
}

/// States that break their rule and bytes of another length than the storage, before and after each other refusal.
fn states(_: &mut Random, list: &mut Vec<Sequence>) {
    for (storage, rng) in [(4, 1u32 << 31), (4, 1 << 23), (5, 1 << 31), (5, 1 << 23)] {
        let mut m = Maker::new(4, 0);
        m.ask_all(&["Z", "A 0 1"]);
        for (total, closed) in [(33, 0), (97, 0), (97, 1)] {
            m.ask(format!("K {storage} 0 0 0 0 {total} {rng} 0 0 256 0 {closed}"));
            m.ask_all(&["W 1 1", "W 6 96", "W 2 2", "W 2 1"]);
        }
        for total in [33, 97] {
            m.ask(format!("k {storage} 4 0 0 0 {total} {rng} 0 0 0 0"));
            m.ask_all(&["w 1 1", "w 6 96", "w 2 1"]);
        }
        list.push(m.lines);
    }
}

pub fn all(r: &mut Random) -> Vec<Sequence> {
    let mut list = vec![];
    for family in [every_pair, too_high, any_bytes, refused, states] {
        family(r, &mut list);
    }
    list
}

/// What the sequences reach, for the reader of the record.
pub fn figures(sequences: &[Sequence]) -> Vec<String> {
    let (mut writes, mut reads, mut high) = (0, 0, 0);
    let mut refused = std::collections::BTreeMap::<String, u32>::new();
    for sequence in sequences {
        let mut o = Oracle::new();
        for line in sequence {
            let before = o.coder.at.error;
            let answer = o.answer(line).unwrap_or_default();
            if !matches!(&line[..1], "W" | "w") {
                continue;
            }
            if answer.starts_with('X') {
                *refused.entry(answer).or_default() += 1;
            } else if &line[..1] == "W" {
                writes += 1;
            } else {
                reads += 1;
                high += (before == 0 && o.coder.at.error != 0) as u32;
            }
        }
    }
    let refused: Vec<String> = refused.iter().map(|(no, n)| format!("{no}: {n}")).collect();
    let absent: Vec<String> = pairs(false).iter().map(|(n, k)| format!("({n},{k})")).collect();
    vec![
        format!("pulse words: {} pairs; vectors written: {writes}; read: {reads}, {high} of them too high", pairs(true).len()),
        format!("pulse words refused: {}", refused.join(", ")),
        format!("pairs below 2^32 that the oracles' tables lack: {} {}", absent.len(), absent.join(" ")),
    ]
}
