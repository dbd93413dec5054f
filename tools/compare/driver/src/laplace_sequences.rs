//! Sequences of Laplace values: every pair of the coarse-energy model with small values, values on both sides of its edges and the
//! greatest, read back as written and from damaged bytes; bytes that no writer made; small storages; refusals; states that are handed in.
use crate::random::Random;
use crate::words::{Maker, Oracle};
use crate::{Sequence, Side};
use oracle::celt::quant_bands::model_pairs;

type Pair = (u32, u32);

fn put(v: i32) -> String {
    format!("L {v}")
}

fn pair_line(pair: Pair) -> String {
    format!("P {} {}", pair.0, pair.1)
}

/// The value that counts as written, by the oracle.
fn counted(pair: Pair, v: i32) -> i32 {
    let mut o = Oracle::new();
    for line in ["S 8 0".to_string(), pair_line(pair), put(v)] {
        o.answer(&line);
    }
    o.coder.value as i32
}

/// The least size of that sign that is adjusted.
fn edge(pair: Pair, sign: i32) -> i32 {
    (1..32768).find(|size| counted(pair, sign * size) != sign * size).unwrap_or(32767)
}

/// Small values, those on both sides of the edges, some between, and the greatest.
fn values(r: &mut Random, pair: Pair) -> Vec<i32> {
    let (up, down) = (edge(pair, 1), edge(pair, -1));
    let mut list = vec![0, 1, -1, 2, -2, up - 1, up, up + 1, 1 - down, -down, -1 - down, 32767, -32767, -32768];
    list.push(r.within(3, up as u32) as i32);
    list.push(-(r.within(3, down as u32) as i32));
    list
}

/// Every pair: written, closed, read back, and read again after bytes were changed.
fn every_pair(r: &mut Random, list: &mut Vec<Sequence>) {
    for &pair in model_pairs() {
        let mut m = Maker::new(64, r.below(256));
        m.ask(pair_line(pair));
        let mut written = vec![];
        for v in values(r, pair) {
            m.ask(put(v));
            written.push(m.oracle.coder.value);
        }
        m.ask_all(&["C", "O"]);
        for v in &written {
            assert!(!m.ask("l".to_string()) && m.oracle.coder.value == *v, "{:?}", m.lines);
        }
        for place in 0..r.within(1, 4) {
            m.ask(format!("D {} {}", 6 * place + r.below(6), r.below(256)));
        }
        m.ask("O".to_string());
        for _ in 0..8 {
            m.ask("l".to_string());
        }
        list.push(m.lines);
    }
}

/// Bytes that no writer made, read by one pair after another, on past their end until reads are refused.
fn any_bytes(r: &mut Random, list: &mut Vec<Sequence>) {
    let pairs = model_pairs();
    for storage in [0, 1, 2, 3, 5, 12, 20, 40] {
        let mut m = Maker::new(storage, 0);
        m.open_any(r, storage);
        for _ in 0..60 {
            m.ask(pair_line(pairs[r.below(168) as usize]));
            if m.ask("l".to_string()) {
                break;
            }
        }
        list.push(m.lines);
    }
}

/// More than fits, until writes are refused.
fn full(r: &mut Random, list: &mut Vec<Sequence>) {
    let pairs = model_pairs();
    for storage in [0, 1, 2, 3, 4, 8] {
        let mut m = Maker::new(storage, r.below(256));
        let mut asked = vec![];
        for _ in 0..60 {
            let pair = pairs[r.below(168) as usize];
            m.ask(pair_line(pair));
            asked.push(pair);
            let v = r.below(40) as i32 - 20;
            if m.ask(put(v)) {
                break;
            }
        }
        m.ask_all(&["C", "O"]);
        for pair in asked {
            m.ask(pair_line(pair));
            m.ask("l".to_string());
        }
        list.push(m.lines);
    }
}

/// Pairs that the model lacks, values outside the domain, a write after the close.
fn refused(_: &mut Random, list: &mut Vec<Sequence>) {
    let pairs = [
        "P 0 0", "P 9216 0", "P 0 8128", "P 9217 8128", "P 9216 8129", "P 9216 8320", "P 8320 8128", "P 32768 16384", "P 4294967295 4294967295",
        "P 9215 8128", "P 9216 8127", "P 9216 8160", "P 9216 8192", "P 9216 8256", "P 9216 4294967232",
    ];
    let mut m = Maker::new(64, 0);
    for pair in pairs {
        m.ask_all(&[pair, "L 0", "L -1", "L 32768"]);
    }
    m.ask_all(&["P 9216 8128", "L 32768", "L -32769", "L 32767", "L -32768", "L 2147483647", "L -2147483648"]);
    m.ask_all(&["C", "L 1", "L -32769", "C", "O"]);
    for pair in pairs {
        m.ask_all(&[pair, "l"]);
    }
    m.ask_all(&["P 9216 8128", "l", "l", "l"]);
    list.push(m.lines);
}

/// A reader over four bytes that shows the place fm of 32,768.
fn reader(fm: u32, total: u32) -> String {
    format!("k 4 1 0 0 0 {total} 2147483648 {} 7 255 0", (32767 - fm) * 65536 + 4660)
}

/// A writer over four bytes with a run of one behind its held byte.
fn writer(total: u32, held: u32, closed: u32) -> String {
    format!("K 4 0 0 0 0 {total} 16777216 2130706432 1 {held} 0 {closed}")
}

/// Places at the edges of the values of a pair, read by states that are handed in; each refusal alone and before a later one.
fn read_states(_: &mut Random, list: &mut Vec<Sequence>) {
    let broken = |total: u32| format!("k 4 1 0 0 0 {total} 2147483648 2147483648 7 255 0");
    let mut m = Maker::new(4, 0);
    m.ask_all(&["D 0 1", "D 1 2", "D 2 3", "D 3 4"]);
    for (pair, places) in [
        ("P 9216 8128", &[0, 9215, 9216, 15141, 15142, 21067, 21068, 24008, 32765, 32766, 32767][..]),
        ("P 24576 384", &[24575, 32545, 32767]), ("P 2688 11392", &[2687, 11844, 32767]), ("P 8320 8256", &[0]), ("P 9856 2560", &[0]),
    ] {
        m.ask_all(&[pair]);
        for &fm in places {
            m.ask_all(&[&reader(fm, 40), "l"]);
        }
    }
    m.ask_all(&["P 9216 8128", &broken(40), "l", &broken(97), "l", &reader(9216, 96), "l", &reader(9216, 97), "l", "P 9216 8256", "l"]);
    list.push(m.lines);
    let mut m = Maker::new(5, 0);
    m.ask_all(&[&reader(9216, 40), "P 9216 8128", "l", "P 9216 8129", "l"]);
    list.push(m.lines);
}

/// Values at the edges of a pair, written by states that are handed in; each refusal alone and before a later one.
fn written_states(_: &mut Random, list: &mut Vec<Sequence>) {
    let mut m = Maker::new(4, 170);
    for (pair, values) in [
        ("P 9216 8128", &[0, 1, -1, 2, -2, 29, 30, 31, 32767, -29, -30, -31, -32768][..]),
        ("P 24576 384", &[16, 18, -18]), ("P 2688 11392", &[52, 53, -53]),
    ] {
        m.ask_all(&[pair]);
        for &v in values {
            m.ask_all(&[&writer(40, 17, 0), &put(v)]);
        }
    }
    m.ask_all(&["P 9216 8128", &writer(40, 257, 0), "L 1", &writer(89, 17, 0), "L 1", &writer(90, 17, 0), "L 1"]);
    m.ask_all(&[&writer(40, 17, 1), "L 1", "L 32768", &writer(97, 17, 1), "L 1"]);
    m.ask_all(&["P 9216 8192", &writer(40, 17, 1), "L 1", &writer(97, 17, 0), "L 1"]);
    list.push(m.lines);
    let mut m = Maker::new(5, 170);
    m.ask_all(&["P 9216 8128", &writer(40, 17, 0), "L 1", "P 9216 8192", &writer(40, 257, 0), "L 32768"]);
    list.push(m.lines);
}

pub fn all(r: &mut Random) -> Vec<Sequence> {
    let mut list = vec![];
    for family in [every_pair, any_bytes, full, refused, read_states, written_states] {
        family(r, &mut list);
    }
    list
}

/// What the sequences reach, for the reader of the record.
pub fn figures(sequences: &[Sequence]) -> Vec<String> {
    let mut pairs = model_pairs().to_vec();
    let edges: Vec<i32> = pairs.iter().flat_map(|&p| [edge(p, 1), edge(p, -1)]).collect();
    let all = pairs.len();
    pairs.sort();
    pairs.dedup();
    let (mut writes, mut adjusted, mut reads, mut refused) = (0, 0, 0, 0);
    for sequence in sequences {
        let mut o = Oracle::new();
        for line in sequence {
            let answer = o.answer(line).unwrap_or_default();
            let words: Vec<&str> = line.split(' ').collect();
            if !matches!(words[0], "L" | "l") {
                continue;
            }
            if answer.starts_with('X') {
                refused += 1;
            } else if words[0] == "l" {
                reads += 1;
            } else {
                writes += 1;
                adjusted += ((o.coder.value as i32).to_string() != words[1]) as u32;
            }
        }
    }
    let (least, most) = (edges.iter().min().unwrap_or(&0), edges.iter().max().unwrap_or(&0));
    vec![
        format!("Laplace: {all} pairs, {} of them different; adjusting begins at sizes {least} to {most}", pairs.len()),
        format!("Laplace values written: {writes}, {adjusted} of them adjusted; read: {reads}; refused: {refused}"),
    ]
}
