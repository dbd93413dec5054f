//! Requests of energies: recorded traffic; random calls over the whole domain; every number of bits left at which the coding of a step changes;
//! frames decoded one after the other; lists, energies, numbers, lengths and states outside their domain, one by one and two at a time.
//!
//! energy_traffic.txt has calls that libopus 1.3.1 made while it decoded synthetic speech and music, CELT only, 2.5 to 20 ms, mono and stereo, 12 to
//! 400 kbit/s. A line has, separated by tabs, E, C, LM, start, end and intra, or F, C, start, end, the bits left, 21 fine bits and 21 priorities; then
//! the 42 energies by their bits in hex, the state before, the bytes in hex; then what it gave: the energies, and the state after. What lies in
//! channel 1's places of a mono call is the caller's, and is left alone.
use crate::energy::Asked;
use crate::random::Random;
use crate::states::{self, State};
use crate::{coder, Sequence};
use oracle::celt::entdec;

const MINUS: u32 = 0x8000_0000;
/// -9 as an f32.
const LOWEST: u32 = 0xc110_0000;

// ---- recorded traffic

fn words(text: &str, radix: u32) -> Vec<u32> {
    text.split(',').map(|w| u32::from_str_radix(w, radix).expect("a number")).collect()
}

fn recorded(line: &str) -> Asked {
    let field: Vec<&str> = line.split('\t').collect();
    let n = |at: usize| field[at].parse::<i32>().expect("a number");
    let list = |at: usize| words(field[at], 10).iter().map(|&v| v as i32).collect();
    let coarse = field[0] == "E";
    let at = if coarse { 6 } else { 7 };
    let a = Asked {
        coarse,
        state: states::recorded(field[at + 1]),
        c: n(1),
        lm: if coarse { n(2) } else { 0 },
        start: if coarse { n(3) } else { n(2) },
        end: if coarse { n(4) } else { n(3) },
        intra: if coarse { n(5) } else { 0 },
        left: if coarse { 0 } else { n(4) },
        energies: words(field[at], 16),
        fine: if coarse { vec![] } else { list(5) },
        priorities: if coarse { vec![] } else { list(6) },
        bytes: states::bytes_of(field[at + 2]),
    };
    let g = a.given().unwrap_or_else(|no| panic!("a recorded call is refused as {no}: {line}"));
    assert!(
        g.energies == words(field[at + 3], 16) && g.state == states::recorded(field[at + 4]),
        "the oracles do not give what was recorded: {line}"
    );
    a
}

/// The recorded calls, which both oracles answer as they were answered then.
pub fn traffic(_: &mut Random, list: &mut Vec<Asked>) {
    list.extend(include_str!("energy_traffic.txt").lines().map(recorded));
}

// ---- at random

/// An energy as decoders meet them, or at a limit: -9 and its neighbours, both zeros, subnormal, large, the largest.
fn energy(r: &mut Random) -> u32 {
    let usual = (r.within(0, 40000) as f32 / 1000.0 - 20.0).to_bits();
    let any = r.within(0, 0x7f7f_ffff) + r.one_of(&[0, MINUS]);
    let odd = r.one_of(&[LOWEST, LOWEST - 1, LOWEST + 1, 0, MINUS, 1, 0x007f_ffff, 0x0080_0000, 0x7f7f_ffff, 0xff7f_ffff, 0x7f00_0000, any]);
    r.one_of(&[usual, usual, usual, usual, usual, odd])
}

pub fn energies(r: &mut Random) -> Vec<u32> {
    (0..42).map(|_| energy(r)).collect()
}

/// A new reader over random bytes, of which many are 0, 128 or 255.
fn packet(r: &mut Random, storage: u32) -> (Vec<u8>, State) {
    let any = |r: &mut Random| {
        let b = r.below(256);
        r.one_of(&[0, 128, 255, b, b, b]) as u8
    };
    let mut bytes: Vec<u8> = (0..storage).map(|_| any(r)).collect();
    let state = coder::numbers(&entdec::ec_dec_init(&mut bytes).save());
    (bytes, state)
}

/// Some bands.
fn bands(r: &mut Random) -> (i32, i32) {
    let any = r.below(21);
    let start = r.one_of(&[0, 0, 0, 17, any]);
    let any = r.within(start + 1, 21);
    (start as i32, r.one_of(&[21, 21, start + 1, any]) as i32)
}

/// Lists of fine bits and priorities.
fn lists(r: &mut Random) -> (Vec<i32>, Vec<i32>) {
    let most = r.one_of(&[3, 7, 8, 8]);
    ((0..21).map(|_| r.within(0, most) as i32).collect(), (0..21).map(|_| r.below(2) as i32).collect())
}

/// A call over a new reader of so many bytes.
pub fn asked(r: &mut Random, coarse: bool, storage: u32) -> Asked {
    let (bytes, state) = packet(r, storage);
    let (start, end) = bands(r);
    let (fine, priorities) = if coarse { (vec![], vec![]) } else { lists(r) };
    let few = r.within(0, 45) as i32;
    Asked {
        coarse, state, c: r.within(1, 2) as i32, lm: r.below(4) as i32, start, end, intra: r.below(2) as i32,
        left: if coarse { 0 } else { [few, few, few, -1, i32::MIN, i32::MAX][r.below(6) as usize] },
        energies: energies(r), fine, priorities, bytes,
    }
}

/// Every C, LM and intra over packets of 0 to 60 bytes; the last bits over small packets, whose raw bits end soon.
fn chance(r: &mut Random, list: &mut Vec<Asked>) {
    for c in 1..=2 {
        for lm in 0..=3 {
            for intra in 0..=1 {
                for most in [3, 12, 60] {
                    let storage = r.within(0, most);
                    list.push(Asked { c, lm, intra, ..asked(r, true, storage) });
                }
            }
        }
    }
    for _ in 0..60 {
        let storage = r.within(0, 8);
        list.push(asked(r, false, storage));
    }
}

/// From 17 bits left down to none, and past the end: where a Laplace value, the three-way table, a bit and nothing follow each other.
fn edges(r: &mut Random, list: &mut Vec<Asked>) {
    for c in 1..=2 {
        for left in -3..=17 {
            let mut a = Asked { c, start: 0, end: 21, ..asked(r, true, 5) };
            let used = 8 * a.state[0] as i32 - left;
            a.state[5] = (used + 32 - a.state[6].leading_zeros() as i32) as u32;
            list.push(a);
        }
    }
}

/// One packet's frames decoded one after the other, past its end, on the energies that the call before left, until 4 is the answer.
fn runs(r: &mut Random, list: &mut Vec<Asked>) {
    for _ in 0..6 {
        let storage = r.one_of(&[0, 4, 9, 30]);
        let mut a = asked(r, true, storage);
        loop {
            let given = a.given();
            list.push(a.clone());
            let Ok(g) = given else { break };
            let coarse = r.below(3) != 0;
            let next = asked(r, coarse, 0);
            a = Asked { state: g.state, bytes: a.bytes, energies: g.energies, c: a.c, lm: a.lm, ..next };
        }
    }
}

// ---- limits and refusals

/// Calls that are taken, to be changed.
fn good(r: &mut Random) -> [Asked; 2] {
    let plain = |a: Asked| Asked { c: 2, lm: 2, start: 3, end: 11, intra: 0, left: 9, ..a };
    [plain(asked(r, true, 12)), plain(asked(r, false, 12))]
}

/// An empty packet with intra: every step is -1.
fn empty(r: &mut Random, list: &mut Vec<Asked>) {
    for c in 1..=2 {
        for energies in [vec![0; 42], energies(r)] {
            list.push(Asked { c, lm: 0, start: 0, end: 1, intra: 1, energies, ..asked(r, true, 0) });
        }
    }
}

/// One number at each limit of its domain and one step outside, and far outside.
fn numbers(r: &mut Random, list: &mut Vec<Asked>) {
    for g in good(r) {
        for c in [i32::MIN, 0, 1, 2, 3, i32::MAX] {
            list.push(Asked { c, ..g.clone() });
        }
        for lm in [i32::MIN, -1, 0, 3, 4, i32::MAX] {
            list.push(Asked { lm, ..g.clone() });
        }
        for (start, end) in [(-1, 11), (0, 0), (0, 1), (11, 11), (12, 11), (20, 21), (20, 22), (21, 21), (21, 22), (i32::MIN, i32::MAX)] {
            list.push(Asked { start, end, ..g.clone() });
        }
        for intra in [i32::MIN, -1, 0, 1, 2, i32::MAX] {
            list.push(Asked { intra, ..g.clone() });
        }
        for left in [i32::MIN, -1, 0, 1, 2, 3, i32::MAX] {
            list.push(Asked { left, ..g.clone() });
        }
    }
}

/// One energy that is no finite number, inside and outside the call's bands, in both channels; and -0.
fn odd_energies(r: &mut Random, list: &mut Vec<Asked>) {
    for g in good(r) {
        for bits in [0x7fc0_0000, 0xffc0_0000, 0x7f80_0001, 0x7f80_0000, 0xff80_0000, MINUS] {
            for place in [0, 3, 20, 24, 41] {
                let mut a = g.clone();
                a.energies[place] = bits;
                list.push(a);
            }
        }
        list.push(Asked { energies: vec![MINUS; 42], ..g });
    }
}

/// Fine bits and priorities at their limits and one step outside, inside and outside the call's bands.
fn odd_lists(r: &mut Random, list: &mut Vec<Asked>) {
    let [_, g] = good(r);
    for place in [0, 5, 20] {
        for v in [i32::MIN, -1, 0, 7, 8, 9, i32::MAX] {
            let mut a = g.clone();
            a.fine[place] = v;
            list.push(a);
        }
        for v in [i32::MIN, -1, 0, 1, 2, i32::MAX] {
            let mut a = g.clone();
            a.priorities[place] = v;
            list.push(a);
        }
    }
}

/// Lengths at and beside what they must be, and the largest storage.
fn lengths(r: &mut Random, list: &mut Vec<Asked>) {
    for g in good(r) {
        for n in [0, 21, 41, 43] {
            list.push(Asked { energies: vec![0; n], ..g.clone() });
        }
        for storage in [0, 11, 13, 1275, 1276] {
            let mut a = g.clone();
            a.state[0] = storage;
            list.push(a);
        }
        for storage in [1275, 1276] {
            let mut a = g.clone();
            a.bytes = vec![200; storage];
            a.state[0] = storage as u32;
            list.push(a);
        }
    }
    let [_, g] = good(r);
    for n in [0, 20, 22] {
        list.push(Asked { fine: vec![0; n], ..g.clone() });
        list.push(Asked { priorities: vec![0; n], ..g.clone() });
    }
}

/// Each number of a reader's state at its limits and one step outside.
fn broken(r: &mut Random, list: &mut Vec<Asked>) {
    for g in good(r) {
        let rng = g.state[6];
        let marks = [
            (1, vec![0, 12, 13]), (2, vec![0, 12, 13]), (3, vec![0, u32::MAX]), (4, vec![0, 32, 33]), (5, vec![32, 33, 65535, 65536]),
            (6, vec![1 << 23, (1 << 23) + 1, 1 << 31, (1 << 31) + 1]), (7, vec![0, rng - 1, rng, u32::MAX]), (8, vec![0, u32::MAX]),
            (9, vec![0, 255, 256]), (10, vec![0, 1]),
        ];
        for (field, values) in marks {
            for v in values {
                let mut a = g.clone();
                a.state[field] = v;
                if field == 6 {
                    a.state[7] = v - 1;
                }
                list.push(a);
            }
        }
    }
}

/// Two faults at a time, so that the order of the refusals shows: 2, 1, 3, 4.
fn orders(r: &mut Random, list: &mut Vec<Asked>) {
    let faults: [fn(&mut Asked); 7] = [
        |a| a.energies.resize(43, 0),
        |a| a.state[0] += 1,
        |a| a.c = 3,
        |a| a.end = 22,
        |a| a.state[9] = 256,
        |a| a.energies[41] = 0x7f80_0000,
        |a| a.state[5] = 1000,
    ];
    for g in good(r) {
        for one in &faults {
            for two in &faults {
                let mut a = g.clone();
                one(&mut a);
                two(&mut a);
                list.push(a);
            }
        }
    }
}

/// All families.
pub fn requests(r: &mut Random) -> Vec<Asked> {
    let mut list = vec![];
    for family in [traffic, chance, edges, runs, empty, numbers, odd_energies, odd_lists, lengths, broken, orders] {
        family(r, &mut list);
    }
    list
}

pub fn all(r: &mut Random) -> Vec<Sequence> {
    requests(r).iter().map(|a| vec![a.line()]).collect()
}

/// What the requests reach, for the reader of the record.
pub fn figures(sequences: &[Sequence]) -> Vec<String> {
    let mut taken = [0; 2];
    let mut refused = std::collections::BTreeMap::<u32, u32>::new();
    for line in sequences.iter().flatten() {
        let a = Asked::of(line);
        match a.given() {
            Ok(_) => taken[a.coarse as usize] += 1,
            Err(no) => *refused.entry(no).or_default() += 1,
        }
    }
    let refused: Vec<String> = refused.iter().map(|(no, n)| format!("X {no}: {n}")).collect();
    vec![format!("coarse decodes: {}; last bits: {}", taken[1], taken[0]), format!("energies refused: {}", refused.join(", "))]
}
