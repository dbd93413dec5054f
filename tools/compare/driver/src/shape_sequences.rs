//! Requests of shapes: recorded traffic; every N and every K with vectors, parts and gains at random; packets read on past their end; counts and
//! rotations at their limits; numbers, gains, lengths and states outside their domain, one by one and two at a time.
//!
//! shape_traffic.txt has calls that libopus 1.3.1 made while it decoded synthetic speech and music, CELT only, 2.5 to 20 ms, mono and stereo, 12 to
//! 400 kbit/s: those over packets of at most 320 bytes. A line has, separated by tabs, S, N, K, spread, B, the gain's bits in hex, the state before, the
//! bytes in hex; then what it gave: the shape by its bits, the collapse mask, the state after. Where a rotation is due, 9 is expected.
use crate::random::Random;
use crate::shape::Asked;
use crate::states;
use crate::words::count;
use crate::Sequence;
use oracle::celt::{cwrs, entdec};

const ONE: u32 = 0x3f80_0000;
const MINUS: u32 = 0x8000_0000;

// ---- recorded traffic

fn recorded(line: &str) -> Asked {
    let field: Vec<&str> = line.split('\t').collect();
    let n: Vec<i32> = field[1..5].iter().map(|w| w.parse().expect("a number")).collect();
    let a = Asked {
        state: states::recorded(field[6]),
        n: n[0], k: n[1], spread: n[2], b: n[3],
        gain: u32::from_str_radix(field[5], 16).expect("hex"),
        places: n[0] as usize,
        bytes: states::bytes_of(field[7]),
    };
    match a.given() {
        Ok(g) => {
            let shape: Vec<String> = g.shape.iter().map(|v| format!("{v:08x}")).collect();
            assert!(
                shape.join(",") == field[8] && g.mask.to_string() == field[9] && g.state == states::recorded(field[10]),
                "the oracles do not give what was recorded: {line}"
            );
        }
        Err(no) => assert!(no == 9, "a recorded call is refused as {no}: {line}"),
    }
    a
}

fn traffic(_: &mut Random, list: &mut Vec<Asked>) {
    list.extend(include_str!("shape_traffic.txt").lines().map(recorded));
}

// ---- at random

/// The K for this N whose count is below 2^32 and in the oracles' tables.
fn pulses(n: u32) -> Vec<u32> {
    (1..=128).filter(|&k| count(n, k).is_some() && cwrs::has_count(n, k)).collect()
}

/// One of the B 1..16 that divide N.
fn parts(r: &mut Random, n: u32) -> u32 {
    let all: Vec<u32> = (1..=16).filter(|b| n % b == 0).collect();
    r.one_of(&all)
}

/// A gain at most 1 in size: a limit, 0, a subnormal one, or any.
fn gain(r: &mut Random) -> u32 {
    let any = r.within(0, ONE);
    let size = r.one_of(&[ONE, ONE, ONE - 1, 0x3f00_0000, 0, 1, 0x007f_ffff, 0x0080_0000, any, any, any, any]);
    size + r.one_of(&[0, 0, 0, MINUS])
}

/// A new reader over random bytes, of which many are 0, 128 or 255.
fn packet(r: &mut Random, storage: u32) -> (Vec<u8>, states::State) {
    let any = |r: &mut Random| {
        let b = r.below(256);
        r.one_of(&[0, 128, 255, b, b, b]) as u8
    };
    let mut bytes: Vec<u8> = (0..storage).map(|_| any(r)).collect();
    let state = crate::coder::numbers(&entdec::ec_dec_init(&mut bytes).save());
    (bytes, state)
}

/// A call over a new reader of so many bytes; no rotation is due.
pub fn asked(r: &mut Random, n: u32, k: u32, storage: u32) -> Asked {
    let (bytes, state) = packet(r, storage);
    let spread = if 2 * k < n { 0 } else { r.below(4) };
    let b = parts(r, n);
    Asked { state, n: n as i32, k: k as i32, spread: spread as i32, b: b as i32, gain: gain(r), places: n as usize, bytes }
}

/// Each K 1..128 over two places, whose energies are sums of two squares, and each N with its greatest K and two at random.
fn every(r: &mut Random, list: &mut Vec<Asked>) {
    for k in 1..=128 {
        let storage = r.within(1, 8);
        list.push(asked(r, 2, k, storage));
    }
    for n in 2..=176 {
        let known = pulses(n);
        let last = *known.last().expect("a count");
        for k in [last, r.one_of(&known), r.one_of(&known)] {
            let storage = r.within(0, 12);
            list.push(asked(r, n, k, storage));
        }
    }
}

/// One packet read on, from state to state, past its end, until a read is refused with 4.
fn runs(r: &mut Random, list: &mut Vec<Asked>) {
    for _ in 0..16 {
        let storage = r.one_of(&[0, 1, 2, 5, 12, 30]);
        let (bytes, mut state) = packet(r, storage);
        loop {
            let n = r.one_of(&[2, 3, 4, 4, 6, 8, 8, 11, 16, 24]);
            let k = r.one_of(&pulses(n));
            let a = Asked { state, bytes: bytes.clone(), ..asked(r, n, k, 0) };
            let given = a.given();
            list.push(a);
            match given {
                Ok(g) => state = g.state,
                Err(_) => break,
            }
        }
    }
}

// ---- limits and refusals

/// A call that is taken, to be changed.
fn good(r: &mut Random) -> Asked {
    Asked { spread: 2, b: 4, gain: ONE, ..asked(r, 8, 5, 6) }
}

/// Counts at 2^32, and 2K beside N, for every spread.
fn limits(r: &mut Random, list: &mut Vec<Asked>) {
    for n in [3, 6, 7, 8, 14, 15, 20, 40, 96, 110, 176] {
        let most = (1..=128).filter(|&k| count(n, k).is_some()).max().expect("a count");
        for k in [most, most + 1].into_iter().filter(|&k| k <= 128 && (count(n, k).is_none() || cwrs::has_count(n, k))) {
            for spread in 0..=3 {
                list.push(Asked { spread, ..asked(r, n, k, 9) });
            }
        }
    }
    for n in [2, 3, 4, 5, 7, 8, 11, 12] {
        for k in [n / 2, (n + 1) / 2, n / 2 + 1] {
            for spread in 0..=3 {
                list.push(Asked { spread, ..asked(r, n, k, 9) });
            }
        }
    }
}

/// One number at each limit of its domain and one step outside, and far outside.
fn numbers(r: &mut Random, list: &mut Vec<Asked>) {
    let g = good(r);
    for n in [i32::MIN, -8, -1, 0, 1, 2, 3, 175, 176, 177, 178, i32::MAX] {
        for b in [1, 2, 3, 7, 16] {
            let places = n.clamp(0, 200) as usize;
            list.push(Asked { n, b, places, spread: 0, k: 1, ..g.clone() });
        }
    }
    for k in [i32::MIN, -1, 0, 1, 3, 4, 127, 128, 129, i32::MAX] {
        list.push(Asked { k, ..g.clone() });
        list.push(Asked { k, n: 2, b: 1, places: 2, ..g.clone() });
    }
    for spread in [i32::MIN, -1, 0, 1, 2, 3, 4, i32::MAX] {
        list.push(Asked { spread, ..g.clone() });
    }
    for b in [i32::MIN, -4, -1, 0, 1, 2, 3, 4, 5, 8, 9, 16, 17, i32::MAX] {
        list.push(Asked { b, ..g.clone() });
        list.push(Asked { b, n: 16, places: 16, k: 8, ..g.clone() });
    }
}

/// Gains: NaN of both signs, quiet and not, both infinities, both zeros, 1 and its neighbours, the largest f32, subnormal ones.
fn gains(r: &mut Random, list: &mut Vec<Asked>) {
    for gain in [0x7fc0_0000, 0x7f80_0001, 0x7fff_ffff, 0x7f80_0000, 0, ONE - 1, ONE, ONE + 1, 0x4000_0000, 0x7f7f_ffff, 1, 0x007f_ffff] {
        for sign in [0, MINUS] {
            list.push(Asked { gain: gain + sign, ..good(r) });
        }
    }
}

/// Lengths of the shape and the bytes, at and beside what they must be.
fn lengths(r: &mut Random, list: &mut Vec<Asked>) {
    let g = good(r);
    for places in [0, 1, 7, 8, 9, 16, 176, 200] {
        list.push(Asked { places, ..g.clone() });
    }
    for storage in [0, 5, 6, 7, 1275, 1276] {
        let mut a = g.clone();
        a.state[0] = storage;
        list.push(a);
    }
    for storage in [1275, 1276] {
        let mut a = g.clone();
        a.bytes = vec![200; storage];
        a.state[0] = storage as u32;
        list.push(a);
    }
}

/// Each number of a reader's state at its limits and one step outside.
fn broken(r: &mut Random, list: &mut Vec<Asked>) {
    let g = good(r);
    let rng = g.state[6];
    let marks = [
        (1, vec![0, 6, 7]), (2, vec![0, 6, 7]), (3, vec![0, u32::MAX]), (4, vec![0, 32, 33]), (5, vec![0, 32, 33, 65535, 65536]),
        (6, vec![0, 1 << 23, (1 << 23) + 1, 1 << 31, (1 << 31) + 1]), (7, vec![0, rng - 1, rng, u32::MAX]), (8, vec![0, u32::MAX]),
        (9, vec![0, 255, 256]), (10, vec![0, 1]),
    ];
    for (field, values) in marks {
        for v in values {
            let mut a = g.clone();
            a.state[field] = v;
            if field == 6 {
                a.state[7] = v.saturating_sub(1);
            }
            list.push(a);
        }
    }
}

/// Two faults at a time, so that the order of the refusals shows: 2, 1, 3, 7, 9, 4.
fn orders(r: &mut Random, list: &mut Vec<Asked>) {
    let faults: [fn(&mut Asked); 8] = [
        |a| a.places += 1,
        |a| a.state[0] += 1,
        |a| a.b = 3,
        |a| a.spread = 4,
        |a| a.state[9] = 256,
        |a| a.gain = ONE + 1,
        |a| (a.n, a.places, a.k, a.spread) = (176, 176, 5, 0),
        |a| (a.n, a.places, a.k, a.spread) = (176, 176, 4, 1),
    ];
    let late: fn(&mut Asked) = |a| a.state[5] = 1000;
    let g = good(r);
    for one in faults.iter().chain([&late]) {
        for two in faults.iter().chain([&late]) {
            let mut a = g.clone();
            one(&mut a);
            two(&mut a);
            list.push(a);
        }
    }
    // 7 and 9 apply to this one.
    list.push(Asked { n: 176, places: 176, k: 5, spread: 1, ..g });
}

/// All families.
pub fn requests(r: &mut Random) -> Vec<Asked> {
    let mut list = vec![];
    for family in [traffic, every, runs, limits, numbers, gains, lengths, broken, orders] {
        family(r, &mut list);
    }
    list
}

pub fn all(r: &mut Random) -> Vec<Sequence> {
    let list = requests(r);
    // Pairs whose count is in neither oracle's table are left out.
    let known = |a: &Asked| a.refusal() != 0 || cwrs::has_count(a.n as u32, a.k as u32);
    list.iter().filter(|a| known(a)).map(|a| vec![a.line()]).collect()
}

/// What the requests reach, for the reader of the record.
pub fn figures(sequences: &[Sequence]) -> Vec<String> {
    let (mut taken, mut marked) = (0, 0);
    let mut energies = std::collections::BTreeSet::new();
    let mut refused = std::collections::BTreeMap::<u32, u32>::new();
    for line in sequences.iter().flatten() {
        let a = Asked::of(line);
        match a.given() {
            Ok(g) => {
                taken += 1;
                marked += (a.state[10] == 0 && g.state[10] != 0) as u32;
                energies.insert(energy(&a));
            }
            Err(no) => *refused.entry(no).or_default() += 1,
        }
    }
    let refused: Vec<String> = refused.iter().map(|(no, n)| format!("X {no}: {n}")).collect();
    vec![
        format!("shapes: {taken}, of {} energies; {marked} of vectors whose number was too high", energies.len()),
        format!("shapes refused: {}", refused.join(", ")),
    ]
}

/// The energy of the vector that a request reads.
fn energy(a: &Asked) -> u32 {
    let mut bytes = a.bytes.clone();
    let mut c = entdec::ec_dec_init(&mut bytes);
    c.restore(states::saved(&a.state));
    let mut places = [0; 176];
    // The places suffice for every n, and the tables have the count.
    unsafe { cwrs::decode_pulses(places.as_mut_ptr(), a.n, a.k, &mut c) as u32 }
}
