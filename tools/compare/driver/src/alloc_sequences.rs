//! Requests of whole allocations: recorded traffic, random allocations over the whole domain, read from any bytes or written and read back, totals
//! at which one eighth bit more changes how many bands are coded, random coder states within their rule, and refusals.
//!
//! alloc_traffic.txt has calls that libopus 1.3.1 made while it encoded and decoded synthetic speech and music, CELT only, 2.5 to 20 ms, mono and
//! stereo, 12 to 400 kbit/s. A line has, separated by tabs, A, encode, C, LM, start, end, trim, total, intensity, dual stereo, previous band count, signal
//! bandwidth, 21 offsets, 21 caps, the state before (storage, end_offs, end_window, nend_bits, nbits_total, offs, rng, val, ext, rem, error), the bytes
//! in hex; then what it gave: coded bands, balance, intensity, dual stereo, pulses, fine bits and priorities from start to end-1, the state
//! after, and of a write the bytes after. Entries of the lists from end on are what lay in memory; those outside the domain are asked as 0.
use crate::alloc::{Asked, Given, Numbers, State};
use crate::coder;
use crate::random::Random;
use crate::Sequence;
use oracle::celt::entcode::{ec_ctx, ec_ctx_saved, ec_tell};
use oracle::celt::{entdec, entenc};
use oracle::libopus;

// ---- recorded traffic

fn numbers<T: std::str::FromStr>(text: &str) -> Vec<T> {
    text.split(',').map(|w| w.parse().unwrap_or_else(|_| panic!("'{w}' is no number"))).collect()
}

fn bytes_of(hex: &str) -> Vec<u8> {
    (0..hex.len() / 2).map(|at| u8::from_str_radix(&hex[2 * at..2 * at + 2], 16).expect("hex")).collect()
}

fn state_of(at: &ec_ctx_saved) -> State {
    let mut state = [0; 12];
    state[..11].copy_from_slice(&coder::numbers(at));
    state
}

fn recorded_state(text: &str) -> State {
    let n: Vec<i64> = numbers(text);
    state_of(&ec_ctx_saved {
        storage: n[0] as u32, end_offs: n[1] as u32, end_window: n[2] as u32, nend_bits: n[3] as i32, nbits_total: n[4] as i32,
        offs: n[5] as u32, rng: n[6] as u32, val: n[7] as u32, ext: n[8] as u32, rem: n[9] as i32, error: n[10] as i32,
    })
}

/// The entries within 0..most; 0 for another one from end on.
fn recorded_list(text: &str, end: i32, most: i32) -> Vec<i32> {
    let list: Vec<i32> = numbers(text);
    let kept = list.iter().enumerate().map(|(at, &v)| if (0..=most).contains(&v) || (at as i32) < end { v } else { 0 });
    kept.collect()
}

/// A recorded line as a request, and what libopus gave then.
fn recorded(line: &str) -> Asked {
    let field: Vec<&str> = line.split('\t').collect();
    let n: Vec<i32> = field[1..12].iter().map(|w| w.parse().expect("a number")).collect();
    let a = Asked {
        writes: n[0] == 1,
        room: [21; 3],
        numbers: Numbers {
            c: n[1], lm: n[2], start: n[3], end: n[4], trim: n[5], total: n[6], intensity: n[7], dual: n[8], previous: n[9], bandwidth: n[10],
        },
        state: recorded_state(field[14]),
        offsets: recorded_list(field[12], n[4], 81600),
        caps: recorded_list(field[13], n[4], 32767),
        bytes: bytes_of(field[15]),
    };
    let Ok(g) = a.given() else { panic!("a recorded call is refused: {line}") };
    let bands = n[3] as usize..n[4] as usize;
    let lists: Vec<Vec<i32>> = field[20..23].iter().map(|list| numbers(list)).collect();
    let numbers: Vec<i32> = field[16..20].iter().map(|w| w.parse().expect("a number")).collect();
    assert!(
        numbers == [g.coded, g.balance, g.intensity, g.dual]
            && (0..3).all(|at| lists[at] == g.lists[at][bands.clone()])
            && recorded_state(field[23])[..11] == g.at
            && (!a.writes || bytes_of(field[24]) == g.bytes),
        "the oracles do not give what was recorded: {line}"
    );
    a
}

/// The recorded calls, which both oracles answer as they were answered then.
pub fn traffic() -> Vec<Asked> {
    include_str!("alloc_traffic.txt").lines().map(recorded).collect()
}

// ---- numbers and lists at random

fn any_i32(r: &mut Random) -> i32 {
    r.within(0, u32::MAX) as i32
}

/// A number that the encoder's choice of a skip flag is compared with: near the bands, or any.
fn any_band(r: &mut Random) -> i32 {
    match r.below(8) {
        0 => any_i32(r),
        1 => [i32::MIN, i32::MAX, -1, 22][r.below(4) as usize],
        _ => r.within(0, 21) as i32,
    }
}

fn any_total(r: &mut Random, storage: u32) -> i32 {
    match r.below(20) {
        0 => -(r.within(0, 100) as i32),
        1 => [i32::MIN, -81600, 81600, 81599, 81592, 0, 7, 8, 9][r.below(9) as usize],
        2..=4 => r.within(0, 60) as i32,
        5..=7 => r.within(0, 1000) as i32,
        8..=10 => r.within(0, 81600) as i32,
        11..=13 => r.within(0, 16000) as i32,
        _ => r.within(0, (64 * storage).max(8)) as i32,
    }
}

/// Offsets of the domain.
pub fn any_offsets(r: &mut Random) -> Vec<i32> {
    let kind = r.below(20);
    let place = r.below(21);
    let mut list = vec![0; 21];
    for (at, v) in list.iter_mut().enumerate() {
        *v = match kind {
            0..=7 => 0,
            8..=11 => (48 * r.below(10) * (r.below(3) == 0) as u32) as i32,
            12..=13 => r.below(20) as i32,
            14..=15 => r.below(2000) as i32 * (at as u32 == place) as i32,
            16 => 81600 * (at as u32 == place) as i32,
            17 => r.within(0, 81600) as i32,
            18 => 81600,
            _ => (r.below(4) == 0) as i32,
        };
    }
    list
}

/// The caps that an encoder and a decoder use for this C and LM.
fn usual_caps(c: i32, lm: i32) -> Vec<i32> {
    let mut caps = vec![0; 21];
    // The mode has 21 bands, and so many places are written.
    unsafe { libopus::init_caps(libopus::opus_custom_mode_create(48000, 960, &mut 0), caps.as_mut_ptr(), lm, c) };
    caps
}

/// Caps of the domain, more often than not the usual ones.
pub fn any_caps(r: &mut Random, c: i32, lm: i32) -> Vec<i32> {
    let kind = r.below(20);
    let mut caps = usual_caps(c, lm);
    for v in caps.iter_mut() {
        *v = match kind {
            0..=10 => *v,
            11 => 0,
            12 => 32767,
            13..=14 => r.within(0, 32767) as i32,
            15 => r.below(200) as i32,
            16 => r.below(20) as i32,
            _ => [*v, *v, 0, 32767, 8, 16][r.below(6) as usize],
        };
    }
    caps
}

/// Numbers of the domain; a total that fits the storage more often than not.
pub fn any_numbers(r: &mut Random, storage: u32) -> Numbers {
    let start = match r.below(8) {
        0..=3 => 0,
        4 => 17,
        _ => r.below(21),
    };
    let end = if r.below(2) == 0 { 21 } else { r.within(start + 1, 21) };
    Numbers {
        c: r.within(1, 2) as i32,
        lm: r.below(4) as i32,
        start: start as i32,
        end: end as i32,
        trim: r.below(11) as i32,
        total: any_total(r, storage),
        intensity: r.within(start, end) as i32,
        dual: r.below(2) as i32,
        previous: any_band(r),
        bandwidth: any_band(r),
    }
}

fn any_request(r: &mut Random, writes: bool, state: State, bytes: Vec<u8>) -> Asked {
    let mut numbers = any_numbers(r, bytes.len() as u32);
    if writes && numbers.c == 1 && r.below(4) == 0 {
        (numbers.intensity, numbers.dual) = (any_i32(r), any_i32(r));
    }
    let offsets = any_offsets(r);
    let caps = any_caps(r, numbers.c, numbers.lm);
    Asked { writes, room: [21; 3], numbers, state, offsets, caps, bytes }
}

// ---- random coders

/// A symbol that stands before the allocation: its value and its kind.
enum Symbol {
    Bit(u32, u32),
    Uniform(u32, u32),
    Raw(u32, u32),
}

fn any_symbol(r: &mut Random) -> Symbol {
    match r.below(4) {
        0 => Symbol::Raw(r.below(1 << 3), 3),
        1 => {
            let ft = r.within(2, 300);
            Symbol::Uniform(r.below(ft), ft)
        }
        _ => Symbol::Bit(r.below(2), r.within(1, 15)),
    }
}

fn put(c: &mut ec_ctx, s: &Symbol) {
    match *s {
        Symbol::Bit(v, logp) => entenc::ec_enc_bit_logp(c, v as i32, logp),
        Symbol::Uniform(v, ft) => entenc::ec_enc_uint(c, v, ft),
        Symbol::Raw(v, bits) => entenc::ec_enc_bits(c, v, bits),
    }
}

fn get(c: &mut ec_ctx, s: &Symbol) {
    match *s {
        Symbol::Bit(_, logp) => drop(entdec::ec_dec_bit_logp(c, logp)),
        Symbol::Uniform(_, ft) => drop(entdec::ec_dec_uint(c, ft)),
        Symbol::Raw(_, bits) => drop(entdec::ec_dec_bits(c, bits)),
    }
}

/// Symbols for as long as the coder after them is not refused.
fn room_for_more(c: &ec_ctx) -> bool {
    ec_tell(c) as u32 + 24 <= 8 * c.storage + 32
}

fn any_storage(r: &mut Random) -> u32 {
    match r.below(10) {
        0 => r.below(4),
        1 => r.within(0, 1275),
        2 => r.one_of(&[0, 1, 1274, 1275]),
        _ => r.within(2, 160),
    }
}

fn any_bytes(r: &mut Random, storage: u32) -> Vec<u8> {
    let kind = r.below(8);
    (0..storage).map(|_| if kind < 2 { [0, 255][kind as usize] } else { r.below(256) as u8 }).collect()
}

/// A reader of those bytes after a few random symbols.
fn reader_after(r: &mut Random, bytes: &mut [u8]) -> State {
    let mut c = entdec::ec_dec_init(bytes);
    for _ in 0..r.below(16) {
        if room_for_more(&c) {
            get(&mut c, &any_symbol(r));
        }
    }
    state_of(&c.save())
}

/// An allocation read from bytes that no writer made.
pub fn read_any(r: &mut Random) -> Vec<Asked> {
    let storage = any_storage(r);
    let mut bytes = any_bytes(r, storage);
    let state = reader_after(r, &mut bytes);
    vec![any_request(r, false, state, bytes)]
}

/// The request to read what a writer left, after the symbols that stand before the allocation: its bytes are closed, and of one in four some are
/// then damaged.
fn read_back(r: &mut Random, a: &Asked, g: &Given, before: &[Symbol]) -> Asked {
    let mut bytes = g.bytes.clone();
    let mut c = entenc::ec_enc_init(&mut bytes);
    let [storage, offs, end_offs, end_window, waiting, total, rng, val, ext, rem, error] = g.at;
    c.restore(ec_ctx_saved {
        storage, offs, end_offs, end_window, nend_bits: waiting as i32, nbits_total: total as i32, rng, val, ext,
        rem: if rem == 256 { -1 } else { rem as i32 },
        error: -(error as i32),
    });
    entenc::ec_enc_done(&mut c);
    if storage > 0 && r.below(4) == 0 {
        bytes[r.below(storage.min(8)) as usize] ^= 1 << r.below(8);
    }
    let mut c = entdec::ec_dec_init(&mut bytes);
    before.iter().for_each(|s| get(&mut c, s));
    let state = state_of(&c.save());
    Asked { writes: false, state, bytes, ..a.clone() }
}

/// An allocation written after a few symbols, and read back.
pub fn write_any(r: &mut Random) -> Vec<Asked> {
    let storage = any_storage(r);
    let mut bytes = vec![r.below(256) as u8; storage as usize];
    let mut c = entenc::ec_enc_init(&mut bytes);
    let mut before = vec![];
    for _ in 0..r.below(16) {
        if room_for_more(&c) {
            before.push(any_symbol(r));
            put(&mut c, &before[before.len() - 1]);
        }
    }
    let state = state_of(&c.save());
    let a = any_request(r, true, state, bytes);
    let Ok(g) = a.given() else { panic!("refused: {}", a.line()) };
    let back = read_back(r, &a, &g, &before);
    vec![a, back]
}

/// Two totals, from this one down and one eighth bit apart, of which one has another number of coded bands; or the request as it is.
fn to_an_edge(a: Asked) -> Vec<Asked> {
    let at = |total: i32| Asked { numbers: Numbers { total, ..a.numbers }, ..a.clone() };
    let coded = |total: i32| at(total).given().map_or(0, |g| g.coded);
    let mut most = a.numbers.total;
    let Some(mut least) = (0..most).rev().step_by(64).find(|&t| coded(t) != coded(most)) else { return vec![a] };
    while least + 1 < most {
        let middle = (least + most) / 2;
        if coded(middle) == coded(most) {
            most = middle;
        } else {
            least = middle;
        }
    }
    vec![at(least), at(most)]
}

/// Two totals on either side of such an edge, written by a new writer or read from any bytes; most writers know of no narrow bandwidth.
pub fn edge_any(r: &mut Random) -> Vec<Asked> {
    let writes = r.below(3) > 0;
    let storage = r.within(1, 60);
    let mut bytes = any_bytes(r, storage);
    let c = if writes { entenc::ec_enc_init(&mut bytes) } else { entdec::ec_dec_init(&mut bytes) };
    let state = state_of(&c.save());
    let mut a = any_request(r, writes, state, bytes);
    a.numbers.total = r.within(1, 6000) as i32;
    if r.below(4) > 0 {
        a.numbers.bandwidth = 21;
    }
    if r.below(2) == 0 {
        a.numbers.start = r.below(17) as i32;
        a.numbers.end = r.within(17, 19) as i32;
        a.numbers.intensity = a.numbers.end;
    }
    to_an_edge(a)
}

/// A random state within its rule, whether or not symbols lead to it.
pub fn any_state(r: &mut Random) -> Vec<Asked> {
    let writes = r.below(2) == 0;
    let storage = any_storage(r);
    let rng = match r.below(8) {
        0 => r.one_of(&[(1 << 23) + 1, 1 << 31, (1 << 31) - 1, 1 << 24]),
        _ => r.within((1 << 23) + 1, 1 << 31),
    };
    let held = r.below(256);
    let top = ((1u64 << 32) - rng as u64) as u32;
    let offs = r.within(0, storage);
    let ends = if writes { r.within(0, storage - offs) } else { r.within(0, storage) };
    // Close under the bound of number 4 now and then, and never above it.
    let most = 8 * storage + 32 + (32 - rng.leading_zeros());
    let total = match r.below(4) {
        0 => most,
        _ => r.within(33, most),
    };
    let state = [
        storage, offs, ends, r.within(0, u32::MAX), r.within(0, 32), total, rng,
        if writes { top - 1 - r.below(top).min(r.below(1 << 31)) } else { r.below(rng) },
        if writes { r.below(6) } else { r.within(0, u32::MAX) },
        if writes { r.one_of(&[256, 255, held]) } else { held },
        r.below(8) / 7,
        0,
    ];
    let bytes = any_bytes(r, storage);
    vec![any_request(r, writes, state, bytes)]
}

// ---- refusals

/// The request that every refusal is one step away from: a reader or a writer of two bytes, both lists 0 but caps of 100.
fn plain(writes: bool) -> Asked {
    let mut bytes = vec![0x5a; 2];
    let c = if writes { entenc::ec_enc_init(&mut bytes) } else { entdec::ec_dec_init(&mut bytes) };
    let state = state_of(&c.save());
    Asked {
        writes,
        room: [21; 3],
        numbers: Numbers {
            c: 2, lm: 3, start: 1, end: 20, trim: 5, total: 128, intensity: 9, dual: 1, previous: 0, bandwidth: 20,
        },
        state,
        offsets: vec![0; 21],
        caps: vec![100; 21],
        bytes,
    }
}

/// Each number one step outside its domain, and its last step inside.
fn numbers_off(list: &mut Vec<Asked>, a: &Asked) {
    let mut with = |change: &dyn Fn(&mut Numbers)| {
        let mut b = a.clone();
        change(&mut b.numbers);
        list.push(b);
    };
    for v in [0, 1, 2, 3, i32::MIN, i32::MAX] {
        with(&|n| n.c = v);
    }
    for v in [-1, 0, 3, 4] {
        with(&|n| n.lm = v);
    }
    for v in [-1, 0, 19, 20, 21] {
        with(&|n| n.start = v);
    }
    for v in [0, 1, 2, 20, 21, 22, i32::MAX] {
        with(&|n| n.end = v);
    }
    for v in [-1, 0, 10, 11] {
        with(&|n| n.trim = v);
    }
    for v in [i32::MIN, -1, 0, 81600, 81601, i32::MAX] {
        with(&|n| n.total = v);
    }
    for c in [1, 2] {
        for v in [i32::MIN, -1, 0, 1, 20, 21, i32::MAX] {
            with(&|n| (n.c, n.intensity) = (c, v));
        }
        for v in [i32::MIN, -1, 0, 1, 2, i32::MAX] {
            with(&|n| (n.c, n.dual) = (c, v));
        }
    }
    for v in [i32::MIN, i32::MAX] {
        with(&|n| (n.previous, n.bandwidth) = (v, v));
    }
}

/// Each of the five lists of 20 and of 22, and bytes unlike the storage.
fn lengths_off(list: &mut Vec<Asked>, a: &Asked) {
    for long in [0, 20, 22] {
        for which in 0..5 {
            let mut b = a.clone();
            match which {
                0 => b.offsets.resize(long, 0),
                1 => b.caps.resize(long, 100),
                _ => b.room[which - 2] = long,
            }
            list.push(b);
        }
    }
    for storage in [1, 3] {
        let mut b = a.clone();
        b.state[0] = storage;
        list.push(b);
    }
}

/// Bad entries at the first place, the last, and outside start..end-1, with the last good ones.
fn entries_off(list: &mut Vec<Asked>, a: &Asked) {
    for place in [0, 1, 19, 20] {
        for v in [-1, 81600, 81601] {
            let mut b = a.clone();
            b.offsets[place] = v;
            list.push(b);
        }
        for v in [-1, 0, 32767, 32768] {
            let mut b = a.clone();
            b.caps[place] = v;
            list.push(b);
        }
    }
}

/// Each number of the state one step outside its rule, and its last step inside.
fn states_off(list: &mut Vec<Asked>, a: &Asked) {
    let mut with = |changes: &[(usize, u32)]| {
        let mut b = a.clone();
        for &(at, v) in changes {
            b.state[at] = v;
        }
        list.push(b);
    };
    for (at, values) in [
        (1, [2, 3]), (2, [2, 3]), (4, [32, 33]), (5, [32, 65535]), (5, [33, 65536]), (6, [1 << 23, (1 << 31) + 1]), (9, [255, 256]), (9, [0, 257]),
        (8, [65535, 65536]), (10, [0, 1]),
    ] {
        for v in values {
            with(&[(at, v)]);
        }
    }
    with(&[(1, 1), (2, 1)]);
    with(&[(1, 2), (2, 1)]);
    for val in [(1 << 30) - 1, 1 << 30, u32::MAX] {
        with(&[(6, 1 << 30), (7, val)]);
    }
    for val in [3 * (1 << 30) - 1, 3 * (1 << 30)] {
        with(&[(6, 1 << 30), (7, val)]);
    }
    // Tell is 48 and 49 bits, where two bytes allow 48.
    with(&[(5, 48 + 31), (6, 1 << 30), (7, 5)]);
    with(&[(5, 49 + 31), (6, 1 << 30), (7, 5)]);
    with(&[(11, 1)]);
}

/// Storages of 0, 1,275 and 1,276 bytes; without storage, tell is 32 and 33 bits.
fn storages(list: &mut Vec<Asked>, a: &Asked) {
    for storage in [0, 1275, 1276] {
        let mut b = a.clone();
        b.bytes = vec![0xa5; storage];
        b.state[0] = storage as u32;
        (b.state[1], b.state[2]) = (0, 0);
        list.push(b);
    }
    for total in [32 + 31, 33 + 31] {
        let mut b = a.clone();
        b.bytes = vec![];
        (b.state[0], b.state[1], b.state[2], b.state[5], b.state[6], b.state[7]) = (0, 0, 0, total, 1 << 30, 7);
        list.push(b);
    }
}

/// Two things wrong at once: the number that comes first in 2, 1, 3, 12, 4.
fn two_wrong(list: &mut Vec<Asked>, a: &Asked) {
    let wrong: [fn(&mut Asked); 6] = [
        |b| b.state[0] = 3,
        |b| b.room[2] = 20,
        |b| b.numbers.trim = 11,
        |b| b.offsets[20] = -1,
        |b| b.state[11] = 1,
        |b| (b.state[5], b.state[6], b.state[7]) = (49 + 31, 1 << 30, 5),
    ];
    for first in 0..wrong.len() {
        for second in first..wrong.len() {
            let mut b = a.clone();
            wrong[first](&mut b);
            wrong[second](&mut b);
            list.push(b);
        }
    }
}

/// Requests at the domain's limits, one step outside them, and with two things wrong.
pub fn refused() -> Vec<Asked> {
    let mut list = vec![];
    for writes in [false, true] {
        let a = plain(writes);
        for family in [numbers_off, lengths_off, entries_off, states_off, storages, two_wrong] {
            family(&mut list, &a);
        }
    }
    list
}

/// How many of each family one seed makes.
const READS: usize = 100;
const WRITES: usize = 80;
const EDGES: usize = 40;
const STATES: usize = 40;

pub fn all(r: &mut Random) -> Vec<Sequence> {
    let alone = |list: Vec<Asked>| list.into_iter().map(|a| vec![a]).collect::<Vec<_>>();
    let mut list = alone(traffic());
    list.extend((0..READS).map(|_| read_any(r)));
    list.extend((0..WRITES).map(|_| write_any(r)));
    list.extend((0..EDGES).map(|_| edge_any(r)));
    list.extend((0..STATES).map(|_| any_state(r)));
    list.extend(alone(refused()));
    list.iter().map(|asked| asked.iter().map(Asked::line).collect()).collect()
}

/// What the sequences reach, for the reader of the record.
pub fn figures(sequences: &[Sequence]) -> Vec<String> {
    let mut kinds = std::collections::BTreeMap::<String, u32>::new();
    let mut reached = std::collections::BTreeMap::<&str, u32>::new();
    let mut sizes = std::collections::BTreeMap::<String, u32>::new();
    for line in sequences.iter().flatten() {
        let a = Asked::of(line);
        let n = a.numbers;
        let g = match a.given() {
            Err(no) => {
                *kinds.entry(format!("refused as {no}")).or_default() += 1;
                continue;
            }
            Ok(g) => g,
        };
        *kinds.entry(if a.writes { "written" } else { "read" }.to_string()).or_default() += 1;
        *sizes.entry(format!("C {} LM {}", n.c, n.lm)).or_default() += 1;
        for (name, yes) in [
            ("start above 0", n.start > 0),
            ("a total below 0", n.total < 0),
            ("a boost", a.offsets.iter().any(|&v| v > 0)),
            ("a cap of 0", a.caps.contains(&0)),
            ("bands skipped", g.coded < n.end),
            ("intensity above start", g.intensity > n.start),
            ("dual stereo", g.dual == 1),
            ("a balance", g.balance > 0),
            ("an intensity that was lowered", a.writes && n.c == 2 && g.intensity < n.intensity),
            ("the error mark set", g.at[10] != 0),
        ] {
            *reached.entry(name).or_default() += yes as u32;
        }
    }
    let shown = |title: &str, list: Vec<String>| format!("{title}: {}", list.join(", "));
    vec![
        shown("allocations", kinds.iter().map(|(k, n)| format!("{k} {n}")).collect()),
        shown("with", reached.iter().map(|(k, n)| format!("{k} {n}")).collect()),
        shown("of", sizes.iter().map(|(k, n)| format!("{k}: {n}")).collect()),
    ]
}
