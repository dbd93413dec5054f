//! Recorded calls of libopus, from tools/compare/driver/src, and random requests, from the programs that replay them. A line of a recorded call
//! has fields separated by tabs; the driver's modules say which.
use crate::ours::{Numbers, State};

fn numbers<T: std::str::FromStr>(text: &str, part: char) -> Vec<T> {
    text.split(part).map(|w| w.parse().unwrap_or_else(|_| panic!("'{w}' is no number"))).collect()
}

fn bytes_of(hex: &str) -> Vec<u8> {
    (0..hex.len() / 2).map(|at| u8::from_str_radix(&hex[2 * at..2 * at + 2], 16).expect("hex")).collect()
}

/// The recorded order is that of the port's list.
fn state_of(text: &str) -> State {
    let n: Vec<i64> = numbers(text, ',');
    std::array::from_fn(|at| if at < 11 { n[at] } else { 0 })
}

/// A file of the repository, or nothing where it is not there.
fn file(root: &str, place: &str) -> String {
    std::fs::read_to_string(format!("{root}/{place}")).unwrap_or_else(|_| {
        eprintln!("bench: {place} is missing, and the jobs over it are left out");
        String::new()
    })
}

/// A question for an allocation.
#[derive(Clone)]
pub struct Question {
    pub writes: bool,
    pub numbers: Numbers,
    pub offsets: [i32; 21],
    pub caps: [i32; 21],
    pub state: State,
    pub bytes: Vec<u8>,
}

/// 21 entries; 0 for one past the last band that is outside the domain, as the memory there held anything.
fn list_of(text: &str, end: usize, most: i32) -> [i32; 21] {
    let n: Vec<i32> = numbers(text, ',');
    std::array::from_fn(|at| if at < end || (0..=most).contains(&n[at]) { n[at] } else { 0 })
}

pub fn allocations(root: &str) -> Vec<Question> {
    let line = |line: &str| {
        let f: Vec<&str> = line.split('\t').collect();
        let n: Vec<i32> = f[2..12].iter().map(|w| w.parse().expect("a number")).collect();
        Question {
            writes: f[1] == "1",
            numbers: std::array::from_fn(|at| n[at]),
            offsets: list_of(f[12], n[3] as usize, 81600),
            caps: list_of(f[13], n[3] as usize, 32767),
            state: state_of(f[14]),
            bytes: bytes_of(f[15]),
        }
    };
    file(root, "tools/compare/driver/src/alloc_traffic.txt").lines().map(line).collect()
}

/// The allocations of crates/replay_calls/stdin after those that repeat the recorded calls: random allocations. tools/compare's alloc.rs has their
/// form: the coder's state, ten numbers, six lengths, then offsets, caps and bytes. Those with a list of another length are passed over.
pub fn any_allocations(root: &str, recorded: usize) -> Vec<Question> {
    let line = |line: &str| {
        let n: Vec<i64> = numbers(&line[2..], ' ');
        if n[22..27] != [21; 5] {
            return None;
        }
        let [storage, offs, ends, window, waiting, total, rng, val, ext, rem, error, closed] = std::array::from_fn(|at| n[at]);
        let held = if rem == 256 { -1 } else { rem };
        Some(Question {
            writes: line.starts_with('W'),
            numbers: std::array::from_fn(|at| n[12 + at] as i32),
            offsets: std::array::from_fn(|at| n[28 + at] as i32),
            caps: std::array::from_fn(|at| n[49 + at] as i32),
            state: [storage, ends, window, waiting, total, offs, rng, val, ext, held, error, closed],
            bytes: n[70..].iter().map(|&b| b as u8).collect(),
        })
    };
    let requests = file(root, "crates/replay_calls/stdin");
    requests.lines().filter(|line| line.starts_with(['R', 'W'])).skip(recorded).filter_map(line).collect()
}

/// A decoding of coarse energies, or of a frame's last bits.
#[derive(Clone)]
pub struct Energies {
    pub c: i32,
    pub start: i32,
    pub end: i32,
    /// Of a coarse decoding.
    pub lm: i32,
    pub intra: i32,
    /// Of the last bits.
    pub left: i32,
    pub fine: [i32; 21],
    pub priorities: [i32; 21],
    /// The energies before, the reader's state before, and the packet.
    pub energies: [f32; 42],
    pub state: State,
    pub bytes: Vec<u8>,
}

fn floats(text: &str) -> [f32; 42] {
    let n: Vec<f32> = text.split(',').map(|w| f32::from_bits(u32::from_str_radix(w, 16).expect("hex"))).collect();
    n.try_into().expect("42 energies")
}

fn list_21(text: &str) -> [i32; 21] {
    numbers(text, ',').try_into().expect("21 entries")
}

/// The recorded calls with this letter: E for coarse decodings, F for last bits. tools/compare's energy_sequences.rs has their form.
fn recorded_energies(root: &str, letter: &str, of: impl Fn(&[&str]) -> Energies) -> Vec<Energies> {
    let text = file(root, "tools/compare/driver/src/energy_traffic.txt");
    let lines = text.lines().map(|line| line.split('\t').collect::<Vec<&str>>());
    lines.filter(|f| f[0] == letter).map(|f| of(&f)).collect()
}

pub fn coarse(root: &str) -> Vec<Energies> {
    recorded_energies(root, "E", |f| {
        let [c, lm, start, end, intra] = std::array::from_fn(|at| f[1 + at].parse().expect("a number"));
        let (energies, state, bytes) = (floats(f[6]), state_of(f[7]), bytes_of(f[8]));
        Energies { c, start, end, lm, intra, left: 0, fine: [0; 21], priorities: [0; 21], energies, state, bytes }
    })
}

pub fn last_bits(root: &str) -> Vec<Energies> {
    recorded_energies(root, "F", |f| {
        let [c, start, end, left] = std::array::from_fn(|at| f[1 + at].parse().expect("a number"));
        let (energies, state, bytes) = (floats(f[7]), state_of(f[8]), bytes_of(f[9]));
        Energies { c, start, end, lm: 0, intra: 0, left, fine: list_21(f[5]), priorities: list_21(f[6]), energies, state, bytes }
    })
}

/// A decoding of a shape.
#[derive(Clone)]
pub struct Shape {
    pub n: u32,
    pub k: u32,
    pub spread: i32,
    pub b: i32,
    pub gain: f32,
    pub state: State,
    pub bytes: Vec<u8>,
}

pub fn shapes(root: &str) -> Vec<Shape> {
    let line = |line: &str| {
        let f: Vec<&str> = line.split('\t').collect();
        let [n, k, spread, b] = std::array::from_fn(|at| f[1 + at].parse::<u32>().expect("a number"));
        let gain = f32::from_bits(u32::from_str_radix(f[5], 16).expect("hex"));
        Shape { n, k, spread: spread as i32, b: b as i32, gain, state: state_of(f[6]), bytes: bytes_of(f[7]) }
    };
    file(root, "tools/compare/driver/src/shape_traffic.txt").lines().map(line).collect()
}

/// The request lines of the lister, with their numbers.
pub fn request_lines(root: &str) -> Vec<(u32, String)> {
    (1..).zip(file(root, "crates/lister/stdin").split('\n').map(str::to_string)).collect()
}
