//! Sequences of the range coder's requests: every kind of symbol, storages from 0 to 1,275, full buffers, long runs before a carry, bytes
//! that range data and raw bits share, damaged bytes, reads past the end, refusals, and states that are handed in, good and bad.
use crate::coder::{Oracle, Stage};
use crate::random::Random;
use crate::{Sequence, Side};

/// A symbol's kind. A table has its entries and the logarithm of its places.
#[derive(Clone, PartialEq)]
pub enum Shape {
    Bit(u32),
    Table(Vec<u8>, u32),
    Uniform(u32),
    Raw(u32),
}

/// The raw bits of a uniform number below ft: those below its upper eight.
fn low_bits(ft: u32) -> u32 {
    (32 - (ft - 1).leading_zeros()).saturating_sub(8)
}

impl Shape {
    /// How many values the kind has.
    fn count(&self) -> u64 {
        match self {
            Shape::Bit(_) => 2,
            Shape::Table(table, _) => table.len() as u64,
            Shape::Uniform(ft) => *ft as u64,
            Shape::Raw(bits) => 1 << bits,
        }
    }

    /// The places fl up to fh of ft that the range coder gives a value.
    fn places(&self, v: u32) -> (u64, u64, u64) {
        match self {
            Shape::Bit(logp) => {
                let ft = 1 << logp;
                if v == 0 { (0, ft - 1, ft) } else { (ft - 1, ft, ft) }
            }
            Shape::Table(table, ftb) => {
                let ft = 1 << ftb;
                let below = if v == 0 { ft } else { table[v as usize - 1] as u64 };
                (ft - below, ft - table[v as usize] as u64, ft)
            }
            Shape::Uniform(ft) => {
                let h = (v >> low_bits(*ft)) as u64;
                (h, h + 1, ((ft - 1) >> low_bits(*ft)) as u64 + 1)
            }
            Shape::Raw(_) => (0, 1, 1),
        }
    }
}

/// A table of 2^ftb places with that many symbols.
fn table(r: &mut Random, ftb: u32, symbols: u32) -> Shape {
    let mut entries: Vec<u8> = (1..1u32 << ftb).map(|e| e as u8).collect();
    while entries.len() as u32 >= symbols {
        entries.remove(r.below(entries.len() as u32) as usize);
    }
    entries.reverse();
    entries.push(0);
    Shape::Table(entries, ftb)
}

fn any_table(r: &mut Random) -> Shape {
    let ftb = r.within(1, 8);
    let most = (1 << ftb).min(if r.below(12) == 0 { 256 } else { 12 });
    let symbols = r.within(1, most);
    table(r, ftb, symbols)
}

const UNIFORM: [u32; 20] = [
    2, 3, 4, 5, 7, 16, 100, 255, 256, 257, 258, 511, 512, 513, 65535, 65536, 65537, 16777215, 2147483649, 4294967295,
];

fn any_uniform(r: &mut Random) -> Shape {
    let least = r.one_of(&[2, 2, 256, 65536, 2147483648]);
    let ft = if r.below(2) == 0 { r.one_of(&UNIFORM) } else { r.within(least, least.saturating_mul(256)) };
    Shape::Uniform(ft)
}

/// Any kind.
pub fn any(r: &mut Random) -> Shape {
    match r.below(4) {
        0 => Shape::Bit(r.within(1, 15)),
        1 => any_table(r),
        2 => any_uniform(r),
        _ => Shape::Raw(r.within(1, 25)),
    }
}

/// A kind that takes few bits, so that a small storage holds several symbols.
pub fn small(r: &mut Random) -> Shape {
    match r.below(4) {
        0 => Shape::Bit(r.within(1, 4)),
        1 => table(r, 3, 5),
        2 => Shape::Uniform(r.within(2, 9)),
        _ => Shape::Raw(r.within(1, 5)),
    }
}

/// A value of the kind, the first and the last more often than others.
pub fn value(r: &mut Random, shape: &Shape) -> u32 {
    match r.below(8) {
        0 => (shape.count() - 1) as u32,
        1 => 0,
        _ => r.within(0, (shape.count() - 1) as u32),
    }
}

/// A sequence as it grows, with the oracle's state after each request.
struct Maker {
    lines: Sequence,
    oracle: Oracle,
    written: Vec<(Shape, u32)>,
}

impl Maker {
    fn new(storage: u32, fill: u32) -> Self {
        let mut m = Maker { lines: vec![], oracle: Oracle::new(), written: vec![] };
        m.ask(format!("S {storage} {fill}"));
        m
    }

    /// Makes a request; true where it is refused.
    fn ask(&mut self, line: String) -> bool {
        let answer = self.oracle.answer(&line);
        self.lines.push(line);
        answer.is_some_and(|a| a.starts_with('X'))
    }

    /// The table of the kind, where it is another than the last.
    fn lay(&mut self, shape: &Shape) {
        if let Shape::Table(table, ftb) = shape {
            if self.oracle.table != *table || self.oracle.ftb != *ftb {
                let entries: String = table.iter().map(|e| format!(" {e}")).collect();
                self.ask(format!("T {ftb}{entries}"));
            }
        }
    }

    fn put(&mut self, shape: &Shape, v: u32) -> bool {
        self.lay(shape);
        self.written.push((shape.clone(), v));
        self.ask(match shape {
            Shape::Bit(logp) => format!("B {v} {logp}"),
            Shape::Table(..) => format!("I {v}"),
            Shape::Uniform(ft) => format!("U {v} {ft}"),
            Shape::Raw(bits) => format!("R {v} {bits}"),
        })
    }

    fn get(&mut self, shape: &Shape) -> bool {
        self.lay(shape);
        self.ask(match shape {
            Shape::Bit(logp) => format!("b {logp}"),
            Shape::Table(..) => "i".to_string(),
            Shape::Uniform(ft) => format!("u {ft}"),
            Shape::Raw(bits) => format!("r {bits}"),
        })
    }

    fn close(&mut self) {
        self.ask("C".to_string());
    }

    fn damage(&mut self, place: u32, v: u32) {
        self.ask(format!("D {place} {v}"));
    }

    fn room(&self) -> u32 {
        8 * self.oracle.bytes.len() as u32
    }

    /// Writes kinds of a family for as long as the next one surely fits, at most that many.
    fn fill(&mut self, r: &mut Random, most: usize, family: fn(&mut Random) -> Shape) {
        for _ in 0..most {
            let shape = family(r);
            let v = value(r, &shape);
            let mut tried = self.oracle.clone();
            std::mem::swap(&mut tried, &mut self.oracle);
            let (lines, written) = (self.lines.len(), self.written.len());
            self.put(&shape, v);
            if self.oracle.tell > self.room() {
                self.oracle = tried;
                self.lines.truncate(lines);
                self.written.truncate(written);
            }
        }
    }

    /// Writes until two writes were refused, or that many were made.
    fn spill(&mut self, r: &mut Random, most: usize, family: fn(&mut Random) -> Shape) {
        let mut refused = 0;
        for _ in 0..most {
            let shape = family(r);
            let v = value(r, &shape);
            refused += self.put(&shape, v) as u32;
            if refused == 2 {
                return;
            }
        }
    }

    /// Reads the kinds that were written, in their order.
    fn read_back(&mut self) {
        self.ask("O".to_string());
        for (shape, _) in self.written.clone() {
            self.get(&shape);
        }
    }

    /// The same, where all that was written fits: each value comes back.
    fn read_same(&mut self) {
        self.ask("O".to_string());
        for (shape, v) in self.written.clone() {
            assert!(!self.get(&shape) && self.oracle.value == v, "{:?}", self.lines);
        }
    }

    /// Reads on until two reads were refused, or that many were made.
    fn read_on(&mut self, r: &mut Random, most: usize, family: fn(&mut Random) -> Shape) {
        let mut refused = 0;
        for _ in 0..most {
            let shape = family(r);
            refused += self.get(&shape) as u32;
            if refused == 2 {
                return;
            }
        }
    }

    /// Of these kinds the value of which the low end and the high end lie on both sides of the point (side 0), or whose low end is not
    /// below it (side 1), or whose high end is not above it (side 2).
    fn beside(&self, r: &mut Random, shape: &Shape, point: u64, side: u32) -> Option<u32> {
        let (val, rng) = (self.oracle.at.val as u64, self.oracle.at.rng as u64);
        let low = if let Shape::Uniform(ft) = shape { low_bits(*ft) } else { 0 };
        let mut fits = vec![];
        for high in 0..=((shape.count() - 1) >> low) as u32 {
            let first = high << low;
            let (fl, fh, ft) = shape.places(first);
            let q = rng / ft;
            let (start, size) = if fl == 0 { (val, rng - q * (ft - fh)) } else { (val + rng - q * (ft - fl), q * (fh - fl)) };
            let end = start + size;
            if [start < point && point < end, start >= point, end <= point][side as usize] {
                fits.push(first);
            }
        }
        if fits.is_empty() {
            return None;
        }
        let first = r.one_of(&fits);
        Some(r.within(first, (first as u64 + (1 << low) - 1).min(shape.count() - 1) as u32))
    }

    /// Keeps the low end and the high end on both sides of a carry until that many bytes of 255 wait, and then goes to a side: a carry
    /// (1), none (2), or neither (0).
    fn long_run(&mut self, r: &mut Random, run: u32, side: u32, family: fn(&mut Random) -> Shape) {
        let first = (r.within(1, 255) as u64) << 23;
        let mut left = 20 * run as usize + 200;
        loop {
            let point = if self.oracle.at.rem < 0 { first } else { 1 << 31 };
            let goes = self.oracle.at.ext >= run;
            if goes && side == 0 || left == 0 {
                return;
            }
            left -= 1;
            let shape = family(r);
            if let Some(v) = self.beside(r, &shape, point, if goes { side } else { 0 }) {
                if self.put(&shape, v) || goes {
                    return;
                }
            }
        }
    }
}

/// Kinds that go into the range alone or nearly, of which most take about a byte.
fn ranged(r: &mut Random) -> Shape {
    match r.below(4) {
        0 => Shape::Bit(r.within(1, 6)),
        1 => table(r, 8, 60),
        2 => Shape::Uniform(r.one_of(&[3, 100, 255, 256, 257, 300])),
        _ => Shape::Uniform(r.within(2, 256)),
    }
}

/// Kinds of which each takes a byte of the range.
fn wide(r: &mut Random) -> Shape {
    Shape::Uniform(r.within(250, 256))
}

/// Kinds of which each takes many bits.
fn large(r: &mut Random) -> Shape {
    match r.below(3) {
        0 => Shape::Uniform(r.within(1 << 31, u32::MAX)),
        1 => Shape::Raw(r.within(16, 25)),
        _ => Shape::Uniform(r.within(200, 256)),
    }
}

/// Some that fit, read back as they were written.
fn plain(r: &mut Random, list: &mut Vec<Sequence>) {
    for (storage, times, most) in [(1, 8, 12), (2, 8, 14), (3, 8, 16), (4, 10, 18), (60, 24, 24), (1275, 6, 40)] {
        for _ in 0..times {
            let mut m = Maker::new(storage, r.below(256));
            m.fill(r, most, if storage < 60 { small } else { any });
            m.close();
            m.read_same();
            list.push(m.lines);
        }
    }
}

/// Each kind by itself, at every size of it.
fn single(r: &mut Random, list: &mut Vec<Sequence>) {
    let mut families: Vec<Vec<Shape>> = (1..=15).map(|logp| vec![Shape::Bit(logp); 14]).collect();
    for ftb in 1..=8 {
        let symbols = [1, 2, 3, 5, 8, 20, 60, 1 << ftb];
        families.push(symbols.iter().map(|&n| table(r, ftb, n.min(1 << ftb))).collect());
    }
    families.extend(UNIFORM.chunks(5).map(|fts| fts.iter().flat_map(|&ft| vec![Shape::Uniform(ft); 3]).collect()));
    families.extend([1, 6, 11, 16, 21].map(|n| (n..n + 5).flat_map(|bits| vec![Shape::Raw(bits); 3]).collect()));
    for shapes in families {
        let mut m = Maker::new(60, r.below(256));
        for shape in shapes {
            let v = value(r, &shape);
            m.put(&shape, v);
        }
        m.close();
        m.read_back();
        list.push(m.lines);
    }
}

/// More than fits: the error mark comes with a write or with the close, and at last writes and reads are refused.
fn full(r: &mut Random, list: &mut Vec<Sequence>) {
    for (storage, times, most) in [(0, 10, 20), (1, 8, 20), (2, 8, 20), (3, 8, 24), (4, 8, 24), (60, 5, 200)] {
        for turn in 0..times {
            let mut m = Maker::new(storage, r.below(256));
            m.spill(r, most, if storage == 60 { large } else if turn % 2 == 0 { small } else { any });
            m.close();
            m.read_back();
            list.push(m.lines);
        }
    }
    let mut m = Maker::new(1275, 165);
    m.spill(r, 600, large);
    m.close();
    m.read_back();
    list.push(m.lines);
}

/// Runs of 255 of at least ten bytes, with a carry after them, without one, or closed while they wait; and runs that do not fit.
fn carries(r: &mut Random, list: &mut Vec<Sequence>) {
    for (times, storage, run, side, after) in
        [(12, 60, 10, 1, 6), (3, 60, 30, 1, 4), (4, 60, 10, 2, 6), (3, 60, 12, 0, 0), (6, 4, 4, 1, 1), (4, 3, 3, 1, 1)]
    {
        for _ in 0..times {
            let mut m = Maker::new(storage, r.below(256));
            m.long_run(r, run, side, ranged);
            m.spill(r, after, any);
            m.close();
            m.read_back();
            list.push(m.lines);
        }
    }
    let mut m = Maker::new(1275, 90);
    m.long_run(r, 260, 1, wide);
    m.close();
    m.read_back();
    list.push(m.lines);
}

/// The raw bits that wait at a close, fewer than 8.
fn last_raw(o: &Oracle) -> i32 {
    o.at.nend_bits % 8
}

/// After this close range data and raw bits share a byte.
fn shares(before: &Oracle, after: &Oracle) -> bool {
    after.at.error == 0 && last_raw(before) > 0 && after.at.offs + after.at.end_offs >= after.at.storage
}

/// This close sets the mark for the last raw bits alone, which do not fit beside the range data.
fn busts(before: &Oracle, after: &Oracle) -> bool {
    let mut without = before.clone();
    without.at.nend_bits -= last_raw(before);
    without.answer("C");
    without.at.error == 0 && after.at.error != 0 && after.at.end_offs < after.at.storage
}

/// A sequence that nearly fills its storage, with that many raw bits (0: none) at its end, if its close is of the kind wanted.
fn meeting(r: &mut Random, storage: u32, bits: u32, wanted: fn(&Oracle, &Oracle) -> bool) -> Option<Sequence> {
    let mut m = Maker::new(storage, r.below(256));
    if storage == 60 {
        m.fill(r, 30, large);
    }
    m.fill(r, 16, small);
    if bits > 0 {
        m.put(&Shape::Raw(bits), r.below(1 << bits));
    }
    let before = m.oracle.clone();
    m.close();
    wanted(&before, &m.oracle).then(|| {
        m.read_back();
        m.lines
    })
}

/// Closes at which range data and raw bits meet in one byte, with room for both or without.
fn shared(r: &mut Random, list: &mut Vec<Sequence>) {
    for (storage, times) in [(1, 5), (2, 5), (3, 5), (4, 5), (60, 4)] {
        for _ in 0..times {
            list.extend((0..10000).find_map(|_| meeting(r, storage, 0, shares)));
            let bits = r.within(1, 7);
            list.extend((0..10000).find_map(|_| meeting(r, storage, bits, busts)));
        }
    }
}

/// Bytes changed after the close. In the first half a uniform number is read that is too high, which gives the highest and the mark.
fn damaged(r: &mut Random, list: &mut Vec<Sequence>) {
    for (turn, ft) in [257, 258, 300, 513, 1000, 4097, 65537, 100001, 16777217, 40000001, 2147483649, 4294967041].iter().enumerate() {
        let storage = if turn < 6 { 4 } else { 60 };
        let mut m = Maker::new(storage, 0);
        if turn % 2 == 1 {
            m.put(&Shape::Bit(2), 1);
        }
        m.put(&Shape::Uniform(*ft), ft - 1);
        m.put(&Shape::Bit(3), 0);
        m.fill(r, turn, small);
        m.close();
        for back in 1..=4.min(storage - 1) {
            m.damage(storage - back, 255);
        }
        m.read_back();
        list.push(m.lines);
    }
    for storage in [1, 2, 3, 4, 60, 60, 60, 60, 60, 60, 1275, 1275] {
        let mut m = Maker::new(storage, r.below(256));
        m.fill(r, 25, if storage < 60 { small } else { any });
        m.close();
        for _ in 0..r.within(1, 6) {
            let near = r.below(storage.min(20));
            m.damage(if r.below(2) == 0 { near } else { storage - 1 - near }, r.below(256));
        }
        m.read_back();
        m.read_on(r, 10, any);
        list.push(m.lines);
    }
}

/// Reads of bytes that no writer made, on past their end until reads are refused.
fn past_the_end(r: &mut Random, list: &mut Vec<Sequence>) {
    for (storage, times, most) in [(0, 4, 30), (1, 4, 30), (2, 4, 30), (3, 3, 30), (4, 3, 30), (60, 3, 60)] {
        for _ in 0..times {
            let mut m = Maker::new(storage, r.below(256));
            for place in 0..storage {
                m.damage(place, r.below(256));
            }
            m.ask("O".to_string());
            m.read_on(r, most, if storage < 60 { small } else { any });
            list.push(m.lines);
        }
    }
}

/// Every refusal of a write, a close and a read, with the calls beside it that are taken.
fn refused(r: &mut Random, list: &mut Vec<Sequence>) {
    let bad = ["T 3", "T 3 8 4 0", "T 8 255 255 0", "T 4 9 5 1", "T 4 5 9 0", "T 0 0", "T 9 3 0", "T 1 2 0", "T 5 31 0", "T 8 255 0"];
    let writes = [
        "B 2 1", "B 0 0", "B 1 16", "B 1 15", "U 0 0", "U 0 1", "U 2 2", "U 1 2", "U 4294967295 4294967295", "U 4294967294 4294967295",
        "R 0 0", "R 2 1", "R 33554432 25", "R 33554431 25", "R 1 26", "R 1 32", "R 1 33", "R 4294967295 4294967295",
    ];
    let reads = ["b 0", "b 16", "b 15", "u 0", "u 1", "u 2", "r 0", "r 26", "r 33", "r 25", "b 4294967295", "r 4294967295"];
    for storage in [1, 60, 1275] {
        let mut m = Maker::new(storage, r.below(256));
        for line in bad {
            m.ask(line.to_string());
            m.ask("I 0".to_string());
            m.ask("I 2".to_string());
        }
        for line in writes {
            m.ask(line.to_string());
        }
        m.close();
        m.close();
        for line in ["B 0 1", "U 0 2", "R 0 1", "I 0", "B 0 16", "U 2 2", "R 2 1"] {
            m.ask(line.to_string());
        }
        m.ask("O".to_string());
        for line in bad {
            m.ask(line.to_string());
            m.ask("i".to_string());
        }
        for line in reads {
            m.ask(line.to_string());
        }
        list.push(m.lines);
    }
    for storage in [1275, 1276] {
        let mut m = Maker::new(storage, 7);
        m.ask("O".to_string());
        list.push(m.lines);
    }
}

/// Numbers that a state has instead, by their places: storage 0, offs 1, ends 2, window 3, waiting 4, total 5, rng 6, val 7, ext 8, rem 9, error 10,
/// a writer's closed 11.
type Changes<'a> = &'a [(usize, u32)];

/// A request that hands a state in.
fn state(letter: char, mut numbers: Vec<u32>, changes: Changes) -> String {
    for &(at, v) in changes {
        numbers[at] = v;
    }
    numbers.iter().fold(letter.to_string(), |line, v| format!("{line} {v}"))
}

/// A new writer over four bytes, changed.
fn writer(changes: Changes) -> String {
    state('K', vec![4, 0, 0, 0, 0, 33, 1 << 31, 0, 0, 256, 0, 0], changes)
}

/// A reader of four bytes, of which one is read, changed.
fn reader(changes: Changes) -> String {
    state('k', vec![4, 1, 0, 0, 0, 33, 1 << 31, 0x12345678, 7, 18, 0], changes)
}

impl Maker {
    /// Asks each of the calls on one state, which is handed in again after a call that was taken.
    fn try_all(&mut self, state: &str, calls: &[&str]) {
        self.ask(state.to_string());
        for call in calls {
            if !self.ask(call.to_string()) {
                self.ask(state.to_string());
            }
        }
    }

    fn ask_all(&mut self, lines: &[&str]) {
        for line in lines {
            self.ask(line.to_string());
        }
    }
}

/// Writers handed in, each clause of the rule broken by one and kept by as little, with every write and the close; tell is in K's own answer.
fn written_states(_: &mut Random, list: &mut Vec<Sequence>) {
    let calls = ["B 1 1", "I 1", "U 3 7", "R 5 3", "C"];
    let changes: [Changes; 27] = [
        &[], &[(6, 1 << 23)], &[(6, (1 << 23) + 1)], &[(6, (1 << 31) + 1)], &[(6, 0)], &[(4, 32)], &[(4, 33)], &[(5, 32)], &[(5, 96)], &[(5, 97)],
        &[(5, 65535)], &[(5, 65536)], &[(1, 3), (2, 1)], &[(1, 3), (2, 2)], &[(1, u32::MAX), (2, 2)], &[(1, 2), (2, u32::MAX)],
        &[(7, (1 << 31) - 1)], &[(7, 1 << 31)], &[(9, 0)], &[(9, 255)], &[(9, 257)], &[(8, 65535)], &[(8, 65536)], &[(10, 1)],
        &[(11, 1)], &[(11, 1), (5, 97)], &[(11, 1), (5, 65536)],
    ];
    let mut m = Maker::new(4, 170);
    m.ask_all(&["T 8 192 64 0"]);
    for change in changes {
        m.try_all(&writer(change), &calls);
    }
    list.push(m.lines);
    // Bytes of another length, and a storage that is too large.
    for (lent, change) in [(5, &[][..]), (5, &[(6, 1 << 23)]), (0, &[]), (1275, &[(0, 1275)]), (1276, &[(0, 1276)])] {
        let mut m = Maker::new(lent, 170);
        m.ask_all(&["T 8 192 64 0"]);
        m.try_all(&writer(change), &calls);
        list.push(m.lines);
    }
    // Two faults at once, of which one is a table's.
    let mut m = Maker::new(4, 170);
    for (table, symbol, change) in [
        ("T 8 64 128 0", "I 3", &[][..]), ("T 8 64 128 0", "I 0", &[(6, 1 << 23)]), ("T 8 64 128 0", "I 0", &[(11, 1)]),
        ("T 8 64 128 0", "I 0", &[(5, 97)]), ("T 9", "I 0", &[]), ("T 7 192 64 0", "I 0", &[]),
    ] {
        m.ask_all(&[table, &writer(change), symbol]);
    }
    list.push(m.lines);
    // A carry through a held run of two, from a held byte below 255 and from 255.
    for rem in [247, 255] {
        let mut m = Maker::new(4, 170);
        m.ask_all(&[&writer(&[(9, rem), (8, 2), (7, (1 << 31) + 5), (6, 1 << 24), (5, 60)]), "B 1 15", "C"]);
        list.push(m.lines);
    }
}

/// Readers handed in, each clause of the rule broken by one and kept at its last number, with every read; tell is in k's own answer.
fn read_states(_: &mut Random, list: &mut Vec<Sequence>) {
    let calls = ["b 1", "i", "u 257", "r 9"];
    let low = (6, (1 << 23) + 1);
    let changes: [Changes; 27] = [
        &[], &[(6, 1 << 23), (7, 0)], &[low, (7, 0)], &[(6, (1 << 31) + 1)], &[(6, 0), (7, 0)], &[(7, 1 << 31)], &[(7, (1 << 31) - 1)], &[(1, 5)],
        &[(1, 4)], &[(2, 5)], &[(2, 4)], &[(4, 33)], &[(3, 4275878552), (4, 32)], &[(9, 256)], &[(9, 255)], &[(5, 32)], &[(5, 65536)],
        &[(5, 65535), low, (7, 0)], &[(5, 96)], &[(5, 97)], &[(5, 100), (6, 1000000000)], &[low, (7, 3), (9, 1)], &[low, (7, 3), (9, 2)],
        &[(7, 0)], &[(7, 0), (10, 1)], &[(3, u32::MAX), (4, 3)], &[(0, 3)],
    ];
    let packet = ["D 0 18", "D 1 52", "D 2 86", "D 3 255"];
    let mut m = Maker::new(4, 0);
    m.ask_all(&packet);
    m.ask_all(&["T 2 3 1 0"]);
    for change in changes {
        m.try_all(&reader(change), &calls);
    }
    m.ask_all(&[&reader(&[(7, 3)]), "b 15", &reader(&[(7, 0), (10, 1)]), "u 5"]);
    m.ask_all(&[&reader(&[(1, 4), (2, 4), (6, 1 << 24), (7, 1)]), "u 4294967295"]);
    list.push(m.lines);
    // Two faults at once: the first of 2, 1, 3, 4 is given.
    let mut m = Maker::new(4, 0);
    m.ask_all(&packet);
    for (table, call, change) in [
        ("T 2 1 2 0", "b 1", &[(0, 3), (5, 32)][..]), ("T 2 1 2 0", "b 0", &[(0, 3)]), ("T 2 1 2 0", "i", &[(0, 3)]),
        ("T 2 1 2 0", "r 1", &[(0, 3), (5, 200)]), ("T 2", "i", &[(9, 256)]), ("T 9", "i", &[]), ("T 2 1 2 0", "i", &[(5, 32)]),
        ("T 9 1 2 0", "i", &[]), ("T 2 1 2 0", "u 1", &[(5, 200)]), ("T 2 1 2 0", "i", &[(5, 200)]), ("T 2 3 0 1", "i", &[]),
    ] {
        m.ask_all(&[table, &reader(change), call]);
    }
    list.push(m.lines);
    // The largest storage, one larger, and none, where zeros are read.
    for (storage, change) in [(1275, &[(0, 1275)][..]), (1276, &[(0, 1276)]), (0, &[(0, 0), (1, 0), low, (7, 1 << 23)])] {
        let mut m = Maker::new(storage, 0);
        m.ask_all(&["T 2 3 1 0"]);
        m.try_all(&reader(change), &calls);
        m.ask_all(&["r 25"]);
        list.push(m.lines);
    }
    // Reads of every kind, one after the other.
    let mut m = Maker::new(8, 0);
    m.ask_all(&["D 0 201", "D 1 17", "D 2 64", "D 3 250", "D 4 33", "D 5 144", "D 6 8", "D 7 91", "O", "b 3", "T 2 3 1 0", "i"]);
    m.ask_all(&["u 100", "r 7", "u 70000", "r 25", "b 15"]);
    list.push(m.lines);
}

/// Short messages of every kind, with calls after the close, and with more than fits.
fn messages(_: &mut Random, list: &mut Vec<Sequence>) {
    for (storage, lines) in [
        (8, &["B 1 3", "T 8 192 64 0", "I 1", "U 6 7", "U 69999 70000", "R 341 9", "B 1 15", "C", "B 1 3", "C"][..]),
        (1, &["R 85 7", "B 1 15", "C"]),
        (0, &["R 1 1", "C"]),
    ] {
        let mut m = Maker::new(storage, 170);
        m.ask_all(lines);
        list.push(m.lines);
    }
}

pub fn all(r: &mut Random) -> Vec<Sequence> {
    let mut list = vec![];
    for family in [plain, single, full, carries, shared, damaged, past_the_end, refused, written_states, messages, read_states] {
        family(r, &mut list);
    }
    list
}

/// What the sequences reach, for the reader of the record.
pub fn figures(sequences: &[Sequence]) -> Vec<String> {
    let mut calls = std::collections::BTreeMap::<String, u32>::new();
    let mut storages = std::collections::BTreeMap::<usize, u32>::new();
    let (mut runs, mut longest, mut carried, mut longest_carried) = (0, 0, 0, 0);
    let (mut shared, mut busted, mut write_mark, mut close_mark, mut read_mark, mut past) = (0, 0, 0, 0, 0, 0);
    for sequence in sequences {
        let mut o = Oracle::new();
        let (mut run, mut carry, mut wm, mut cm, mut rm, mut p) = (0, 0, false, false, false, false);
        let mut handed = false;
        for line in sequence {
            let before = o.clone();
            let answer = o.answer(line);
            let letter = line.split(' ').next().unwrap_or("").to_string();
            let refused = answer.filter(|a| a.starts_with('X'));
            *calls.entry(refused.clone().unwrap_or(letter.clone())).or_default() += 1;
            // Of what follows a state that was handed in, nothing but the calls is counted.
            handed |= matches!(letter.as_str(), "K" | "k");
            if refused.is_some() || handed {
                continue;
            }
            if letter == "S" {
                *storages.entry(o.bytes.len()).or_default() += 1;
            }
            run = run.max(if o.stage == Stage::Writing { o.at.ext } else { 0 });
            let (place, rem) = (before.at.offs as usize, before.at.rem);
            let writes = before.stage == Stage::Writing;
            if writes && before.at.ext > 0 && o.at.offs > before.at.offs && o.bytes[place] as i32 == rem + 1 {
                carry = carry.max(before.at.ext);
            }
            wm |= writes && o.stage == Stage::Writing && o.at.error != 0;
            if letter == "C" {
                cm |= before.at.error == 0 && o.at.error != 0;
                shared += shares(&before, &o) as u32;
                busted += busts(&before, &o) as u32;
            }
            rm |= o.stage == Stage::Reading && o.at.error != 0;
            p |= o.stage == Stage::Reading && o.tell > 8 * o.bytes.len() as u32;
        }
        runs += (run > 0) as u32;
        longest = longest.max(run);
        carried += (carry >= 10) as u32;
        longest_carried = longest_carried.max(carry);
        write_mark += wm as u32;
        close_mark += cm as u32;
        read_mark += rm as u32;
        past += p as u32;
    }
    let list = |pairs: Vec<(String, u32)>| pairs.iter().map(|(name, n)| format!("{name}: {n}")).collect::<Vec<_>>().join(", ");
    vec![
        format!("requests by letter, refused ones by number: {}", list(calls.into_iter().collect())),
        format!("sequences by storage: {}", list(storages.iter().map(|(k, v)| (k.to_string(), *v)).collect())),
        format!("sequences in which bytes of 255 wait: {runs}, the longest run {longest}"),
        format!("sequences with a carry through a run of 10 or more: {carried}, the longest {longest_carried}"),
        format!("closes that share a byte: {shared}; closes whose last raw bits do not fit: {busted}"),
        format!("sequences with the error mark set by a write: {write_mark}, by the close: {close_mark}, by a read: {read_mark}"),
        format!("sequences that read past the end: {past}"),
    ]
}
