//! Round trips: allocations that libopus made while it encoded speech and music, after rows of random symbols; random rows and allocations over
//! storages of 0 to 1,275 bytes; rows that fill a small storage to its edge and past it; every way in which a symbol or an allocation is outside its
//! domain, and its last step inside; the longest storage, and longer ones; numbers that are no list of symbols.
use crate::alloc::Numbers;
use crate::coder::{self, Call};
use crate::coder_sequences::{any, small, value, Shape};
use crate::random::Random;
use crate::trip::{count_of, put, Symbol, Trip};
use crate::{alloc_sequences, Sequence};
use oracle::celt::quant_bands::model_pairs;
use std::collections::BTreeMap;

/// The entries that the tables of random symbols have together at most: a line has room for 300.
const ENTRIES: usize = 280;

/// A row of symbols as it grows, and their tables' entries.
#[derive(Clone, Default)]
struct Row {
    tables: Vec<u8>,
    symbols: Vec<Symbol>,
}

impl Row {
    fn table(&mut self, symbol: u32, ftb: u32, entries: &[u8]) {
        self.symbols.push([1, symbol, ftb, self.tables.len() as u32, entries.len() as u32]);
        self.tables.extend(entries);
    }

    fn put(&mut self, shape: &Shape, v: u32) {
        match shape {
            Shape::Table(entries, ftb) if self.tables.len() + entries.len() <= ENTRIES => self.table(v, *ftb, entries),
            Shape::Table(..) => self.symbols.push([0, v % 2, 1, 0, 0]),
            Shape::Bit(logp) => self.symbols.push([0, v, *logp, 0, 0]),
            Shape::Uniform(ft) => self.symbols.push([2, v, *ft, 0, 0]),
            Shape::Raw(bits) => self.symbols.push([3, v, *bits, 0, 0]),
        }
    }

    /// One symbol more, one in five a Laplace value.
    fn grow(&mut self, r: &mut Random, family: fn(&mut Random) -> Shape) {
        if r.below(5) > 0 {
            let shape = family(r);
            let v = value(r, &shape);
            return self.put(&shape, v);
        }
        let (fs, decay) = model_pairs()[r.below(168) as usize];
        let few = r.below(81) as i32 - 40;
        let v = [0, 1, -1, few, few, few / 8, 32767, -32768][r.below(8) as usize];
        self.symbols.push([4, count_of(v), fs, decay, 0]);
    }
}

fn any_row(r: &mut Random, lengths: &[u32]) -> Row {
    let mut row = Row::default();
    for _ in 0..r.one_of(lengths) {
        row.grow(r, any);
    }
    row
}

/// A trip of that row, with an allocation of the domain.
fn trip(r: &mut Random, storage: u32, row: Row) -> Trip {
    let numbers = alloc_sequences::any_numbers(r, storage);
    Trip {
        recorded: false,
        storage,
        fill: r.below(256) as u8,
        numbers,
        offsets: alloc_sequences::any_offsets(r),
        caps: alloc_sequences::any_caps(r, numbers.c, numbers.lm),
        tables: row.tables,
        symbols: row.symbols,
        rest: vec![],
    }
}

/// What an encoder really asked, each time over its own storage.
fn traffic(r: &mut Random, list: &mut Vec<Trip>) {
    for a in alloc_sequences::traffic().into_iter().filter(|a| a.writes) {
        let row = any_row(r, &[0, 5, 20, 40]);
        let (numbers, offsets, caps) = (a.numbers, a.offsets, a.caps);
        list.push(Trip { recorded: true, numbers, offsets, caps, ..trip(r, a.state[0], row) });
    }
}

fn chance(r: &mut Random, list: &mut Vec<Trip>) {
    for turn in 0..200 {
        let any = r.within(0, 1275);
        let storage = r.one_of(&[0, 1, 2, 3, 5, 8, 20, 60, 150, 300, 1275, any]);
        let mut row = any_row(r, &[0, 0, 1, 2, 3, 8, 20, 50]);
        // Symbols of a table of one entry take no bits: the place is what counts.
        if turn % 5 == 0 {
            for _ in 0..5 {
                row.table(0, 3, &[0]);
            }
        }
        list.push(trip(r, storage, row));
    }
}

/// The bits that are told after a row, as far as it is taken.
fn tells(storage: u32, row: &Row) -> u32 {
    let mut w = coder::Oracle::over(vec![0; storage as usize]);
    w.call("", Call::Writer);
    for y in &row.symbols {
        w.call("", put(&row.tables, y));
    }
    w.tell
}

/// Rows up to the edge of a small storage; up to the bound of number 4, which the allocation then meets; and one symbol on, which meets it first.
fn full(r: &mut Random, list: &mut Vec<Trip>) {
    for storage in 0..=4 {
        for (past, more) in [(0, false), (0, false), (0, false), (3, false), (8, false), (33, false), (33, true), (33, true)] {
            let mut row = Row::default();
            while tells(storage, &row) < 8 * storage + past {
                row.grow(r, small);
            }
            if more {
                row.grow(r, small);
            }
            list.push(trip(r, storage, row));
        }
    }
}

/// A symbol outside its domain, or its table is, between good ones.
fn bad_symbols(r: &mut Random, list: &mut Vec<Trip>) {
    let pair = model_pairs()[r.below(168) as usize];
    let alone: [Symbol; 21] = [
        [0, 0, 0, 0, 0], [0, 1, 16, 0, 0], [0, 2, 3, 0, 0], [1, 0, 3, 9999, 2], [1, 0, 3, 0, 0], [2, 0, 0, 0, 0], [2, 0, 1, 0, 0], [2, 7, 7, 0, 0],
        [2, u32::MAX, u32::MAX, 0, 0], [3, 0, 0, 0, 0], [3, 0, 26, 0, 0], [3, 0, 32, 0, 0], [3, 1 << 25, 25, 0, 0], [3, 2, 1, 0, 0],
        [4, 0, pair.0 + 1, pair.1, 0], [4, 0, pair.0, pair.1 + 1, 0], [4, 0, 0, 0, 0], [4, 65536, pair.0, pair.1, 0], [4, 65537, pair.0, pair.1, 0],
        [9, 65536, pair.0, pair.1, 0], [4, u32::MAX, pair.0, pair.1, 0],
    ];
    for y in alone {
        let mut row = any_row(r, &[0, 1, 2, 4]);
        row.symbols.push(y);
        row.grow(r, small);
        list.push(trip(r, 150, row));
    }
    // A table that does not end in 0, does not fall strictly, or begins at 2^ftb; no such ftb; no such symbol.
    let tables: [(u32, u32, &[u8]); 9] = [
        (0, 3, &[3, 1]), (0, 3, &[3, 3, 0]), (0, 3, &[1, 3, 0]), (0, 3, &[8, 0]), (1, 3, &[8, 0]), (0, 0, &[0]), (0, 9, &[3, 0]), (2, 3, &[3, 0]),
        (200, 8, &[255, 0]),
    ];
    for (symbol, ftb, entries) in tables {
        let mut row = any_row(r, &[0, 1, 2, 4]);
        row.table(symbol, ftb, entries);
        row.grow(r, small);
        list.push(trip(r, 150, row));
    }
}

/// An allocation one step outside its domain in one place, and its last step inside.
fn bad_allocations(r: &mut Random, list: &mut Vec<Trip>) {
    let changes: [fn(&mut Numbers); 24] = [
        |n| n.c = 0, |n| n.c = 3, |n| n.lm = -1, |n| n.lm = 4, |n| n.start = -1, |n| n.start = n.end, |n| n.end = n.start, |n| n.end = 22,
        |n| n.trim = -1, |n| n.trim = 11, |n| n.total = 81601, |n| (n.c, n.intensity) = (2, n.start - 1), |n| (n.c, n.intensity) = (2, n.end + 1),
        |n| (n.c, n.dual) = (2, -1), |n| (n.c, n.dual) = (2, 2), |n| n.total = i32::MAX, |n| n.trim = 0, |n| n.trim = 10, |n| n.total = 81600,
        |n| n.total = i32::MIN, |n| (n.c, n.intensity, n.dual) = (1, i32::MIN, i32::MAX), |n| (n.c, n.intensity, n.dual) = (2, n.end, 1),
        |n| (n.previous, n.bandwidth) = (i32::MIN, i32::MAX), |n| (n.previous, n.bandwidth) = (i32::MAX, i32::MIN),
    ];
    for change in changes {
        let row = any_row(r, &[0, 3]);
        let mut t = trip(r, 60, row);
        change(&mut t.numbers);
        list.push(t);
    }
    for place in [0, 20] {
        for v in [-1, 81600, 81601] {
            let mut t = trip(r, 60, Row::default());
            t.offsets[place] = v;
            list.push(t);
        }
        for v in [-1, 0, 32767, 32768] {
            let mut t = trip(r, 60, Row::default());
            t.caps[place] = v;
            list.push(t);
        }
    }
}

/// The longest storage, and longer ones.
fn storages(r: &mut Random, list: &mut Vec<Trip>) {
    for storage in [1275, 1276, 1300] {
        let row = any_row(r, &[50]);
        list.push(trip(r, storage, row));
    }
}

/// Numbers after the last symbol; kinds there are none of; tables that end with the last entry, one past it and far past it, and with no entry; each
/// first, last and beside others. Where several are wrong at once, the length comes first; a symbol that its own call would refuse comes after.
fn malformed(r: &mut Random, list: &mut Vec<Trip>) {
    let table = |second, third| [1, 0, 3, second, third];
    let wrong: [Symbol; 9] = [
        [5, 0, 1, 0, 0], [6, 1, 3, 0, 0], [u32::MAX, 0, 0, 0, 0], table(0, 3), table(1, 2), table(2, 1), table(3, 0), table(u32::MAX, u32::MAX),
        table(2, u32::MAX - 1),
    ];
    let right: [Symbol; 4] = [table(0, 2), table(1, 1), table(2, 0), [2, 1, 7, u32::MAX, u32::MAX]];
    for (y, first) in wrong.iter().chain(&right).flat_map(|y| [(y, true), (y, false)]) {
        let mut row = Row { tables: vec![3, 0], symbols: vec![] };
        row.grow(r, small);
        row.symbols.retain(|y| y[0] != 1);
        row.tables.truncate(2);
        row.symbols.insert(if first { 0 } else { row.symbols.len() }, *y);
        list.push(trip(r, 60, row));
    }
    for rest in 1..5 {
        for y in [None, Some([0, 2, 3, 0, 0]), Some([9, 0, 0, 0, 0])] {
            let row = Row { tables: vec![], symbols: y.into_iter().collect() };
            let (storage, rest) = (r.one_of(&[0, 60, 1276]), (0..rest).map(|_| r.below(10)).collect());
            list.push(Trip { rest, ..trip(r, storage, row) });
        }
    }
}

pub fn all(r: &mut Random) -> Vec<Sequence> {
    let mut list = vec![];
    for family in [traffic, chance, full, bad_symbols, bad_allocations, storages, malformed] {
        family(r, &mut list);
    }
    list.iter().map(|t| vec![t.line()]).collect()
}

/// What the trips reach, for the reader of the record.
pub fn figures(sequences: &[Sequence]) -> Vec<String> {
    let (mut ends, mut symbols) = (BTreeMap::<String, u32>::new(), [0; 5]);
    for line in sequences.iter().flatten() {
        let (t, end) = (Trip::of(line), Trip::of(line).ends());
        let words: Vec<&str> = end.split(' ').collect();
        let end = if words.len() == 4 { format!("refused symbol {}", words[3]) } else { end };
        if end == "agreed" {
            t.symbols.iter().for_each(|y| symbols[y[0] as usize] += 1);
        }
        *ends.entry(format!("{}{end}", if t.recorded { "recorded " } else { "" })).or_default() += 1;
    }
    let shown: Vec<String> = ends.iter().map(|(end, n)| format!("{end}: {n}")).collect();
    let [bits, tables, uniform, raw, laplace] = symbols;
    vec![
        format!("trips: {}", shown.join(", ")),
        format!("symbols that came back: {bits} bits, {tables} of tables, {uniform} uniform numbers, {raw} of raw bits, {laplace} Laplace values"),
    ]
}
