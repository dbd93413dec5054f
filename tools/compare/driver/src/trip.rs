//! Whole round trips: symbols of every kind and an allocation are written and closed, and then read back. A request is one line that stands for itself.
//! The crate's writer and reader run it, and libopus must agree with them in every call (coder.rs, alloc.rs). Document 01's refusals stand around both.
//!
//! A line is a letter, R where the allocation is recorded traffic and G where it is not, and numbers: the storage, the byte that fills it, C LM start end
//! trim total intensity dual previous bandwidth, 21 offsets and 21 caps, the number of table entries and the entries, then five numbers for each
//! symbol: its kind (0 bit, 1 table, 2 uniform number, 3 raw bits, 4 Laplace value), the count of its value, and what the kind has: logp; ftb,
//! the place of the table's first entry and how many it has; ft; the number of bits; fs and decay. The allocation's numbers, offsets and caps,
//! and a Laplace value, are counted: 0, -1, 1, -2, 2, .. as 0, 1, 2, 3, 4, ..
//!
//! An answer is `refused` and a number where the symbols are no list of symbols: 2 where they are not five numbers each, 1 where a kind is above 4 or a
//! table has entries past the last. Else it says how the trip ends: `refused`, the call (new, symbol and its place, allocation, close) and the number
//! of the refusal; `not closed` where the close left the error mark; `agreed` where the reader is refused nothing and has the values that count as
//! written, tell and tell_frac after each call, the allocation's numbers and lists, and no error mark; else `disagreed`.
use crate::alloc::{self, Given, Numbers};
use crate::coder::{self, Call};
use crate::{refusals, states, Side};

/// A symbol as it stands in a line: kind, count of its value, and three numbers.
pub type Symbol = [u32; 5];

/// A request.
#[derive(Clone)]
pub struct Trip {
    pub recorded: bool,
    pub storage: u32,
    pub fill: u8,
    pub numbers: Numbers,
    pub offsets: Vec<i32>,
    pub caps: Vec<i32>,
    pub tables: Vec<u8>,
    pub symbols: Vec<Symbol>,
    /// Numbers after the last whole symbol, fewer than five.
    pub rest: Vec<u32>,
}

/// The count of a whole number.
pub fn count_of(z: i32) -> u32 {
    if z < 0 { 2 * (-1 - z) as u32 + 1 } else { 2 * z as u32 }
}

/// The whole number of a count.
fn value_at(count: u32) -> i32 {
    let half = (count / 2) as i32;
    if count % 2 == 0 { half } else { -1 - half }
}

/// A table's entries.
fn entries(tables: &[u8], from: u32, count: u32) -> &[u8] {
    &tables[from as usize..(from + count) as usize]
}

/// Is the kind one there is, and has a table no entry past the last?
fn given(tables: &[u8], &[kind, _, _, second, third]: &Symbol) -> bool {
    kind <= 4 && (kind != 1 || second as u64 + third as u64 <= tables.len() as u64)
}

/// The call that writes a symbol.
pub fn put<'a>(tables: &'a [u8], &[kind, count, first, second, third]: &Symbol) -> Call<'a> {
    match kind {
        0 => Call::PutBit(count, first),
        1 => Call::PutTable(count, entries(tables, second, third), first),
        2 => Call::PutUniform(count, first),
        3 => Call::PutRaw(count, first),
        4 => Call::PutLaplace(value_at(count), first, second),
        _ => unreachable!("no such kind is written"),
    }
}

/// The call that reads one of its kind.
fn get<'a>(tables: &'a [u8], &[kind, _, first, second, third]: &Symbol) -> Call<'a> {
    match kind {
        0 => Call::GetBit(first),
        1 => Call::GetTable(entries(tables, second, third), first),
        2 => Call::GetUniform(first),
        3 => Call::GetRaw(first),
        4 => Call::GetLaplace(first, second),
        _ => unreachable!("no such kind is read"),
    }
}

/// What tell and tell_frac say.
type Told = (u32, u32);

/// What the writer leaves to be compared: the value of each symbol that counts as written, what was told at first, after each symbol and after the
/// allocation, and the allocation.
struct Sent {
    values: Vec<u32>,
    told: Vec<Told>,
    shares: Given,
    packet: Vec<u8>,
}

fn told(o: &coder::Oracle) -> Told {
    (o.tell, o.frac)
}

/// Runs a call; the number of its refusal, if it has one.
fn run(o: &mut coder::Oracle, call: Call) -> Result<(), String> {
    match o.call("", call).strip_prefix("X ") {
        None => Ok(()),
        Some(no) => Err(no.to_string()),
    }
}

impl Trip {
    pub fn line(&self) -> String {
        let n = self.numbers;
        let asked = [n.c, n.lm, n.start, n.end, n.trim, n.total, n.intensity, n.dual, n.previous, n.bandwidth];
        let counted = asked.iter().chain(&self.offsets).chain(&self.caps).map(|&z| count_of(z));
        let tables = std::iter::once(self.tables.len() as u32).chain(self.tables.iter().map(|&e| e as u32));
        let head = [self.storage, self.fill as u32].into_iter();
        let all: Vec<u32> = head.chain(counted).chain(tables).chain(self.symbols.iter().flatten().chain(&self.rest).copied()).collect();
        let letter = if self.recorded { "R" } else { "G" };
        all.iter().fold(letter.to_string(), |line, v| format!("{line} {v}"))
    }

    pub fn of(line: &str) -> Self {
        let mut words = line.split(' ');
        let letter = words.next().unwrap_or("");
        let n: Vec<u32> = words.map(|w| w.parse().unwrap_or_else(|_| panic!("'{line}' is no request"))).collect();
        let whole = matches!(letter, "R" | "G") && (55..=1024).contains(&n.len()) && n.len() >= 55 + n[54] as usize;
        assert!(whole && n[0] <= 1300 && n[54] <= 300, "'{line}' is no request");
        let counted = |at: usize| value_at(n[at]);
        let symbols = &n[55 + n[54] as usize..];
        Trip {
            recorded: letter == "R",
            storage: n[0],
            fill: n[1] as u8,
            numbers: Numbers {
                c: counted(2), lm: counted(3), start: counted(4), end: counted(5), trim: counted(6), total: counted(7), intensity: counted(8),
                dual: counted(9), previous: counted(10), bandwidth: counted(11),
            },
            offsets: (12..33).map(counted).collect(),
            caps: (33..54).map(counted).collect(),
            tables: n[55..55 + n[54] as usize].iter().map(|&e| e as u8).collect(),
            symbols: symbols.chunks_exact(5).map(|y| y.try_into().expect("five numbers")).collect(),
            rest: symbols.chunks_exact(5).remainder().to_vec(),
        }
    }

    /// The allocation's call on a coder.
    fn shares(&self, o: &coder::Oracle, writes: bool) -> alloc::Asked {
        let mut state = [0; 12];
        state[..11].copy_from_slice(&coder::numbers(&o.at));
        let wishes = Numbers { intensity: 0, dual: 0, previous: 0, bandwidth: 0, ..self.numbers };
        let numbers = if writes { self.numbers } else { wishes };
        let (offsets, caps) = (self.offsets.clone(), self.caps.clone());
        alloc::Asked { writes, room: [21; 3], numbers, state, offsets, caps, bytes: o.bytes.clone() }
    }

    /// The writer's side, or how the trip ends there.
    fn sent(&self) -> Result<Sent, String> {
        let mut w = coder::Oracle::over(vec![self.fill; self.storage as usize]);
        run(&mut w, Call::Writer).map_err(|no| format!("refused new {no}"))?;
        let (mut values, mut heard) = (vec![], vec![told(&w)]);
        for (place, y) in self.symbols.iter().enumerate() {
            run(&mut w, put(&self.tables, y)).map_err(|no| format!("refused symbol {place} {no}"))?;
            // A Laplace value may be adjusted.
            values.push(if y[0] < 4 { y[1] } else { w.value });
            heard.push(told(&w));
        }
        let shares = self.shares(&w, true).given().map_err(|no| format!("refused allocation {no}"))?;
        heard.push((shares.tell, shares.frac));
        w.bytes = shares.bytes.clone();
        w.at = states::list_saved(&states::list(&shares.at, 0, true), true);
        run(&mut w, Call::Close).map_err(|no| format!("refused close {no}"))?;
        if w.at.error != 0 {
            return Err("not closed".to_string());
        }
        Ok(Sent { values, told: heard, shares, packet: w.bytes })
    }

    /// Does the reader of the packet agree?
    fn agrees(&self, sent: &Sent) -> Result<bool, String> {
        let mut d = coder::Oracle::over(sent.packet.clone());
        run(&mut d, Call::Reader)?;
        let (mut values, mut heard) = (vec![], vec![told(&d)]);
        for y in &self.symbols {
            run(&mut d, get(&self.tables, y))?;
            values.push(d.value);
            heard.push(told(&d));
        }
        let shares = self.shares(&d, false).given().map_err(|no| no.to_string())?;
        heard.push((shares.tell, shares.frac));
        let numbers = |g: &Given| [g.coded, g.balance, g.intensity, g.dual];
        let same = numbers(&shares) == numbers(&sent.shares) && shares.lists == sent.shares.lists;
        Ok(values == sent.values && heard == sent.told && same && shares.at[10] == 0)
    }

    /// The refusal of symbols that are no list of symbols, 0 for none.
    fn refusal(&self) -> u32 {
        refusals::first(self.rest.is_empty(), self.symbols.iter().all(|y| given(&self.tables, y)), true, 0, true, true)
    }

    /// How the trip ends.
    pub fn ends(&self) -> String {
        match self.refusal() {
            0 => (),
            no => return format!("refused {no}"),
        }
        match self.sent() {
            Err(end) => end,
            Ok(sent) if self.agrees(&sent) == Ok(true) => "agreed".to_string(),
            Ok(_) => "disagreed".to_string(),
        }
    }
}

/// The oracles' side.
pub struct Oracle;

impl Side for Oracle {
    fn answer(&mut self, line: &str) -> Option<String> {
        Some(Trip::of(line).ends())
    }
}
