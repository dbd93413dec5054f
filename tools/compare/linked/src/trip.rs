//! Round trips: symbols and an allocation are written, closed, read back and compared, by the port in one call and by each oracle call by call, with
//! document 01's refusals around it. Both oracles answer; that an oracle's own reader disagrees with its writer would be a difference too.
use crate::allocation::odd_numbers;
use crate::both::{expected, Both};
use crate::coder::{odd_symbol, reading, symbol, Family};
use crate::exports_frame as exports;
use crate::guarded::Guarded;
use crate::question::{asked, changed, oddly, zeroed, Question};
use crate::shrink::shorter;
use crate::tally::{Name, Tally, Why};
use crate::walk::hex;
use crate::Run;
use driver::alloc::{self, Asked, Given, Numbers};
use driver::alloc_sequences as sequences;
use driver::coder::{self, Call, Left};
use driver::random::Random;
use driver::refusals;
use driver::states::{self, list_ok, list_tell, List};
use oracle::celt::entcode::ec_ctx_saved;

/// A call; the list of its outcome is longer by so much than it must be.
#[derive(Clone, PartialEq)]
struct Trip {
    bytes: Vec<u8>,
    symbols: Vec<u32>,
    tables: Vec<u8>,
    numbers: [i32; 10],
    offsets: Vec<i32>,
    caps: Vec<i32>,
    outcome: i8,
}

const KEPT: u64 = 0x5eed_5eed_5eed_5eed;

/// The outcome: how it ended, the call that refused, the symbol's place, the refusal.
type Outcome = [u64; 4];

const AGREED: Outcome = [0; 4];
const NOT_CLOSED: Outcome = [1, 0, 0, 0];
const DISAGREED: Outcome = [3, 0, 0, 0];

fn refused(by: u64, place: usize, no: u32) -> Outcome {
    [2, by, place as u64, no as u64]
}

/// An oracle: its symbols, and its allocations.
type Oracle = (fn(&mut [u8], ec_ctx_saved, &Call) -> Left, fn(&Asked, ec_ctx_saved) -> Given);

const CRATE: Oracle = (coder::by_crate, alloc::by_crate);
const LIBOPUS: Oracle = (coder::by_libopus, alloc::by_libopus);

/// The five numbers of a symbol; a table's entries go to the end of the tables.
fn five(call: &Call, tables: &mut Vec<u8>) -> [u32; 5] {
    match *call {
        Call::PutBit(v, logp) => [0, v, logp, 0, 0],
        Call::PutTable(v, table, ftb) => {
            let at = tables.len() as u32;
            tables.extend(table);
            [1, v, ftb, at, table.len() as u32]
        }
        Call::PutUniform(v, ft) => [2, v, ft, 0, 0],
        Call::PutRaw(v, bits) => [3, v, bits, 0, 0],
        // 0, -1, 1, -2, 2, .. are 0, 1, 2, 3, 4, ..
        Call::PutLaplace(v, fs, decay) => [4, (v << 1 ^ v >> 31) as u32, fs, decay, 0],
        _ => unreachable!("a symbol is written"),
    }
}

/// And back.
fn call_of<'a>(s: &[u32], tables: &'a [u8]) -> Call<'a> {
    match s[0] {
        0 => Call::PutBit(s[1], s[2]),
        1 => Call::PutTable(s[1], &tables[s[3] as usize..(s[3] + s[4]) as usize], s[2]),
        2 => Call::PutUniform(s[1], s[2]),
        3 => Call::PutRaw(s[1], s[2]),
        4 => Call::PutLaplace((s[1] >> 1) as i32 ^ -((s[1] & 1) as i32), s[2], s[3]),
        _ => unreachable!("no such kind is written"),
    }
}

/// Is the kind one there is, and has a table no entry past the last?
fn given(s: &[u32], tables: &[u8]) -> bool {
    s[0] <= 4 && (s[0] != 1 || s[3] as u64 + s[4] as u64 <= tables.len() as u64)
}

/// What is told after a call.
fn told(left: &Left) -> (u32, u32) {
    (left.tell, left.frac)
}

/// The shares of an allocation, and what is told after it.
fn shares(g: &Given) -> ([i32; 4], &[Vec<i32>; 3], (u32, u32)) {
    ([g.coded, g.balance, g.intensity, g.dual], &g.lists, (g.tell, g.frac))
}

impl Trip {
    fn calls(&self) -> impl Iterator<Item = Call<'_>> {
        self.symbols.chunks_exact(5).map(|s| call_of(s, &self.tables))
    }

    fn numbers(&self) -> Numbers {
        let [c, lm, start, end, trim, total, intensity, dual, previous, bandwidth] = self.numbers;
        Numbers { c, lm, start, end, trim, total, intensity, dual, previous, bandwidth }
    }

    /// The allocation over these bytes; the state is handed in beside it.
    fn asked(&self, writes: bool, bytes: Vec<u8>) -> Asked {
        Asked { writes, room: [21; 3], numbers: self.numbers(), state: [0; 12], offsets: self.offsets.clone(), caps: self.caps.clone(), bytes }
    }

    /// What an oracle's trip ends with.
    fn ended(&self, (by, allots): Oracle) -> Outcome {
        let mut bytes = self.bytes.clone();
        let room = |list: &List| list_tell(list) <= 8 * self.bytes.len() as i64 + 32;
        if bytes.len() > 1275 {
            return refused(0, 0, 1);
        }
        let mut left = by(&mut bytes, Default::default(), &Call::Writer);
        let begun = told(&left);
        let mut written = vec![];
        for (place, call) in self.calls().enumerate() {
            let list = states::saved_list(&left.at, 0);
            let (lengths, numbers, table) = call.domain();
            let ok = list_ok(&list, true);
            match refusals::first(lengths, numbers && ok, table, 0, true, ok && room(&list)) {
                0 => left = by(&mut bytes, left.at, &call),
                no => return refused(1, place, no),
            }
            // The value that counts as written is a Laplace value's own.
            let value = match call {
                Call::PutBit(v, _) | Call::PutTable(v, _, _) | Call::PutUniform(v, _) | Call::PutRaw(v, _) => v,
                _ => left.value,
            };
            written.push((reading(&call), value, told(&left)));
        }
        let a = self.asked(true, bytes);
        match a.refusal_of(&states::saved_list(&left.at, 0)) {
            0 => (),
            no => return refused(2, 0, no),
        }
        let wrote = allots(&a, left.at);
        let list = states::list(&wrote.at, 0, true);
        match refusals::first(true, list_ok(&list, true), true, 0, true, true) {
            0 => (),
            no => return refused(3, 0, no),
        }
        let mut packet = wrote.bytes.clone();
        if by(&mut packet, states::list_saved(&list, true), &Call::Close).at.error != 0 {
            return NOT_CLOSED;
        }
        let mut left = by(&mut packet, Default::default(), &Call::Reader);
        if told(&left) != begun {
            return DISAGREED;
        }
        for (call, value, then) in written {
            left = by(&mut packet, left.at, &call);
            if (left.value, told(&left)) != (value, then) {
                return DISAGREED;
            }
        }
        let read = allots(&self.asked(false, packet), left.at);
        if shares(&read) == shares(&wrote) { AGREED } else { DISAGREED }
    }
}

impl Question for Trip {
    fn compared(&self, tally: &mut Tally) -> Result<u32, String> {
        let lent = self.clone();
        let mut outcome = Guarded::new(&[KEPT; 4], KEPT, self.outcome);
        let no = exports::round_trip(&lent.bytes, &lent.symbols, &lent.tables, &lent.numbers, &lent.offsets, &lent.caps, outcome.lent());
        let lengths = self.outcome == 0 && self.symbols.len() % 5 == 0;
        let right = refusals::first(lengths, self.symbols.chunks_exact(5).all(|s| given(s, &self.tables)), true, 0, true, true);
        let given = (right == 0).then(|| Both::asked(|| self.ended(CRATE), || self.ended(LIBOPUS)));
        let ends = given.as_ref().map_or([KEPT; 4], |both| *both.right());
        if no != right || !outcome.is(&ends) || lent != *self || !given.as_ref().map_or(true, Both::agree) {
            let held = format!("{no}; outcome {:?}; lists lent for reading as they were: {}", outcome.inner(), lent == *self);
            let said = |ends: &Outcome| format!("0; outcome {ends:?}");
            return Err(format!("gurthapen_round_trip differs\n  port     {held}{}", expected(&given, right, said)));
        }
        if given.as_ref().is_some_and(Both::crate_panics) {
            tally.apart(Name::RoundTrip, Why::CratePanics, || self.shown());
        }
        if no == 0 {
            tally.ended(match ends {
                [0, ..] => "agreed",
                [1, ..] => "not closed",
                [_, 0, ..] => "refused by new",
                [_, 1, ..] => "refused by a symbol",
                [_, 2, ..] => "refused by the allocation",
                _ => "refused by close",
            });
        }
        tally.alike(Name::RoundTrip, no);
        Ok(no)
    }

    fn simpler(&self) -> Vec<Self> {
        let n = self.bytes.len();
        let mut all: Vec<Self> = vec![];
        for m in [0, n / 2, n.saturating_sub(1)].into_iter().filter(|&m| m < n) {
            all.extend(changed(self, &[&|q: &mut Trip| q.bytes.truncate(m)]));
        }
        let whole: Vec<[u32; 5]> = self.symbols.chunks_exact(5).map(|s| std::array::from_fn(|at| s[at])).collect();
        all.extend(shorter(&whole).into_iter().map(|symbols| Trip { symbols: symbols.concat(), ..self.clone() }));
        all.extend(zeroed(self, |q| &mut q.symbols));
        all.extend(zeroed(self, |q| &mut q.bytes));
        all.extend(zeroed(self, |q| &mut q.offsets));
        all.extend(zeroed(self, |q| &mut q.caps));
        all
    }

    fn shown(&self) -> String {
        let Trip { symbols, tables, offsets, caps, outcome, .. } = self;
        let lists = format!("symbols {symbols:?}; tables {tables:?}; offsets {offsets:?}; caps {caps:?}; bytes {}", hex(&self.bytes));
        format!("{:?}\n  {lists}; outcome longer by {outcome}", self.numbers())
    }
}

/// A trip of these symbols, with the allocation of a request.
fn plain(bytes: Vec<u8>, calls: &[Call], a: &Asked) -> Trip {
    let Numbers { c, lm, start, end, trim, total, intensity, dual, previous, bandwidth } = a.numbers;
    let numbers = [c, lm, start, end, trim, total, intensity, dual, previous, bandwidth];
    let mut tables = vec![];
    let symbols = calls.iter().flat_map(|call| five(call, &mut tables)).collect();
    Trip { bytes, symbols, tables, numbers, offsets: a.offsets.clone(), caps: a.caps.clone(), outcome: 0 }
}

/// Recorded allocations and every refusal of one, over storages 0..1,276; and numbers that are no list of symbols.
pub fn fixed(run: &mut Run) -> Result<(), String> {
    let row = [
        Call::PutBit(1, 3), Call::PutTable(2, &[7, 4, 2, 0], 3), Call::PutUniform(70_000, 100_000), Call::PutRaw(5, 3),
        Call::PutLaplace(-2, 72 << 7, 127 << 6),
    ];
    let list: Vec<Asked> = sequences::traffic().into_iter().chain(sequences::refused()).filter(|a| a.writes).collect();
    for a in &list {
        for bytes in [vec![], vec![0; 1], vec![255; 40], a.bytes.clone()] {
            asked(run, plain(bytes.clone(), &[], a))?;
            asked(run, plain(bytes, &row, a))?;
        }
    }
    for storage in 0..=1276 {
        asked(run, plain(vec![90; storage], &row, &list[storage % list.len()]))?;
    }
    // a rest of fewer than five numbers; a kind there is none of; a table up to the last entry, past it and far past it
    let good = plain(vec![90; 60], &row, &list[0]);
    for n in 0..good.symbols.len() {
        asked(run, Trip { symbols: good.symbols[..n].to_vec(), ..good.clone() })?;
    }
    for place in 0..row.len() {
        for kind in [5, 6, u32::MAX] {
            asked(run, changed(&good, &[&|q: &mut Trip| q.symbols[5 * place] = kind]).swap_remove(0))?;
        }
        for (from, count) in [(0, 4), (4, 0), (3, 1), (0, 5), (4, 1), (5, 0), (u32::MAX, 1), (1, u32::MAX), (u32::MAX, u32::MAX)] {
            let five = [1, 0, 3, from, count];
            asked(run, changed(&good, &[&|q: &mut Trip| q.symbols[5 * place..5 * place + 5].copy_from_slice(&five)]).swap_remove(0))?;
        }
    }
    Ok(())
}

/// One thing at a limit of its domain or outside it.
fn odd(r: &mut Random, q: &mut Trip) {
    match r.below(6) {
        0 => {
            let mut n = q.numbers();
            odd_numbers(r, &mut n);
            q.numbers = [n.c, n.lm, n.start, n.end, n.trim, n.total, n.intensity, n.dual, n.previous, n.bandwidth];
        }
        1 => {
            let (list, most) = if r.below(2) == 0 { (&mut q.offsets, 81600) } else { (&mut q.caps, 32767) };
            match list.get_mut(r.below(21) as usize) {
                Some(entry) => *entry = r.one_of(&[-1, 0, most, most + 1, i32::MIN, i32::MAX]),
                None => list.clear(),
            }
        }
        2 => {
            let long = r.one_of(&[0, 20, 22]) as usize;
            if r.below(2) == 0 { q.offsets.resize(long, 0) } else { q.caps.resize(long, 100) }
        }
        3 => q.outcome = r.one_of(&[-4, -1, 1]),
        4 => match r.below(3) {
            0 => q.symbols.truncate(q.symbols.len().saturating_sub(r.within(1, 4) as usize)),
            1 => q.tables.truncate(r.below(q.tables.len() as u32 + 1) as usize),
            _ => q.bytes.resize(r.one_of(&[0, 1, 1275, 1276, 1300]) as usize, 7),
        },
        _ => {
            let at = r.below(q.symbols.len() as u32 + 1) as usize;
            if let Some(number) = q.symbols.get_mut(at) {
                *number = r.one_of(&[0, 1, 2, 3, 4, 5, 16, 26, 255, 65535, 65536, u32::MAX - 1, u32::MAX]);
            }
        }
    }
}

fn storage(r: &mut Random) -> usize {
    match r.below(16) {
        0 => r.one_of(&[1274, 1275, 1276]) as usize,
        1 => r.within(0, 1275) as usize,
        2 | 3 => r.within(0, 3) as usize,
        _ => r.within(1, 60) as usize,
    }
}

pub fn chance(run: &mut Run, calls: u64) -> Result<(), String> {
    let families = [Family::Any, Family::Any, Family::Small, Family::Large, Family::Raw, Family::Laplace, Family::Carry];
    while run.tally.calls < calls {
        let r = &mut run.r;
        let bytes = vec![r.below(256) as u8; storage(r)];
        let family = r.one_of(&families);
        let most = r.one_of(&[0, 2, 6, 6, 20, 20, 60, 8 * bytes.len() as u32]);
        let mut symbols = vec![];
        // The crate's writer goes along, so that bytes that wait for a carry can be made.
        let mut scratch = vec![0; bytes.len()];
        let mut left = coder::by_crate(&mut scratch, Default::default(), &Call::Writer);
        for _ in 0..r.below(most + 1) {
            let list = states::saved_list(&left.at, 0);
            if !list_ok(&list, true) || list_tell(&list) > 8 * bytes.len() as i64 + 32 {
                break;
            }
            let call = symbol(r, family, &list);
            left = coder::by_crate(&mut scratch, left.at, &call);
            symbols.push(call);
        }
        if r.below(24) == 0 {
            let at = r.below(symbols.len() as u32 + 1) as usize;
            symbols.insert(at, odd_symbol(r, true));
        }
        let a = sequences::write_any(r).swap_remove(0);
        let mut q = plain(bytes, &symbols, &a);
        oddly(&mut run.r, &mut q, odd);
        asked(run, q)?;
    }
    Ok(())
}
