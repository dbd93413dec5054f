//! Sequences of symbols and Laplace values, at random: written, closed, read back, and read on past the end; with calls one step outside each
//! bound, lists of a wrong length, damaged states and damaged bytes between them.
use crate::damage::damage;
use crate::steps::{Ask, Lent, Step};
use crate::walk::{Differs, Walk};
use crate::Run;
use driver::coder::Call;
use driver::random::Random;
use driver::states::List;
use oracle::celt::quant_bands::model_pairs;
use std::sync::OnceLock;

/// A table and the logarithm of its places.
type Table = (&'static [u8], u32);

/// Tables that obey their rule, and tables that do not.
fn tables() -> &'static (Vec<Table>, Vec<Table>) {
    static TABLES: OnceLock<(Vec<Table>, Vec<Table>)> = OnceLock::new();
    TABLES.get_or_init(|| {
        let mut r = Random::new(0);
        let mut good: Vec<Table> = vec![];
        for ftb in 1..=8 {
            for symbols in (1..=1u32 << ftb).filter(|n| *n <= 6 || n % 25 == 0 || *n == 1 << ftb) {
                for _ in 0..8 {
                    let mut entries: Vec<u8> = (1..1u32 << ftb).map(|e| e as u8).collect();
                    while entries.len() as u32 >= symbols {
                        entries.remove(r.below(entries.len() as u32) as usize);
                    }
                    entries.reverse();
                    entries.push(0);
                    good.push((entries.leak(), ftb));
                }
            }
        }
        let bad: [Table; 14] = [
            (&[], 3), (&[], 0), (&[8, 4, 0], 3), (&[255, 255, 0], 8), (&[9, 5, 1], 4), (&[5, 9, 0], 4), (&[0], 0), (&[3, 0], 9), (&[2, 0], 1),
            (&[0, 0], 5), (&[1], 8), (&[7, 3, 3, 0], 3), (&[200, 100, 0], u32::MAX), (&[4, 2, 0, 0], 3),
        ];
        (good, bad.to_vec())
    })
}

/// How the symbols of a sequence are chosen.
#[derive(Clone, Copy)]
pub enum Family {
    Any,
    Small,
    Large,
    Raw,
    Laplace,
    /// The low end and the high end of the range are kept on both sides of a carry, so that bytes of 255 wait.
    Carry,
}

const UNIFORM: [u32; 20] =
    [2, 3, 4, 5, 7, 16, 100, 255, 256, 257, 258, 511, 512, 513, 65535, 65536, 65537, 16777215, 2147483649, 4294967295];

fn bit(r: &mut Random, most: u32) -> Call<'static> {
    Call::PutBit(r.below(2), r.within(1, most))
}

fn table(r: &mut Random) -> Call<'static> {
    let (good, _) = tables();
    let (table, ftb) = r.one_of(good);
    Call::PutTable(r.below(table.len() as u32), table, ftb)
}

fn uniform(r: &mut Random, ft: u32) -> Call<'static> {
    let v = r.below(ft);
    Call::PutUniform(r.one_of(&[v, v, v, 0, ft - 1]), ft)
}

fn raw(r: &mut Random, least: u32, most: u32) -> Call<'static> {
    let bits = r.within(least, most);
    let v = r.below(1 << bits);
    Call::PutRaw(r.one_of(&[v, v, v, 0, (1 << bits) - 1]), bits)
}

fn laplace(r: &mut Random) -> Call<'static> {
    let (fs, decay) = r.one_of(model_pairs());
    let span = r.one_of(&[2, 8, 40, 400, 32767]);
    let v = r.within(0, 2 * span) as i32 - span as i32;
    Call::PutLaplace(r.one_of(&[v, v, v, v, v, -32768, 32767]), fs, decay)
}

/// Of numbers below ft the one whose part of the range has the carry in it.
fn at_the_carry(state: &List, ft: u32) -> Call<'static> {
    let (rng, val) = (state[6] as u64, state[7] as u64);
    // Before the first byte the carry may lie at any byte's edge; this one is near the middle of the range.
    let point = if state[9] < 0 { ((val + rng / 2) >> 23 << 23).max(1 << 23) } else { 1 << 31 };
    let q = (rng / ft as u64).max(1);
    let above = (val + rng).saturating_sub(point).div_ceil(q).clamp(1, ft as u64);
    Call::PutUniform((ft as u64 - above) as u32, ft)
}

pub fn symbol(r: &mut Random, family: Family, state: &List) -> Call<'static> {
    match family {
        Family::Small => match r.below(4) {
            0 => bit(r, 4),
            1 => Call::PutTable(r.below(4), &[7, 4, 2, 0], 3),
            2 => {
                let ft = r.within(2, 9);
                uniform(r, ft)
            }
            _ => raw(r, 1, 5),
        },
        Family::Large => match r.below(3) {
            0 => {
                let ft = r.within(1 << 31, u32::MAX);
                uniform(r, ft)
            }
            1 => raw(r, 16, 25),
            _ => {
                let ft = r.within(200, 256);
                uniform(r, ft)
            }
        },
        Family::Raw => raw(r, 1, 25),
        Family::Laplace => laplace(r),
        Family::Carry if r.below(32) != 0 => at_the_carry(state, r.within(128, 256)),
        Family::Any | Family::Carry => match r.below(9) {
            0 | 1 => bit(r, 15),
            2 | 3 => table(r),
            4 => {
                let ft = r.one_of(&UNIFORM);
                uniform(r, ft)
            }
            5 => {
                let least = r.one_of(&[2, 2, 256, 65536, 1 << 31]);
                let ft = r.within(least, least.saturating_mul(256));
                uniform(r, ft)
            }
            6 | 7 => raw(r, 1, 25),
            _ => laplace(r),
        },
    }
}

/// The read of what a write wrote.
pub fn reading<'a>(call: &Call<'a>) -> Call<'a> {
    match *call {
        Call::PutBit(_, logp) => Call::GetBit(logp),
        Call::PutTable(_, table, ftb) => Call::GetTable(table, ftb),
        Call::PutUniform(_, ft) => Call::GetUniform(ft),
        Call::PutRaw(_, bits) => Call::GetRaw(bits),
        Call::PutLaplace(_, fs, decay) => Call::GetLaplace(fs, decay),
        other => other,
    }
}

/// A symbol's call at a bound of its domain or outside it, written or read.
pub fn odd_symbol(r: &mut Random, writes: bool) -> Call<'static> {
    let (_, bad) = tables();
    let (fs, decay) = r.one_of(model_pairs());
    let call = match r.below(5) {
        0 => Call::PutBit(r.one_of(&[0, 1, 1, 2, u32::MAX]), r.one_of(&[0, 1, 15, 16, 32, u32::MAX])),
        1 => {
            let (table, ftb) = r.one_of(bad);
            Call::PutTable(r.one_of(&[0, 1, table.len() as u32, u32::MAX]), table, ftb)
        }
        2 => {
            let ft = r.one_of(&[0, 1, 2, 256, 257, u32::MAX]);
            Call::PutUniform(r.one_of(&[0, ft.wrapping_sub(1), ft, u32::MAX]), ft)
        }
        3 => {
            let bits = r.one_of(&[0, 1, 24, 25, 26, 32, 33, 64, u32::MAX]);
            let most = if bits < 32 { 1 << bits } else { u32::MAX };
            Call::PutRaw(r.one_of(&[0, most - (bits < 32) as u32, most, u32::MAX]), bits)
        }
        _ => {
            let v = r.one_of(&[0, 1, 32767, 32768, -32768, -32769, i32::MAX, i32::MIN]);
            let fs = r.one_of(&[fs, fs, fs + 1, fs + 128, 0, u32::MAX]);
            Call::PutLaplace(v, fs, r.one_of(&[decay, decay, decay - 1, decay + 64, 0, u32::MAX]))
        }
    };
    if writes { call } else { reading(&call) }
}

/// A list of a wrong length.
fn odd_lengths(r: &mut Random) -> Lent {
    let by = r.one_of(&[-1i8, 1]);
    match r.below(4) {
        0 => Lent { state: r.one_of(&[by, -12]), ..Lent::default() },
        1 => Lent { value: by, ..Lent::default() },
        2 => Lent { bytes: by, ..Lent::default() },
        _ => Lent { state: by, value: -by, bytes: by, places: 0 },
    }
}

/// A call of the symbols' family that is odd in some way; a call that is taken all the same goes on with what it left.
fn odd(run: &mut Run, w: &mut Walk, writes: bool) -> Result<(), Differs> {
    let r = &mut run.r;
    let state = w.state;
    let call = symbol(r, Family::Any, &state);
    let call = if writes { call } else { reading(&call) };
    match r.below(8) {
        0..=2 => {
            w.ask(Ask::Symbol(odd_symbol(r, writes)), Lent::default(), &mut run.tally)?;
        }
        3 => {
            let ends = if writes { Ask::Symbol(Call::Close) } else { Ask::Symbol(call) };
            let tells = if writes { [Ask::EncTell, Ask::EncTellFrac] } else { [Ask::DecTell, Ask::DecTellFrac] };
            let ask = r.one_of(&[Ask::Symbol(call), Ask::Symbol(call), Ask::Symbol(call), ends, tells[0], tells[1]]);
            w.ask(ask, odd_lengths(r), &mut run.tally)?;
        }
        4 => {
            // Two things wrong, so that the order of the refusals shows.
            let (place, v) = damage(r, &state, w.storage());
            w.prepare(Step::Number(place, v));
            let lent = if r.below(2) == 0 { odd_lengths(r) } else { Lent::default() };
            if w.ask(Ask::Symbol(odd_symbol(r, writes)), lent, &mut run.tally)? != 0 {
                w.prepare(Step::Number(place, state[place as usize]));
            }
        }
        _ => {
            // A damaged copy: one or two numbers of the state.
            let first = damage(r, &state, w.storage());
            w.prepare(Step::Number(first.0, first.1));
            let second = damage(r, &w.state, w.storage());
            if r.below(4) == 0 {
                w.prepare(Step::Number(second.0, second.1));
            }
            // A writer's state may be handed to a reader's call, and the other way round.
            let other = Ask::Symbol(if writes { reading(&call) } else { symbol(r, Family::Any, &state) });
            let tell = r.one_of(&[Ask::DecTell, Ask::DecTellFrac, Ask::EncTell, Ask::EncTellFrac, Ask::Symbol(Call::Close), other]);
            let ask = if r.below(4) == 0 { tell } else { Ask::Symbol(call) };
            if w.ask(ask, Lent::default(), &mut run.tally)? != 0 || !matches!(ask, Ask::Symbol(_)) {
                for place in [first.0, second.0] {
                    w.prepare(Step::Number(place, state[place as usize]));
                }
            }
        }
    }
    Ok(())
}

fn tells(run: &mut Run, w: &mut Walk, writes: bool) -> Result<(), Differs> {
    let pair = if writes { [Ask::EncTell, Ask::EncTellFrac] } else { [Ask::DecTell, Ask::DecTellFrac] };
    for ask in pair {
        w.ask(ask, Lent::default(), &mut run.tally)?;
    }
    Ok(())
}

fn storage(r: &mut Random) -> usize {
    match r.below(64) {
        0 => r.one_of(&[1274, 1275, 1275, 1276]) as usize,
        1 => r.within(0, 1275) as usize,
        2..=8 => r.within(20, 160) as usize,
        9..=20 => r.within(0, 2) as usize,
        _ => r.within(1, 24) as usize,
    }
}

/// A new writer or reader, now and then after a state list of a wrong length.
fn begin(run: &mut Run, w: &mut Walk, call: Call<'static>) -> Result<(), Differs> {
    if run.r.below(32) == 0 {
        let lent = Lent { state: run.r.one_of(&[-12, -1, 1]), ..Lent::default() };
        w.ask(Ask::Symbol(call), lent, &mut run.tally)?;
    }
    w.ask(Ask::Symbol(call), Lent::default(), &mut run.tally).map(drop)
}

/// One sequence.
pub fn sequence(run: &mut Run, w: &mut Walk) -> Result<(), Differs> {
    let plain = Lent::default();
    let r = &mut run.r;
    let bytes = storage(r);
    w.bytes(bytes, r.one_of(&[0, 255, 90, 165]) as u8);
    let families = [Family::Any, Family::Any, Family::Small, Family::Large, Family::Raw, Family::Laplace, Family::Carry, Family::Carry];
    let family = r.one_of(&families);
    let oddities = r.one_of(&[0, 0, 4, 12, 40]);
    let mut written: Vec<Call<'static>> = vec![];
    if r.below(8) != 0 {
        begin(run, w, Call::Writer)?;
        let most = run.r.one_of(&[3, 8, 20, 40, 4 + bytes as u32]);
        for _ in 0..most {
            if run.r.below(64) < oddities {
                odd(run, w, true)?;
            }
            if run.r.below(16) == 0 {
                tells(run, w, true)?;
            }
            let call = symbol(&mut run.r, family, &w.state);
            if w.ask(Ask::Symbol(call), plain, &mut run.tally)? != 0 {
                break;
            }
            written.push(call);
        }
        if run.r.below(16) != 0 {
            w.ask(Ask::Symbol(Call::Close), plain, &mut run.tally)?;
        }
        if run.r.below(8) == 0 {
            w.ask(Ask::Symbol(Call::Close), plain, &mut run.tally)?;
            odd(run, w, true)?;
        }
    } else {
        w.prepare(Step::Chance(r.within(0, u32::MAX) as u64));
    }
    if bytes > 0 && run.r.below(3) == 0 {
        for _ in 0..run.r.within(1, 4) {
            let near = run.r.below(bytes as u32);
            w.prepare(Step::Byte(near as u16, run.r.below(256) as u8));
        }
    }
    begin(run, w, Call::Reader)?;
    let mut refused = 0;
    let more = run.r.one_of(&[0, 0, 4, 30]);
    for at in 0..written.len() + more as usize {
        if run.r.below(64) < oddities {
            odd(run, w, false)?;
        }
        if run.r.below(16) == 0 {
            tells(run, w, false)?;
        }
        let call = match written.get(at) {
            Some(call) => reading(call),
            None => reading(&symbol(&mut run.r, family, &w.state)),
        };
        refused += (w.ask(Ask::Symbol(call), plain, &mut run.tally)? != 0) as u32;
        if refused == 2 {
            break;
        }
    }
    Ok(())
}
