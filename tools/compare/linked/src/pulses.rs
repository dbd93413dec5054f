//! Pulse words: every pair N and K with its first and its last vector, written and read, or its refusal; then sequences at random, read back, read
//! from damaged bytes and from bytes that no writer made, with vectors of another sum, numbers outside the domain and damaged states between them.
//! libopus alone answers. Pairs whose count is in no oracle's table are not compared, and counted.
use crate::damage::damage;
use crate::steps::{Ask, Lent, Step};
use crate::walk::{Differs, Walk};
use crate::Run;
use driver::coder::Call;
use driver::pulse_sequences::{counted, Pair};
use driver::random::Random;
use driver::words::count;
use oracle::celt::cwrs;

const PLAIN: Lent = Lent { state: 0, value: 0, bytes: 0, places: 0 };

/// The first and the last vector of a pair, both ways.
fn ends(run: &mut Run, w: &mut Walk, (n, k): Pair) -> Result<(), Differs> {
    w.bytes(12, (n + k) as u8);
    w.ask(Ask::Symbol(Call::Writer), PLAIN, &mut run.tally)?;
    for number in [0, count(n, k).map_or(0, |ft| ft - 1)] {
        if count(n, k).is_some() && cwrs::has_count(n, k) {
            w.prepare(Step::Numbered(n, k, number));
        } else {
            w.prepare(Step::Vector(n, k, number as u64));
        }
        w.ask(Ask::PutPulses(n, k), PLAIN, &mut run.tally)?;
    }
    w.ask(Ask::Symbol(Call::Close), PLAIN, &mut run.tally)?;
    w.ask(Ask::Symbol(Call::Reader), PLAIN, &mut run.tally)?;
    for _ in 0..2 {
        w.ask(Ask::GetPulses(n, k), PLAIN, &mut run.tally)?;
    }
    Ok(())
}

pub fn every(run: &mut Run, w: &mut Walk) -> Result<(), Differs> {
    for n in 2..=176 {
        for k in 1..=128 {
            ends(run, w, (n, k))?;
        }
    }
    Ok(())
}

fn pair(r: &mut Random) -> Pair {
    match r.below(4) {
        // Small vectors, which frames have most.
        0 => (r.within(2, 16), r.within(1, 12)),
        _ => r.one_of(counted()),
    }
}

/// A pair at a bound or outside the domain, or one whose count is too high.
fn odd_pair(r: &mut Random) -> Pair {
    let any = (r.within(2, 176), r.within(1, 128));
    let list = [(1, 1), (0, 1), (177, 1), (2, 0), (2, 129), (176, 5), (110, 5), (15, 14), (6, 96), (u32::MAX, 1), (2, u32::MAX), (176, 128), any, any];
    r.one_of(&list)
}

/// A call that is refused, or nearly so.
fn odd(run: &mut Run, w: &mut Walk, writes: bool) -> Result<(), Differs> {
    let r = &mut run.r;
    let (n, k) = pair(r);
    let asked = |(n, k): Pair| if writes { Ask::PutPulses(n, k) } else { Ask::GetPulses(n, k) };
    let state = w.state;
    match r.below(5) {
        0 => {
            w.ask(asked(odd_pair(r)), PLAIN, &mut run.tally)?;
        }
        1 => {
            let by = r.one_of(&[-1i8, 1]);
            let lists = [Lent { places: by, ..PLAIN }, Lent { state: by, ..PLAIN }, Lent { value: by, ..PLAIN }, Lent { bytes: by, ..PLAIN }];
            w.ask(asked((n, k)), r.one_of(&lists), &mut run.tally)?;
        }
        2 => {
            // A vector whose sum is not K, or is K though places past N are not zero.
            w.prepare(Step::Vector(n, k, r.within(0, u32::MAX) as u64));
            let v = r.one_of(&[1, -1, 2, i32::MAX, i32::MIN, 0]);
            w.prepare(Step::Place(r.below(176) as u8, v));
            w.ask(asked((n, k)), PLAIN, &mut run.tally)?;
        }
        _ => {
            let (place, v) = damage(r, &state, w.storage());
            w.prepare(Step::Vector(n, k, r.within(0, u32::MAX) as u64));
            w.prepare(Step::Number(place, v));
            let asks = [asked((n, k)), asked((n, k)), asked(odd_pair(r))];
            if w.ask(r.one_of(&asks), PLAIN, &mut run.tally)? != 0 {
                w.prepare(Step::Number(place, state[place as usize]));
            }
        }
    }
    Ok(())
}

/// One sequence.
pub fn sequence(run: &mut Run, w: &mut Walk) -> Result<(), Differs> {
    let r = &mut run.r;
    let storage = match r.below(16) {
        0 => r.within(0, 3),
        1 => r.within(0, 1275),
        _ => r.within(4, 60),
    };
    w.bytes(storage as usize, r.one_of(&[0, 255, 90]) as u8);
    let oddities = r.one_of(&[0, 8, 40]);
    let mut written = vec![];
    if r.below(4) != 0 {
        w.ask(Ask::Symbol(Call::Writer), PLAIN, &mut run.tally)?;
        for _ in 0..run.r.within(1, 10) {
            if run.r.below(64) < oddities {
                odd(run, w, true)?;
            }
            let (n, k) = pair(&mut run.r);
            w.prepare(Step::Vector(n, k, run.r.within(0, u32::MAX) as u64));
            if w.ask(Ask::PutPulses(n, k), PLAIN, &mut run.tally)? != 0 {
                break;
            }
            written.push((n, k));
        }
        w.ask(Ask::Symbol(Call::Close), PLAIN, &mut run.tally)?;
        if run.r.below(8) == 0 {
            odd(run, w, true)?;
        }
    } else {
        w.prepare(Step::Chance(r.within(0, u32::MAX) as u64));
    }
    if storage > 0 && run.r.below(3) == 0 {
        for _ in 0..run.r.within(1, 4) {
            let place = run.r.below(storage) as u16;
            let any = run.r.below(256);
            w.prepare(Step::Byte(place, run.r.one_of(&[255, any]) as u8));
        }
    }
    w.ask(Ask::Symbol(Call::Reader), PLAIN, &mut run.tally)?;
    let mut refused = 0;
    for at in 0..written.len() + run.r.one_of(&[0, 2, 12]) as usize {
        if run.r.below(64) < oddities {
            odd(run, w, false)?;
        }
        let (n, k) = written.get(at).copied().unwrap_or_else(|| pair(&mut run.r));
        refused += (w.ask(Ask::GetPulses(n, k), PLAIN, &mut run.tally)? != 0) as u32;
        if refused == 2 {
            break;
        }
    }
    Ok(())
}
