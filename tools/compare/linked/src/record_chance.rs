//! The stream record: its limits and recorded coarse decodes; then frames that follow one another over packets, with repeats, gaps and damage between
//! them, and records that are saved and restored, from whole lines and damaged ones.
use crate::damage::damage;
use crate::question::asked;
use crate::readers;
use crate::record::{before, Recorded};
use crate::Run;
use driver::energy::Asked;
use driver::energy_sequences as sequences;
use driver::random::Random;
use driver::record::Record;
use driver::saved_lines::{line_of, ROOM};
use driver::states;
use driver::stream_sequences::{damaged, number, quarters};

/// Right lengths, or one of them wrong now and then.
fn lengths<const N: usize>(r: &mut Random) -> [i8; N] {
    let mut by = [0; N];
    if r.below(24) == 0 {
        by[r.below(N as u32) as usize] = r.one_of(&[-1, 1]);
    }
    by
}

/// Numbers at every limit, lengths, document 01's example of an empty packet with intra, and the coarse decodes that energies.rs always asks.
pub fn fixed(run: &mut Run) -> Result<(), String> {
    let numbers = [0, 1, 2, 4_294_967_294, 4_294_967_295, 4_294_967_296, u64::MAX];
    for next in numbers {
        for number in numbers {
            asked(run, Recorded::Order(next, number))?;
            let a = Asked { c: 1, lm: 0, start: 0, end: 1, intra: 1, energies: vec![0; 42], ..sequences::asked(&mut run.r, true, 0) };
            let list = states::list(&a.state, 0, false);
            asked(run, Recorded::Frame(number, a, list, next, [0; 3]))?;
        }
        asked(run, Recorded::Save(([0; 42], next), ROOM, [0; 2]))?;
        asked(run, Recorded::Restore(line_of(&([0x8000_0000; 42], next)).into_bytes(), [0; 2]))?;
    }
    for by in [[0, 0], [-1, 0], [1, 0], [0, -1], [0, 1]] {
        asked(run, Recorded::Fresh(by))?;
        asked(run, Recorded::Save(before(), ROOM, by))?;
        asked(run, Recorded::Restore(line_of(&before()).into_bytes(), by))?;
        asked(run, Recorded::Restore(vec![], by))?;
    }
    // Recorded traffic is among them.
    for a in sequences::requests(&mut run.r).into_iter().filter(|a| a.coarse) {
        let list = states::list(&a.state, 0, false);
        asked(run, Recorded::Frame(5, a, list, 5, [0; 3]))?;
    }
    for room in [0, 1, 389, 390, 391] {
        for next in [0, 4_294_967_295, 4_294_967_296] {
            asked(run, Recorded::Save((before().0, next), room, [0; 2]))?;
        }
    }
    Ok(())
}

/// Frames of a stream, one after the other, with what may go wrong between them.
fn stream(run: &mut Run) -> Result<(), String> {
    let by = lengths(&mut run.r);
    asked(run, Recorded::Fresh(by))?;
    let r = &mut run.r;
    let mut energies = if r.below(4) == 0 { sequences::energies(r) } else { vec![0; 42] };
    let mut next = if r.below(4) == 0 { number(r) } else { r.below(1000) as u64 };
    for _ in 0..r.within(1, 8) {
        let r = &mut run.r;
        let size = readers::storage(r);
        let bytes = readers::packet(r, size);
        let mut list = readers::reader(r, &bytes);
        let mut a = Asked { energies: energies.clone(), bytes, ..sequences::asked(r, true, 0) };
        if r.below(16) == 0 {
            let (place, v) = damage(r, &list, a.bytes.len());
            list[place as usize] = v;
        }
        if r.below(32) == 0 {
            let v = r.one_of(&[0, 3, -1, 22, i32::MAX]);
            *[&mut a.c, &mut a.lm, &mut a.start, &mut a.end, &mut a.intra][r.below(5) as usize] = v;
        }
        if r.below(32) == 0 {
            a.energies[r.below(42) as usize] = r.one_of(&[0x7fc0_0000, 0x7f80_0000, 0xff80_0000, 0x7f7f_ffff]);
        }
        let any = number(r);
        let asks = r.one_of(&[next, next, next, next, next, next.wrapping_sub(1), next.wrapping_add(1), any]);
        asked(run, Recorded::Order(next, asks))?;
        let by = lengths(&mut run.r);
        let q = Recorded::Frame(asks, a.clone(), list, next, by);
        if asked(run, q)? == 0 {
            energies = a.by_libopus(states::list_saved(&list, false)).energies;
            next += 1;
        }
    }
    // What the stream left is saved and restored.
    let record: Record = (energies.try_into().expect("42 energies"), next);
    let r = &mut run.r;
    let room = r.one_of(&[ROOM, ROOM, ROOM + 9, ROOM - 1, 1000]);
    let (first, second) = (lengths(r), lengths(r));
    asked(run, Recorded::Save(record, room, first))?;
    asked(run, Recorded::Restore(line_of(&record).into_bytes(), second))?;
    Ok(())
}

/// Records of any energies, saved and restored; lines of 256ths; damaged lines.
fn lines(run: &mut Run) -> Result<(), String> {
    let r = &mut run.r;
    let energies: Vec<u32> = match r.below(4) {
        0 => (0..42).map(|_| r.within(0, u32::MAX)).collect(),
        _ => sequences::energies(r),
    };
    let record: Record = (energies.try_into().expect("42 energies"), number(r));
    asked(run, Recorded::Save(record, ROOM, [0; 2]))?;
    let r = &mut run.r;
    let line = if r.below(2) == 0 { quarters(r) } else { line_of(&record) };
    asked(run, Recorded::Restore(line.clone().into_bytes(), [0; 2]))?;
    for _ in 0..3 {
        let line = damaged(&mut run.r, line.as_bytes());
        asked(run, Recorded::Restore(line, [0; 2]))?;
    }
    Ok(())
}

pub fn chance(run: &mut Run, calls: u64) -> Result<(), String> {
    while run.tally.calls < calls {
        if run.r.below(2) == 0 {
            stream(run)?;
        } else {
            lines(run)?;
        }
    }
    Ok(())
}
