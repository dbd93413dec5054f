//! Every short sequence of symbols over storages of 0 to 2 bytes: written, closed and read back; and every content of such a storage, read.
use crate::coder::reading;
use crate::steps::{Ask, Lent, Step};
use crate::walk::{Differs, Walk};
use crate::Run;
use driver::coder::Call;

/// The symbols of a sequence: each kind at its least and its greatest, and some between.
const WRITTEN: [Call<'static>; 23] = [
    Call::PutBit(0, 1), Call::PutBit(1, 1), Call::PutBit(1, 3), Call::PutBit(0, 15), Call::PutBit(1, 15),
    Call::PutTable(0, &[0], 1), Call::PutTable(0, &[5, 2, 0], 3), Call::PutTable(1, &[5, 2, 0], 3), Call::PutTable(2, &[5, 2, 0], 3),
    Call::PutTable(1, &[255, 254, 1, 0], 8),
    Call::PutUniform(0, 2), Call::PutUniform(2, 3), Call::PutUniform(255, 256), Call::PutUniform(128, 257), Call::PutUniform(0, u32::MAX),
    Call::PutUniform(u32::MAX - 1, u32::MAX),
    Call::PutRaw(1, 1), Call::PutRaw(0, 7), Call::PutRaw(255, 8), Call::PutRaw((1 << 25) - 1, 25),
    Call::PutLaplace(0, 72 << 7, 127 << 6), Call::PutLaplace(-3, 72 << 7, 127 << 6), Call::PutLaplace(32767, 42 << 7, 121 << 6),
];

/// The kinds that are read from any content.
const READ: [Call<'static>; 16] = [
    Call::GetBit(1), Call::GetBit(3), Call::GetBit(15), Call::GetTable(&[0], 1), Call::GetTable(&[5, 2, 0], 3), Call::GetTable(&[255, 254, 1, 0], 8),
    Call::GetUniform(2), Call::GetUniform(3), Call::GetUniform(256), Call::GetUniform(257), Call::GetUniform(u32::MAX), Call::GetRaw(1),
    Call::GetRaw(8), Call::GetRaw(25), Call::GetLaplace(72 << 7, 127 << 6), Call::GetLaplace(42 << 7, 121 << 6),
];

/// How many symbols a sequence has at most.
const LONG: usize = 4;

const PLAIN: Lent = Lent { state: 0, value: 0, bytes: 0, places: 0 };

fn closed_and_read(run: &mut Run, w: &mut Walk, path: &[Call<'static>]) -> Result<(), Differs> {
    w.ask(Ask::Symbol(Call::Close), PLAIN, &mut run.tally)?;
    w.ask(Ask::Symbol(Call::Reader), PLAIN, &mut run.tally)?;
    for call in path {
        w.ask(Ask::Symbol(reading(call)), PLAIN, &mut run.tally)?;
    }
    Ok(())
}

/// Every symbol after those of the path; after each the writer is closed and all is read back.
fn grow(run: &mut Run, w: &mut Walk, path: &mut Vec<Call<'static>>) -> Result<(), Differs> {
    let (state, steps) = (w.state, w.log.len());
    let mut bytes = [0; 2];
    let n = w.storage();
    bytes[..n].copy_from_slice(w.lent_bytes());
    for call in WRITTEN {
        w.put_back(&state, &bytes[..n], steps);
        let refused = w.ask(Ask::Symbol(call), PLAIN, &mut run.tally)? != 0;
        path.push(call);
        let (after, long) = (w.state, w.log.len());
        let mut then = [0; 2];
        then[..n].copy_from_slice(w.lent_bytes());
        closed_and_read(run, w, path)?;
        w.put_back(&after, &then[..n], long);
        if path.len() < LONG && !refused {
            grow(run, w, path)?;
        }
        path.pop();
    }
    Ok(())
}

/// Sequences written over each storage.
pub fn written(run: &mut Run, w: &mut Walk) -> Result<(), Differs> {
    for storage in 0..=2 {
        for fill in [0, 255] {
            w.bytes(storage, fill);
            w.ask(Ask::Symbol(Call::Writer), PLAIN, &mut run.tally)?;
            grow(run, w, &mut vec![])?;
        }
    }
    Ok(())
}

/// Two reads of every content of each storage.
pub fn read(run: &mut Run, w: &mut Walk) -> Result<(), Differs> {
    for storage in 0..=2 {
        for content in 0..1u32 << (8 * storage) {
            w.bytes(storage, 0);
            for place in 0..storage {
                w.prepare(Step::Byte(place as u16, (content >> (8 * place)) as u8));
            }
            w.ask(Ask::Symbol(Call::Reader), PLAIN, &mut run.tally)?;
            let (new, steps) = (w.state, w.log.len());
            let bytes = (content as u16).to_le_bytes();
            for first in READ {
                w.put_back(&new, &bytes[..storage], steps);
                w.ask(Ask::Symbol(first), PLAIN, &mut run.tally)?;
                let (then, steps) = (w.state, w.log.len());
                for second in READ {
                    w.put_back(&then, &bytes[..storage], steps);
                    w.ask(Ask::Symbol(second), PLAIN, &mut run.tally)?;
                }
            }
        }
    }
    Ok(())
}
