//! The lister's answers: recorded packets, the domain's limits, every kind of malformed line, then random lines, whole and damaged. The allocation is
//! both oracles', inside the lister's own rule, which is document 01's words (driver/src/listing.rs).
use crate::exports_frame as exports;
use crate::guarded::Guarded;
use crate::question::{asked, Question};
use crate::shrink::shorter;
use crate::tally::{Name, Tally, Why, NAMES};
use crate::Run;
use driver::listing::listing;
use driver::listing_sequences as sequences;
use driver::random::Random;
use std::panic::{catch_unwind, AssertUnwindSafe};

/// A line, its number, the bytes that are lent for the answer, and by how much the length's list is longer than it must be.
#[derive(Clone)]
struct Line {
    line: Vec<u8>,
    number: u32,
    room: usize,
    length: i8,
}

/// No answer takes more bytes, and so many are asked for.
const ROOM: usize = 1200;
const KEPT: usize = 0x5eed_5eed;

/// The answer's lines, each with a line feed. A line with a byte that is no text is malformed.
fn answer(number: u32, line: &[u8]) -> String {
    let lines = match std::str::from_utf8(line) {
        Ok(text) => listing(number as u64, text),
        Err(_) => format!("X\t{number}\t1"),
    };
    lines + "\n"
}

impl Question for Line {
    fn compared(&self, tally: &mut Tally) -> Result<u32, String> {
        let expected = if self.room >= ROOM && self.length == 0 { 0 } else { 2 };
        let text = match catch_unwind(AssertUnwindSafe(|| answer(self.number, &self.line))) {
            Ok(text) => text,
            // The oracles' side stops where the two differ, and says so.
            Err(said) => match said.downcast::<String>() {
                Ok(said) if said.starts_with("the crate and libopus differ") => return Err(*said),
                _ => {
                    tally.apart(Name::List, Why::OraclePanics, || self.shown());
                    return Ok(0);
                }
            },
        };
        let mut right: Vec<u8> = (0..self.room).map(|at| at as u8).collect();
        let mut out = Guarded::new(&right, 0xa5, 0);
        let mut length = Guarded::new(&[KEPT], KEPT, self.length);
        let no = exports::list(&self.line, self.number, out.lent(), length.lent());
        let mut long = KEPT;
        if expected == 0 {
            right[..text.len()].copy_from_slice(text.as_bytes());
            long = text.len();
        }
        if no != expected || !out.is(&right) || !length.is(&[long]) {
            let shown = |bytes: &[u8]| String::from_utf8_lossy(&bytes[..bytes.len().min(text.len())]).into_owned();
            let port = format!("{no}; length {:?}; {:?}", length.inner(), shown(out.inner()));
            let name = NAMES[Name::List as usize];
            return Err(format!("{name} differs\n  port     {port}\n  oracles  {expected}; length {long}; {text:?}"));
        }
        tally.alike(Name::List, no);
        Ok(no)
    }

    fn simpler(&self) -> Vec<Self> {
        shorter(&self.line).into_iter().map(|line| Line { line, ..self.clone() }).collect()
    }

    fn shown(&self) -> String {
        let line = String::from_utf8_lossy(&self.line);
        format!("line {} {line:?}; {} bytes; length's list longer by {}", self.number, self.room, self.length)
    }
}

pub fn fixed(run: &mut Run) -> Result<(), String> {
    for line in sequences::fixed_lines() {
        for number in [0, 1, u32::MAX] {
            asked(run, Line { line: line.clone().into_bytes(), number, room: ROOM, length: 0 })?;
        }
    }
    for room in [0, 1, 1199, 1200, 1201] {
        for length in -1..=1 {
            asked(run, Line { line: b"1\t0\t0\t1\t5\t64\t00".to_vec(), number: 1, room, length })?;
        }
    }
    Ok(())
}

/// Any byte changed, put in or left out.
fn any_byte(r: &mut Random, mut line: Vec<u8>) -> Vec<u8> {
    if !line.is_empty() {
        let place = r.below(line.len() as u32) as usize;
        let b = r.below(256) as u8;
        match r.below(3) {
            0 => line[place] = b,
            1 => line.insert(place, b),
            _ => drop(line.remove(place)),
        }
    }
    line
}

/// The same with a packet of any length, up to what a line may hold and past it.
fn long_packet(r: &mut Random, line: &[u8]) -> Vec<u8> {
    let keep = line.iter().rposition(|b| *b == b'\t').map_or(0, |at| at + 1);
    let packet: String = (0..r.within(0, 1310)).map(|_| format!("{:02x}", r.below(256))).collect();
    [&line[..keep], packet.as_bytes()].concat()
}

pub fn chance(run: &mut Run, calls: u64) -> Result<(), String> {
    while run.tally.calls < calls {
        let r = &mut run.r;
        let mut line = sequences::any_line(r).into_bytes();
        if r.below(32) == 0 {
            line = long_packet(r, &line);
        }
        if r.below(16) == 0 {
            line = any_byte(r, line);
        }
        let small = r.below(1000);
        let number = r.one_of(&[small, small, 0, u32::MAX, 4_000_000_000]);
        let room = if r.below(32) == 0 { r.one_of(&[0, 1199, 1201, 2000]) } else { ROOM };
        let length = if r.below(64) == 0 { r.one_of(&[-1, 1]) } else { 0 };
        asked(run, Line { line, number, room, length })?;
    }
    Ok(())
}
