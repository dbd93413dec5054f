//! A stream record: frames, saved lines and restored ones. The record that a line leaves is the next line's; a sequence begins with a record of its own. The
//! oracles decode coarse energies (energy.rs), and the record's rule and its lines are document 01's words (record.rs, saved_lines.rs). The fields of
//! a line are separated by tabs:
//!
//!     E .. or Q ..    a saved line is restored; so is what begins with no letter below
//!     F number C LM start end intra state packet    a frame: it is tried with the number after its own, with its own, and with its own once more
//!     N               a fresh record
//!     T one two       the record's next number becomes their sum
//!     X place which   an energy becomes a NaN (0), an infinity (1) or the negative one (2)
//!
//! The state is storage ends window waiting total offs rng val ext rem error, the packet is in hex. A restored line is answered by R and 0 or the number of
//! the refusal, after which the record is as it was. A frame is answered by F, the three numbers and the state after the second try; then the record
//! is saved, which is answered by its line, or by S and the number of the refusal, and it goes on as restored from the line. N, T and X have no
//! answer.
use crate::energy::Asked;
use crate::listing::strict;
use crate::record::{framed, Framed, Record, FRESH};
use crate::saved_lines::{self, line_of, record_of, ROOM};
use crate::states::{bytes_of, State};
use crate::Side;

/// The bits of what X gives.
pub const WILD: [u32; 3] = [0x7fc0_0000, 0x7f80_0000, 0xff80_0000];

/// The state in a line's order, from that of the other kinds.
fn in_line([storage, offs, ends, window, waiting, total, rng, val, ext, rem, error]: State) -> State {
    [storage, ends, window, waiting, total, offs, rng, val, ext, rem, error]
}

/// And back. Every mark but 0 is one.
fn from_line([storage, ends, window, waiting, total, offs, rng, val, ext, rem, error]: State) -> State {
    [storage, offs, ends, window, waiting, total, rng, val, ext, rem, (error != 0) as u32]
}

fn tabbed<T: ToString>(list: &[T]) -> String {
    list.iter().map(|v| format!("\t{}", v.to_string())).collect()
}

/// The line of a frame: its number, and the coarse decode, whose energies are the record's own.
pub fn frame_line(number: u32, a: &Asked) -> String {
    let packet: String = a.bytes.iter().map(|b| format!("{b:02x}")).collect();
    format!("F\t{number}{}{}\t{packet}", tabbed(&[a.c, a.lm, a.start, a.end, a.intra]), tabbed(&in_line(a.state)))
}

fn frame_of(line: &str) -> Option<(u64, Asked)> {
    let fields: Vec<&str> = line.split('\t').collect();
    if fields.len() != 19 {
        return None;
    }
    let n: Vec<i64> = fields[1..18].iter().map(|f| strict(f)).collect::<Option<_>>()?;
    let [c, lm, start, end, intra] = [n[1], n[2], n[3], n[4], n[5]].map(|v| v as i32);
    let a = Asked {
        coarse: true, state: from_line(std::array::from_fn(|at| n[6 + at] as u32)), c, lm, start, end, intra, left: 0, energies: vec![], fine: vec![],
        priorities: vec![], bytes: bytes_of(fields[18]),
    };
    Some((n[0] as u64, a))
}

/// The oracles' side.
pub struct Oracle(Record);

impl Oracle {
    pub fn new() -> Self {
        Oracle(FRESH)
    }

    /// A try of a frame, which leaves its record.
    fn try_once(&mut self, a: &Asked, number: u64) -> Framed {
        let f = framed(&self.0, a, number);
        self.0 = f.record;
        f
    }

    /// The record's line, from which it goes on, or why there is none.
    fn saved(&mut self) -> String {
        match saved_lines::refusal(&self.0, ROOM) {
            0 => {
                let line = line_of(&self.0);
                self.0 = record_of(line.as_bytes()).expect("a saved line");
                line
            }
            no => format!("S\t{no}"),
        }
    }

    fn frame(&mut self, number: u64, a: &Asked) -> String {
        let skip = self.try_once(a, number + 1);
        let own = self.try_once(a, number);
        let again = self.try_once(a, number);
        let codes = tabbed(&[skip.code, own.code, again.code]);
        format!("F{codes}{}\n{}", tabbed(&in_line(own.state)), self.saved())
    }

    fn restored(&mut self, line: &str) -> String {
        match record_of(line.as_bytes()) {
            Ok(record) => {
                self.0 = record;
                "R\t0".to_string()
            }
            Err(no) => format!("R\t{no}"),
        }
    }
}

impl Side for Oracle {
    fn answer(&mut self, line: &str) -> Option<String> {
        let fields: Vec<&str> = line.split('\t').collect();
        let number = |at: usize| {
            let n = fields.get(at).and_then(|f| strict(f)).and_then(|n| u32::try_from(n).ok());
            n.unwrap_or_else(|| panic!("'{line}' is no request"))
        };
        match line.as_bytes().first() {
            Some(b'F') => {
                let (number, a) = frame_of(line).unwrap_or_else(|| panic!("'{line}' is no request"));
                return Some(self.frame(number, &a));
            }
            Some(b'N') => self.0 = FRESH,
            Some(b'T') => self.0 .1 = number(1) as u64 + number(2) as u64,
            Some(b'X') => self.0 .0[number(1) as usize] = WILD[number(2) as usize],
            _ => return Some(self.restored(line)),
        }
        None
    }
}
