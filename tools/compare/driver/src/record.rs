//! The stream record by document 01's words, apart from the port, since no oracle has one. The coarse decode inside a frame is both oracles' (energy.rs).
use crate::energy::Asked;
use crate::refusals;
use crate::states::{self, List, State};

/// A record: 42 energies by their bits, and its next number.
pub type Record = ([u32; 42], u64);

/// No frame was applied.
pub const FRESH: Record = ([0; 42], 0);

/// A frame's number and a record's next are in their domains.
fn known(next: u64, number: u64) -> bool {
    number <= 4_294_967_294 && next <= 4_294_967_295
}

/// 10 below the next number, 11 above it.
fn out_of_order(next: u64, number: u64) -> u32 {
    match number.cmp(&next) {
        std::cmp::Ordering::Less => 10,
        std::cmp::Ordering::Equal => 0,
        std::cmp::Ordering::Greater => 11,
    }
}

/// The number of the refusal of the two numbers alone, 0 for none.
pub fn order(next: u64, number: u64) -> u32 {
    refusals::first(true, known(next, number), true, out_of_order(next, number), true, true)
}

/// The number of the refusal of that frame, 0 for none: a coarse decode of the record's energies, from a reader's state.
pub fn refusal(a: &Asked, list: &List, next: u64, number: u64) -> u32 {
    a.refusal_of(list, known(next, number), out_of_order(next, number))
}

/// What a frame answers: 0 or the number of the refusal, and the record and the reader after it.
pub struct Framed {
    pub code: u32,
    pub record: Record,
    pub state: State,
}

/// That frame on a record. Of the coarse decode everything is taken but its energies, which are the record's.
pub fn framed(record: &Record, a: &Asked, number: u64) -> Framed {
    let (energies, next) = *record;
    let a = Asked { energies: energies.to_vec(), ..a.clone() };
    let code = refusal(&a, &states::list(&a.state, 0, false), next, number);
    if code != 0 {
        return Framed { code, record: *record, state: a.state };
    }
    let g = a.given().unwrap_or_else(|no| panic!("refused as {no} without a record: '{}'", a.line()));
    Framed { code, record: (g.energies.try_into().expect("42 energies"), next + 1), state: g.state }
}
