use crate::{raw, Frame, Refusal, Wishes};

/// A symbol that a round trip writes, as the [`crate::Writer`] calls take it.
#[derive(Clone, Copy, Debug, PartialEq, Eq, Hash)]
pub enum Symbol<'a> {
    /// A bit, which is 1 in one of 2^logp places.
    Bit { value: bool, logp: u32 },
    /// A symbol of a table of 2^ftb places.
    Table { value: u32, table: &'a [u8], ftb: u32 },
    /// A number below ft.
    Uniform { value: u32, ft: u32 },
    /// n raw bits.
    Raw { value: u32, n: u32 },
    /// A Laplace value of a pair of the coarse-energy model.
    Laplace { value: i32, fs: u32, decay: u32 },
}

impl Symbol<'_> {
    /// Its five numbers; a table's entries go to the end of the tables.
    fn numbers(&self, tables: &mut Vec<u8>) -> [u32; 5] {
        let place = |n: usize| u32::try_from(n).expect("tables of fewer than 2^32 entries");
        match *self {
            Symbol::Bit { value, logp } => [0, value.into(), logp, 0, 0],
            Symbol::Table { value, table, ftb } => {
                let first = place(tables.len());
                tables.extend_from_slice(table);
                [1, value, ftb, first, place(table.len())]
            }
            Symbol::Uniform { value, ft } => [2, value, ft, 0, 0],
            Symbol::Raw { value, n } => [3, value, n, 0, 0],
            // 0, 1, 2, 3, 4, .. for 0, -1, 1, -2, 2, ..
            Symbol::Laplace { value, fs, decay } => [4, (value << 1 ^ value >> 31) as u32, fs, decay, 0],
        }
    }
}

/// A call of the writer in a round trip: the new writer, the symbol at a place, the allocation, the close.
#[derive(Clone, Copy, Debug, PartialEq, Eq, Hash)]
pub enum Call {
    New,
    Symbol(usize),
    Allocation,
    Close,
}

/// How a round trip ended. The reader never disagrees, which is proved.
#[derive(Clone, Copy, Debug, PartialEq, Eq, Hash)]
pub enum Outcome {
    /// The reader got what was written.
    Agreed,
    /// The close set the error mark: the bytes were too few.
    NotClosed,
    /// A call of the writer was refused.
    Refused(Call, Refusal),
    /// The reader got something else.
    Disagreed,
}

impl Outcome {
    /// What the four numbers of the exported call say. By its contract it gives no others than these.
    fn of([how, by, which, why]: [u64; 4]) -> Outcome {
        let refusal = || Refusal::check(why as u32).expect_err("a refusal has a number");
        match (how, by) {
            (0, _) => Outcome::Agreed,
            (1, _) => Outcome::NotClosed,
            (2, 0) => Outcome::Refused(Call::New, refusal()),
            (2, 1) => Outcome::Refused(Call::Symbol(which as usize), refusal()),
            (2, 2) => Outcome::Refused(Call::Allocation, refusal()),
            (2, 3) => Outcome::Refused(Call::Close, refusal()),
            (3, _) => Outcome::Disagreed,
            _ => unreachable!("libgurthapen.a answered {how}, {by}, which is no outcome"),
        }
    }
}

/// Writes the symbols and then the allocation with a new writer over a copy of the bytes, closes, reads all back and compares: each value, tell
/// after each symbol, the allocation's numbers and lists.
///
/// ```
/// use gurthapen::{round_trip, Call, Frame, Outcome, Refusal, Symbol, Wishes};
///
/// let frame = Frame { channels: 1, lm: 2, end: 21, trim: 5, total: 900, caps: [4_000; 21], ..Default::default() };
/// let mut symbols = [
///     Symbol::Uniform { value: 70_000, ft: 100_000 },
///     Symbol::Table { value: 1, table: &[2, 1, 0], ftb: 2 },
///     Symbol::Raw { value: 5, n: 3 },
/// ];
/// assert_eq!(round_trip(&[0; 20], &symbols, &frame, &Wishes::default()), Outcome::Agreed);
/// assert_eq!(round_trip(&[0; 3], &symbols, &frame, &Wishes::default()), Outcome::NotClosed);
/// symbols[2] = Symbol::Raw { value: 8, n: 3 };
/// let refused = Outcome::Refused(Call::Symbol(2), Refusal::Number);
/// assert_eq!(round_trip(&[0; 20], &symbols, &frame, &Wishes::default()), refused);
/// ```
///
/// # Panics
///
/// Where the tables of all symbols together have 2^32 entries or more.
pub fn round_trip(bytes: &[u8], symbols: &[Symbol<'_>], frame: &Frame, wishes: &Wishes) -> Outcome {
    let mut tables = vec![];
    let numbers: Vec<u32> = symbols.iter().flat_map(|s| s.numbers(&mut tables)).collect();
    let mut outcome = [0; 4];
    let answer = raw::round_trip(
        bytes,
        &numbers,
        &tables,
        frame.channels,
        frame.lm,
        frame.start,
        frame.end,
        frame.trim,
        frame.total,
        wishes.intensity,
        wishes.dual,
        wishes.previous,
        wishes.bandwidth,
        &frame.offsets,
        &frame.caps,
        &mut outcome,
    );
    Refusal::check(answer).expect("five numbers each, of known kinds and tables that are there, are not refused");
    Outcome::of(outcome)
}
