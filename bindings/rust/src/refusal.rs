use std::error::Error;
use std::fmt;

/// Why a call was refused. Of several reasons that apply the first is given, in the order of this list; the call then changed nothing.
///
/// ```
/// let mut record = gurthapen::Record::fresh();
/// let packet = [0x5a; 20];
/// let mut reader = gurthapen::Reader::new(&packet).unwrap();
/// let coarse = gurthapen::Coarse { channels: 2, lm: 3, start: 0, end: 21, intra: true };
/// let refusal = record.frame(&mut reader, 1, &coarse).unwrap_err();
/// assert_eq!(refusal, gurthapen::Refusal::AboveNext);
/// assert_eq!(refusal.to_string(), "11: the frame number is above the record's next number");
/// ```
#[derive(Clone, Copy, Debug, PartialEq, Eq, Hash)]
pub enum Refusal {
    /// 2: a list or buffer that is lent has a wrong length.
    Length,
    /// 1: a number that is outside its domain, or a malformed line.
    Number,
    /// 3: an entry of a list, an energy or the gain is out of range.
    Entry,
    /// 5: the pulse cache has no row for this band and LM.
    NoRow,
    /// 6: the row of the band and LM has no such index of pulses.
    Index,
    /// 7: V(N,K), how many vectors there are, does not fit 32 bits.
    Count,
    /// 8: a vector that is to be written has not K pulses.
    Sum,
    /// 9: 2K < N with a spread that is not 0, where the shape would be rotated.
    Rotation,
    /// 10: the frame number is below the record's next number.
    BelowNext,
    /// 11: the frame number is above the record's next number.
    AboveNext,
    /// 12: the writer was closed before.
    Closed,
    /// 4: tell was above 8 * storage + 32 before the call.
    PastEnd,
}

const ALL: [Refusal; 12] = [
    Refusal::Length,
    Refusal::Number,
    Refusal::Entry,
    Refusal::NoRow,
    Refusal::Index,
    Refusal::Count,
    Refusal::Sum,
    Refusal::Rotation,
    Refusal::BelowNext,
    Refusal::AboveNext,
    Refusal::Closed,
    Refusal::PastEnd,
];

impl Refusal {
    /// The number that the exported call answers.
    ///
    /// ```
    /// assert_eq!(gurthapen::Refusal::Closed.number(), 12);
    /// ```
    pub fn number(self) -> u32 {
        match self {
            Refusal::Number => 1,
            Refusal::Length => 2,
            Refusal::Entry => 3,
            Refusal::PastEnd => 4,
            Refusal::NoRow => 5,
            Refusal::Index => 6,
            Refusal::Count => 7,
            Refusal::Sum => 8,
            Refusal::Rotation => 9,
            Refusal::BelowNext => 10,
            Refusal::AboveNext => 11,
            Refusal::Closed => 12,
        }
    }

    /// What an exported call answered: 0 is no refusal. By the calls' contracts every other answer is a number of this list.
    pub(crate) fn check(answer: u32) -> Result<(), Refusal> {
        if answer == 0 {
            return Ok(());
        }
        match ALL.iter().find(|r| r.number() == answer) {
            Some(&refusal) => Err(refusal),
            None => unreachable!("libgurthapen.a answered {answer}, which is no number of a refusal"),
        }
    }
}

impl fmt::Display for Refusal {
    fn fmt(&self, f: &mut fmt::Formatter<'_>) -> fmt::Result {
        f.write_str(match self {
            Refusal::Number => "1: a number that is outside its domain, or a malformed line",
            Refusal::Length => "2: a list or buffer that is lent has a wrong length",
            Refusal::Entry => "3: an entry of a list, an energy or the gain is out of range",
            Refusal::PastEnd => "4: tell was above 8 * storage + 32 before the call",
            Refusal::NoRow => "5: the pulse cache has no row for this band and LM",
            Refusal::Index => "6: the row of the band and LM has no such index of pulses",
            Refusal::Count => "7: V(N,K), how many vectors there are, does not fit 32 bits",
            Refusal::Sum => "8: a vector that is to be written has not K pulses",
            Refusal::Rotation => "9: 2K < N with a spread that is not 0, where the shape would be rotated",
            Refusal::BelowNext => "10: the frame number is below the record's next number",
            Refusal::AboveNext => "11: the frame number is above the record's next number",
            Refusal::Closed => "12: the writer was closed before",
        })
    }
}

impl Error for Refusal {}
