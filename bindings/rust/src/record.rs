use crate::{raw, Coarse, Reader, Refusal, ENERGIES};

/// How many bytes the longest line of a record has.
const LINE: usize = 390;

/// A stream record: 42 energies, and the number of the frame that comes next. Only the next number is applied, and each number once. A refused
/// call leaves the record and the reader as they were.
///
/// ```
/// # fn main() -> Result<(), gurthapen::Refusal> {
/// let packet = [0x5a; 20];
/// let coarse = gurthapen::Coarse { channels: 2, lm: 3, start: 0, end: 21, intra: true };
/// let mut record = gurthapen::Record::fresh();
/// record.frame(&mut gurthapen::Reader::new(&packet)?, 0, &coarse)?;
/// assert_eq!(record.next(), 1);
///
/// // the same frame once more, and one that leaves a gap
/// let mut reader = gurthapen::Reader::new(&packet)?;
/// assert_eq!(record.frame(&mut reader, 0, &coarse), Err(gurthapen::Refusal::BelowNext));
/// assert_eq!(record.frame(&mut reader, 2, &coarse), Err(gurthapen::Refusal::AboveNext));
/// assert_eq!(record.next(), 1);
/// # Ok(())
/// # }
/// ```
#[derive(Clone, Debug, PartialEq)]
pub struct Record {
    energies: [f32; ENERGIES],
    next: u64,
}

impl Record {
    /// The record before the first frame: energies of zero, and number 0 comes next.
    pub fn fresh() -> Self {
        let mut energies = [0.0; ENERGIES];
        let mut next = [0];
        Refusal::check(raw::record_fresh(&mut energies, &mut next)).expect("lists of the right length are not refused");
        Record { energies, next: next[0] }
    }

    /// A record of these energies and this next number. Whether they are good is checked by each call: every energy is finite, and the number is
    /// at most 4,294,967,295.
    ///
    /// ```
    /// let record = gurthapen::Record::from_parts([f32::NAN; 42], 0);
    /// assert_eq!(record.save(), Err(gurthapen::Refusal::Entry));
    /// let record = gurthapen::Record::from_parts([0.0; 42], 4_294_967_296);
    /// assert_eq!(record.save(), Err(gurthapen::Refusal::Number));
    /// ```
    pub fn from_parts(energies: [f32; ENERGIES], next: u64) -> Self {
        Record { energies, next }
    }

    /// The energies as they are now.
    pub fn energies(&self) -> &[f32; ENERGIES] {
        &self.energies
    }

    /// The number of the frame that comes next.
    pub fn next(&self) -> u64 {
        self.next
    }

    /// Whether a frame's number, 0..4,294,967,294, is the next: else it is below it, or above it. Where it, or the record's next number, is outside its
    /// domain, that is the refusal, as it is of a frame.
    ///
    /// ```
    /// let record = gurthapen::Record::from_parts([0.0; 42], 7);
    /// assert_eq!(record.order(6), Err(gurthapen::Refusal::BelowNext));
    /// assert_eq!(record.order(7), Ok(()));
    /// assert_eq!(record.order(8), Err(gurthapen::Refusal::AboveNext));
    /// assert_eq!(record.order(4_294_967_295), Err(gurthapen::Refusal::Number));
    /// let record = gurthapen::Record::from_parts([0.0; 42], 4_294_967_296);
    /// assert_eq!(record.order(5), Err(gurthapen::Refusal::Number));
    /// ```
    pub fn order(&self, number: u64) -> Result<(), Refusal> {
        Refusal::check(raw::record_order(self.next, number))
    }

    /// Frame `number`, 0..4,294,967,294, whose coarse energies the reader stands before: they are decoded once, and the next number rises by one. Of
    /// a mono frame only channel 0 is used and changed.
    pub fn frame(&mut self, reader: &mut Reader<'_>, number: u64, coarse: &Coarse) -> Result<(), Refusal> {
        let mut next = [self.next];
        let (state, packet) = reader.parts();
        Refusal::check(raw::record_frame(
            &mut self.energies,
            &mut next,
            state,
            packet,
            number,
            coarse.channels,
            coarse.lm,
            coarse.start,
            coarse.end,
            coarse.intra.into(),
        ))?;
        self.next = next[0];
        Ok(())
    }

    /// The record's line, without a line feed.
    ///
    /// ```
    /// # fn main() -> Result<(), gurthapen::Refusal> {
    /// let mut energies = [0.0; 42];
    /// energies[0] = -0.0;
    /// energies[1] = 1.5;
    /// let line = gurthapen::Record::from_parts(energies, 17).save()?;
    /// assert!(line.starts_with("E\t17\t80000000\t3fc00000\t00000000\t"));
    ///
    /// let restored = gurthapen::Record::restore(line.as_bytes())?;
    /// assert_eq!(restored.next(), 17);
    /// assert_eq!(restored.energies().map(f32::to_bits), energies.map(f32::to_bits));
    /// # Ok(())
    /// # }
    /// ```
    pub fn save(&self) -> Result<String, Refusal> {
        let mut line = [0; LINE];
        let mut length = [0];
        Refusal::check(raw::record_save(&self.energies, self.next, &mut line, &mut length))?;
        Ok(text(&line[..length[0]]))
    }

    /// The record of a line, without its line feed: an E line, as saved, or a Q line with its energies in 256ths.
    ///
    /// ```
    /// let line = format!("Q\t3\t-384{}", "\t0".repeat(41));
    /// let record = gurthapen::Record::restore(line.as_bytes()).unwrap();
    /// assert_eq!((record.next(), record.energies()[0]), (3, -1.5));
    /// assert_eq!(gurthapen::Record::restore(b"E\t3"), Err(gurthapen::Refusal::Number));
    /// ```
    pub fn restore(line: &[u8]) -> Result<Self, Refusal> {
        let mut energies = [0.0; ENERGIES];
        let mut next = [0];
        Refusal::check(raw::record_restore(line, &mut energies, &mut next))?;
        Ok(Record { energies, next: next[0] })
    }
}

/// Bytes of ASCII as text.
pub(crate) fn text(bytes: &[u8]) -> String {
    String::from_utf8(bytes.to_vec()).expect("libgurthapen.a writes ASCII only")
}
