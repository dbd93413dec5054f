use crate::{raw, Allocation, Frame, Refusal, State, Wishes, ROOM};

/// A writer over lent bytes. A refused call leaves it and the bytes as they were.
///
/// ```
/// # fn main() -> Result<(), gurthapen::Refusal> {
/// let mut bytes = [0; 4];
/// let mut writer = gurthapen::Writer::new(&mut bytes)?;
/// writer.bit_logp(true, 3)?;
/// writer.icdf(1, &[2, 1, 0], 2)?;
/// assert_eq!(writer.uint(5, 5), Err(gurthapen::Refusal::Number));
/// writer.close()?;
/// assert_eq!(writer.close(), Err(gurthapen::Refusal::Closed));
/// # Ok(())
/// # }
/// ```
#[derive(Debug, PartialEq, Eq)]
pub struct Writer<'a> {
    bytes: &'a mut [u8],
    state: State,
}

impl<'a> Writer<'a> {
    /// A new writer over at most 1,275 bytes.
    pub fn new(bytes: &'a mut [u8]) -> Result<Self, Refusal> {
        let mut state = State([0; 12]);
        Refusal::check(raw::enc_new(&mut state.0, bytes))?;
        Ok(Writer { bytes, state })
    }

    /// A writer that goes on where another stood. Whether the state is good is checked by each call.
    pub fn from_state(bytes: &'a mut [u8], state: State) -> Self {
        Writer { bytes, state }
    }

    /// The state as it is now.
    pub fn state(&self) -> State {
        self.state
    }

    /// The bytes as they are now.
    pub fn bytes(&self) -> &[u8] {
        self.bytes
    }

    /// Whether the error mark is set: the bytes did not fit.
    pub fn error(&self) -> bool {
        self.state.0[State::ERROR] != 0
    }

    /// One bit, which is 1 in one of 2^logp places, logp 1..15.
    pub fn bit_logp(&mut self, bit: bool, logp: u32) -> Result<(), Refusal> {
        Refusal::check(raw::enc_bit_logp(&mut self.state.0, self.bytes, bit.into(), logp))
    }

    /// A symbol of a table of 2^ftb places, ftb 1..8: entries fall strictly to 0, the first is below 2^ftb.
    pub fn icdf(&mut self, symbol: u32, table: &[u8], ftb: u32) -> Result<(), Refusal> {
        Refusal::check(raw::enc_icdf(&mut self.state.0, self.bytes, symbol, table, ftb))
    }

    /// A number fl below ft, ft from 2 on.
    pub fn uint(&mut self, fl: u32, ft: u32) -> Result<(), Refusal> {
        Refusal::check(raw::enc_uint(&mut self.state.0, self.bytes, fl, ft))
    }

    /// n raw bits of v, n 1..25.
    pub fn bits(&mut self, v: u32, n: u32) -> Result<(), Refusal> {
        Refusal::check(raw::enc_bits(&mut self.state.0, self.bytes, v, n))
    }

    /// The last bytes; nothing may be written after it. Where they do not fit, the error mark is set.
    pub fn close(&mut self) -> Result<(), Refusal> {
        Refusal::check(raw::enc_close(&mut self.state.0, self.bytes))
    }

    /// How many bits are used.
    pub fn tell(&self) -> Result<u32, Refusal> {
        let mut value = [0];
        Refusal::check(raw::enc_tell(&self.state.0, &mut value))?;
        Ok(value[0])
    }

    /// How many eighths of a bit are used.
    pub fn tell_frac(&self) -> Result<u32, Refusal> {
        let mut value = [0];
        Refusal::check(raw::enc_tell_frac(&self.state.0, &mut value))?;
        Ok(value[0])
    }

    /// A Laplace value of a pair of the coarse-energy model; gives the value that counts as written.
    ///
    /// ```
    /// # fn main() -> Result<(), gurthapen::Refusal> {
    /// let mut bytes = [0; 8];
    /// let mut writer = gurthapen::Writer::new(&mut bytes)?;
    /// assert_eq!(writer.laplace(-2, 72 << 7, 127 << 6)?, -2);
    /// // a value past the last one that has a place is adjusted
    /// let counted = writer.laplace(30_000, 72 << 7, 127 << 6)?;
    /// writer.close()?;
    /// let mut reader = gurthapen::Reader::new(&bytes)?;
    /// assert_eq!(reader.laplace(72 << 7, 127 << 6)?, -2);
    /// assert_eq!(reader.laplace(72 << 7, 127 << 6)?, counted);
    /// # Ok(())
    /// # }
    /// ```
    pub fn laplace(&mut self, value: i32, fs: u32, decay: u32) -> Result<i32, Refusal> {
        let mut counted = [0];
        Refusal::check(raw::laplace_encode(&mut self.state.0, self.bytes, value, fs, decay, &mut counted))?;
        Ok(counted[0])
    }

    /// The vector of k pulses that stands in the first n places of y, n 2..176, k 1..128.
    pub fn pulses(&mut self, y: &[i32; ROOM], n: u32, k: u32) -> Result<(), Refusal> {
        Refusal::check(raw::encode_pulses(&mut self.state.0, self.bytes, y, n, k))
    }

    /// Writes an allocation, which goes into `into`; its bands outside start..end stay as they are.
    pub fn allocation(&mut self, frame: &Frame, wishes: &Wishes, into: &mut Allocation) -> Result<(), Refusal> {
        let mut shown = [0; 4];
        Refusal::check(raw::compute_allocation_write(
            &mut self.state.0,
            self.bytes,
            frame.channels,
            frame.lm,
            frame.start,
            frame.end,
            frame.trim,
            frame.total,
            wishes.intensity,
            wishes.dual,
            wishes.previous,
            wishes.bandwidth,
            &frame.offsets,
            &frame.caps,
            &mut into.pulses,
            &mut into.fine,
            &mut into.priorities,
            &mut shown,
        ))?;
        into.show(shown);
        Ok(())
    }
}
