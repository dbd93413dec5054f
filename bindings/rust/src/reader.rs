use crate::{raw, Allocation, Coarse, Frame, LastBits, Refusal, Shape, State, ENERGIES, ROOM};

/// A reader of a packet. A refused call leaves it as it was.
///
/// ```
/// # fn main() -> Result<(), gurthapen::Refusal> {
/// let packet = [0x5a, 0xc3, 0x01];
/// let mut reader = gurthapen::Reader::new(&packet)?;
/// assert_eq!(reader.tell()?, 1);
/// let bit = reader.bit_logp(1)?;
/// let symbol = reader.icdf(&[2, 1, 0], 2)?;
/// assert!(symbol < 3);
/// assert_eq!(reader.icdf(&[2, 2, 0], 2), Err(gurthapen::Refusal::Entry));
/// # let _ = bit;
/// # Ok(())
/// # }
/// ```
#[derive(Clone, Debug, PartialEq, Eq)]
pub struct Reader<'a> {
    packet: &'a [u8],
    state: State,
}

impl<'a> Reader<'a> {
    /// A new reader of a packet of at most 1,275 bytes.
    pub fn new(packet: &'a [u8]) -> Result<Self, Refusal> {
        let mut state = State([0; 12]);
        Refusal::check(raw::dec_new(&mut state.0, packet))?;
        Ok(Reader { packet, state })
    }

    /// A reader that goes on where another stood. Whether the state is good is checked by each call.
    ///
    /// ```
    /// # fn main() -> Result<(), gurthapen::Refusal> {
    /// let packet = [1, 2, 3];
    /// let mut one = gurthapen::Reader::new(&packet)?;
    /// one.uint(1000)?;
    /// let mut other = gurthapen::Reader::from_state(&packet, one.state());
    /// assert_eq!(one.bits(7)?, other.bits(7)?);
    ///
    /// let mut damaged = one.state();
    /// damaged.0[gurthapen::State::RNG] = -1;
    /// assert_eq!(gurthapen::Reader::from_state(&packet, damaged).bits(7), Err(gurthapen::Refusal::Number));
    /// # Ok(())
    /// # }
    /// ```
    pub fn from_state(packet: &'a [u8], state: State) -> Self {
        Reader { packet, state }
    }

    /// The state as it is now.
    pub fn state(&self) -> State {
        self.state
    }

    /// Whether the error mark is set: a number was read that no writer writes.
    pub fn error(&self) -> bool {
        self.state.0[State::ERROR] != 0
    }

    /// One bit that is 1 with a probability of 1 in 2^logp, logp 1..15.
    pub fn bit_logp(&mut self, logp: u32) -> Result<bool, Refusal> {
        self.read(|state, packet, value| raw::dec_bit_logp(state, packet, logp, value))
            .map(|bit| bit != 0)
    }

    /// A symbol of a table of 2^ftb places, ftb 1..8: entries fall strictly to 0, the first is below 2^ftb.
    pub fn icdf(&mut self, table: &[u8], ftb: u32) -> Result<u32, Refusal> {
        self.read(|state, packet, value| raw::dec_icdf(state, packet, table, ftb, value))
    }

    /// A number below ft, all alike, ft from 2 on.
    pub fn uint(&mut self, ft: u32) -> Result<u32, Refusal> {
        self.read(|state, packet, value| raw::dec_uint(state, packet, ft, value))
    }

    /// n raw bits from the end of the packet, n 1..25.
    pub fn bits(&mut self, n: u32) -> Result<u32, Refusal> {
        self.read(|state, packet, value| raw::dec_bits(state, packet, n, value))
    }

    /// How many bits are used.
    pub fn tell(&self) -> Result<u32, Refusal> {
        let mut value = [0];
        Refusal::check(raw::dec_tell(&self.state.0, &mut value))?;
        Ok(value[0])
    }

    /// How many eighths of a bit are used.
    pub fn tell_frac(&self) -> Result<u32, Refusal> {
        let mut value = [0];
        Refusal::check(raw::dec_tell_frac(&self.state.0, &mut value))?;
        Ok(value[0])
    }

    /// A Laplace value of a pair of the coarse-energy model.
    pub fn laplace(&mut self, fs: u32, decay: u32) -> Result<i32, Refusal> {
        let mut value = [0];
        Refusal::check(raw::laplace_decode(&mut self.state.0, self.packet, fs, decay, &mut value))?;
        Ok(value[0])
    }

    /// A vector of n places and k pulses into the first n places of y, n 2..176, k 1..128; gives its energy.
    pub fn pulses(&mut self, y: &mut [i32; ROOM], n: u32, k: u32) -> Result<u32, Refusal> {
        self.read(|state, packet, value| raw::decode_pulses(state, packet, y, n, k, value))
    }

    /// Reads an allocation into `into`, whose bands outside start..end stay as they are.
    ///
    /// ```
    /// # fn main() -> Result<(), gurthapen::Refusal> {
    /// let mut frame = gurthapen::Frame { channels: 1, lm: 0, start: 0, end: 1, trim: 5, total: 71, ..Default::default() };
    /// frame.caps[0] = 72;
    /// let mut into = gurthapen::Allocation::default();
    /// gurthapen::Reader::new(&[0])?.allocation(&frame, &mut into)?;
    /// assert_eq!((into.pulses[0], into.fine[0], into.priorities[0], into.balance), (8, 7, 0, 7));
    /// # Ok(())
    /// # }
    /// ```
    pub fn allocation(&mut self, frame: &Frame, into: &mut Allocation) -> Result<(), Refusal> {
        let mut shown = [0; 4];
        Refusal::check(raw::compute_allocation_read(
            &mut self.state.0,
            self.packet,
            frame.channels,
            frame.lm,
            frame.start,
            frame.end,
            frame.trim,
            frame.total,
            &frame.offsets,
            &frame.caps,
            &mut into.pulses,
            &mut into.fine,
            &mut into.priorities,
            &mut shown,
        ))?;
        into.show(shown);
        Ok(())
    }

    /// The coarse energies of a frame, in place of those of the frame before; the bands outside start..end, and channel 1 of a mono frame, stay as they
    /// are.
    ///
    /// ```
    /// # fn main() -> Result<(), gurthapen::Refusal> {
    /// let coarse = gurthapen::Coarse { channels: 1, lm: 0, start: 0, end: 1, intra: true };
    /// let mut energies = [0.0; 42];
    /// gurthapen::Reader::new(&[])?.coarse(&mut energies, &coarse)?;
    /// assert_eq!(energies[..2], [-1.0, 0.0]);
    ///
    /// energies[41] = f32::INFINITY;
    /// assert_eq!(gurthapen::Reader::new(&[])?.coarse(&mut energies, &coarse), Err(gurthapen::Refusal::Entry));
    /// # Ok(())
    /// # }
    /// ```
    pub fn coarse(&mut self, energies: &mut [f32; ENERGIES], coarse: &Coarse) -> Result<(), Refusal> {
        Refusal::check(raw::unquant_coarse_energy(
            &mut self.state.0,
            self.packet,
            energies,
            coarse.channels,
            coarse.lm,
            coarse.start,
            coarse.end,
            coarse.intra.into(),
        ))
    }

    /// The bits left over at the end of a frame, one for each channel of a band, those of priority 0 first.
    ///
    /// ```
    /// # fn main() -> Result<(), gurthapen::Refusal> {
    /// let mut last = gurthapen::LastBits { channels: 1, start: 0, end: 1, left: 1, ..Default::default() };
    /// last.fine[0] = 7;
    /// let mut energies = [0.0; 42];
    /// gurthapen::Reader::new(&[1])?.finalise(&mut energies, &last)?;
    /// assert_eq!(energies[0], 1.0 / 512.0);
    ///
    /// last.fine[0] = 9;
    /// assert_eq!(gurthapen::Reader::new(&[1])?.finalise(&mut energies, &last), Err(gurthapen::Refusal::Entry));
    /// # Ok(())
    /// # }
    /// ```
    pub fn finalise(&mut self, energies: &mut [f32; ENERGIES], last: &LastBits) -> Result<(), Refusal> {
        Refusal::check(raw::unquant_energy_finalise(
            &mut self.state.0,
            self.packet,
            energies,
            last.channels,
            last.start,
            last.end,
            &last.fine,
            &last.priorities,
            last.left,
        ))
    }

    /// The shape of a vector of as many places as `into` has, 2..176; gives the mask of the parts that hold a pulse.
    ///
    /// ```
    /// # fn main() -> Result<(), gurthapen::Refusal> {
    /// let mut y = [0; 176];
    /// y[..4].copy_from_slice(&[1, -1, 1, 1]);
    /// let mut bytes = [0; 8];
    /// let mut writer = gurthapen::Writer::new(&mut bytes)?;
    /// writer.pulses(&y, 4, 4)?;
    /// writer.close()?;
    ///
    /// let mut into = [0.0; 4];
    /// let mask = gurthapen::Reader::new(&bytes)?.shape(&mut into, &gurthapen::Shape { k: 4, spread: 0, b: 2, gain: 1.0 })?;
    /// assert_eq!((into, mask), ([0.5, -0.5, 0.5, 0.5], 3));
    ///
    /// let turned = gurthapen::Shape { k: 1, spread: 1, b: 2, gain: 1.0 };
    /// assert_eq!(gurthapen::Reader::new(&bytes)?.shape(&mut into, &turned), Err(gurthapen::Refusal::Rotation));
    /// # Ok(())
    /// # }
    /// ```
    pub fn shape(&mut self, into: &mut [f32], shape: &Shape) -> Result<u32, Refusal> {
        let n = i32::try_from(into.len()).map_err(|_| Refusal::Length)?;
        self.read(|state, packet, mask| raw::alg_unquant(state, packet, into, n, shape.k, shape.spread, shape.b, shape.gain, mask))
    }

    /// The state to be changed, and the packet.
    pub(crate) fn parts(&mut self) -> (&mut [i64], &[u8]) {
        (&mut self.state.0, self.packet)
    }

    fn read(&mut self, call: impl FnOnce(&mut [i64], &[u8], &mut [u32]) -> u32) -> Result<u32, Refusal> {
        let mut value = [0];
        Refusal::check(call(&mut self.state.0, self.packet, &mut value))?;
        Ok(value[0])
    }
}
