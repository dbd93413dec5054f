/// How many bands there are.
pub const BANDS: usize = 21;

/// What an allocation is asked: channels 1..2, LM 0..3, the bands start..end-1 with 0 <= start < end <= 21, trim 0..10, and the total in
/// eighth bits, up to 81,600, where a negative one reads as 0; for each band its boost, 0..81,600, and its cap, 0..32,767.
///
/// Both lists are checked whole, outside start..end-1 too, where no band uses an entry: one that a decoder left unset there is refused as
/// [`crate::Refusal::Entry`]. Set them to 0, or to any value in range, before the call.
#[derive(Clone, Copy, Debug, Default, PartialEq, Eq, Hash)]
pub struct Frame {
    pub channels: i32,
    pub lm: i32,
    pub start: i32,
    pub end: i32,
    pub trim: i32,
    pub total: i32,
    pub offsets: [i32; BANDS],
    pub caps: [i32; BANDS],
}

/// What an encoder is given beside that: with two channels, intensity start..end and dual stereo 0 or 1; the band count of the frame before
/// and the signal's bandwidth, any.
#[derive(Clone, Copy, Debug, Default, PartialEq, Eq, Hash)]
pub struct Wishes {
    pub intensity: i32,
    pub dual: i32,
    pub previous: i32,
    pub bandwidth: i32,
}

/// A bit allocation: for each band its pulses' bits, its fine bits and its priority; how many bands are coded, what the last of them hands on,
/// the first band whose channels are coded as one, and whether the bands below it have theirs apart. [`Frame`] says what is asked, and what has to stand in
/// its lists outside start..end-1.
#[derive(Clone, Copy, Debug, Default, PartialEq, Eq, Hash)]
pub struct Allocation {
    pub coded: i32,
    pub balance: i32,
    pub intensity: i32,
    pub dual: i32,
    pub pulses: [i32; BANDS],
    pub fine: [i32; BANDS],
    pub priorities: [i32; BANDS],
}

impl Allocation {
    pub(crate) fn show(&mut self, [coded, balance, intensity, dual]: [i32; 4]) {
        self.coded = coded;
        self.balance = balance;
        self.intensity = intensity;
        self.dual = dual;
    }
}
