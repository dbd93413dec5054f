use crate::BANDS;

/// How many energies there are: those of two channels, channel 1 from place 21.
pub const ENERGIES: usize = 2 * BANDS;

/// What a coarse decode is asked: channels 1..2, LM 0..3, the bands start..end-1 with 0 <= start < end <= 21, and whether the frame is intra.
#[derive(Clone, Copy, Debug, Default, PartialEq, Eq, Hash)]
pub struct Coarse {
    pub channels: i32,
    pub lm: i32,
    pub start: i32,
    pub end: i32,
    pub intra: bool,
}

/// What the last bits of a frame are spent by: channels 1..2, the bands start..end-1 with 0 <= start < end <= 21, for each band its fine bits,
/// 0..8, and its priority, 0 or 1, and the bits left, any number.
#[derive(Clone, Copy, Debug, Default, PartialEq, Eq, Hash)]
pub struct LastBits {
    pub channels: i32,
    pub start: i32,
    pub end: i32,
    pub fine: [i32; BANDS],
    pub priorities: [i32; BANDS],
    pub left: i32,
}

/// What a shape is asked: k pulses, 1..128; spread 0..3; b parts, 1..16, which divide the places; a gain that is finite and at most 1 in size.
#[derive(Clone, Copy, Debug, Default, PartialEq)]
pub struct Shape {
    pub k: i32,
    pub spread: i32,
    pub b: i32,
    pub gain: f32,
}
