//! What is measured: a job is one public call on a list of inputs, done by each side that has it.
use crate::ours::State;
use oracle::celt::entcode::ec_ctx;
use oracle::libopus::EcCtx;

/// The sides, in the order of the columns.
pub const SIDES: [&str; 3] = ["ours", "crate", "libopus"];

/// One round of a side: every input once. What it gives is a sum of all that the calls gave, the same for each side. With `true` it sums lists
/// and bytes too; that round is not timed.
pub type Round = Box<dyn FnMut(bool) -> u64>;

/// A side's part in a job: the function that is called for each input, by the name that a profiler shows, and a round of it.
pub struct Part {
    pub callee: &'static str,
    pub round: Round,
}

pub fn part(callee: &'static str, round: impl FnMut(bool) -> u64 + 'static) -> Option<Part> {
    Some(Part { callee, round: Box::new(round) })
}

pub struct Job {
    pub name: &'static str,
    /// Where the inputs are from: recorded, generated or both.
    pub inputs: &'static str,
    /// A whole frame's work, or a single call.
    pub frame: bool,
    /// The calls of a round.
    pub calls: usize,
    pub parts: [Option<Part>; 3],
}

/// One more value of a sum.
#[inline(always)]
pub fn mix(sum: u64, value: i64) -> u64 {
    sum.wrapping_mul(31).wrapping_add(value as u64)
}

/// One more state of a sum: all of it but the mark, whose numbers differ between readers and writers.
pub fn mix_state(sum: u64, state: &State) -> u64 {
    state[..10].iter().fold(sum, |sum, &v| mix(sum, v))
}

pub fn mix_bytes(sum: u64, bytes: &[u8]) -> u64 {
    bytes.iter().fold(sum, |sum, &b| mix(sum, b as i64))
}

pub fn mix_list(sum: u64, list: &[i32]) -> u64 {
    list.iter().fold(sum, |sum, &v| mix(sum, v as i64))
}

pub fn mix_floats(sum: u64, list: &[f32]) -> u64 {
    list.iter().fold(sum, |sum, &v| mix(sum, v.to_bits() as i64))
}

/// The crate's coder over these bytes in that state.
#[inline(always)]
pub fn crate_coder<'a>(bytes: &'a mut [u8], state: &State) -> ec_ctx<'a> {
    ec_ctx {
        buf: bytes,
        storage: state[0] as u32,
        end_offs: state[1] as u32,
        end_window: state[2] as u32,
        nend_bits: state[3] as i32,
        nbits_total: state[4] as i32,
        offs: state[5] as u32,
        rng: state[6] as u32,
        val: state[7] as u32,
        ext: state[8] as u32,
        rem: state[9] as i32,
        error: state[10] as i32,
    }
}

pub fn crate_state(c: &ec_ctx) -> State {
    [
        c.storage as i64, c.end_offs as i64, c.end_window as i64, c.nend_bits as i64, c.nbits_total as i64, c.offs as i64, c.rng as i64,
        c.val as i64, c.ext as i64, c.rem as i64, c.error as i64, 0,
    ]
}

/// libopus' coder over these bytes in that state. The bytes must outlive it.
#[inline(always)]
pub fn libopus_coder(bytes: &mut [u8], state: &State) -> EcCtx {
    EcCtx {
        buf: bytes.as_mut_ptr(),
        storage: state[0] as u32,
        end_offs: state[1] as u32,
        end_window: state[2] as u32,
        nend_bits: state[3] as i32,
        nbits_total: state[4] as i32,
        offs: state[5] as u32,
        rng: state[6] as u32,
        val: state[7] as u32,
        ext: state[8] as u32,
        rem: state[9] as i32,
        error: state[10] as i32,
    }
}

pub fn libopus_state(c: &EcCtx) -> State {
    [
        c.storage as i64, c.end_offs as i64, c.end_window as i64, c.nend_bits as i64, c.nbits_total as i64, c.offs as i64, c.rng as i64,
        c.val as i64, c.ext as i64, c.rem as i64, c.error as i64, 0,
    ]
}
