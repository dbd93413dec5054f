//! The port's exported calls, by name in libgurthapen.a. A lent list is a pointer and a length. Nothing checks these declarations: they follow
//! crates/gurthapen/src.
use crate::traffic::{Energies, Shape};

/// A coder's state: storage, end_offs, end_window, nend_bits, nbits_total, offs, rng, val, ext, rem, error in the crate's encoding, and closed.
pub type State = [i64; 12];

mod gurthapen {
    extern "C" {
        pub fn gurthapen_dec_new(state: *mut i64, states: usize, s: *const u8, bytes: usize) -> u32;
        pub fn gurthapen_dec_bit_logp(state: *mut i64, states: usize, s: *const u8, bytes: usize, logp: u32, value: *mut u32, values: usize) -> u32;
        pub fn gurthapen_dec_icdf(
            state: *mut i64, states: usize, s: *const u8, bytes: usize, t: *const u8, entries: usize, ftb: u32, value: *mut u32, values: usize,
        ) -> u32;
        pub fn gurthapen_dec_uint(state: *mut i64, states: usize, s: *const u8, bytes: usize, ft: u32, value: *mut u32, values: usize) -> u32;
        pub fn gurthapen_dec_bits(state: *mut i64, states: usize, s: *const u8, bytes: usize, n: u32, value: *mut u32, values: usize) -> u32;
        pub fn gurthapen_enc_new(state: *mut i64, states: usize, buf: *const u8, bytes: usize) -> u32;
        pub fn gurthapen_enc_bit_logp(state: *mut i64, states: usize, buf: *mut u8, bytes: usize, value: u32, logp: u32) -> u32;
        pub fn gurthapen_enc_icdf(state: *mut i64, states: usize, buf: *mut u8, bytes: usize, s: u32, t: *const u8, entries: usize, ftb: u32) -> u32;
        pub fn gurthapen_enc_uint(state: *mut i64, states: usize, buf: *mut u8, bytes: usize, fl: u32, ft: u32) -> u32;
        pub fn gurthapen_enc_bits(state: *mut i64, states: usize, buf: *mut u8, bytes: usize, v: u32, n: u32) -> u32;
        pub fn gurthapen_laplace_decode(
            state: *mut i64, states: usize, s: *const u8, bytes: usize, fs: u32, decay: u32, value: *mut i32, values: usize,
        ) -> u32;
        pub fn gurthapen_laplace_encode(
            state: *mut i64, states: usize, buf: *mut u8, bytes: usize, z: i32, fs: u32, decay: u32, value: *mut i32, values: usize,
        ) -> u32;
        pub fn gurthapen_decode_pulses(
            state: *mut i64, states: usize, s: *const u8, bytes: usize, y: *mut i32, places: usize, n: u32, k: u32, energy: *mut u32,
            energies: usize,
        ) -> u32;
        pub fn gurthapen_encode_pulses(
            state: *mut i64, states: usize, buf: *mut u8, bytes: usize, y: *const i32, places: usize, n: u32, k: u32,
        ) -> u32;
        pub fn gurthapen_get_pulses(i: i32, value: *mut u32, values: usize) -> u32;
        pub fn gurthapen_bits2pulses(band: i32, lm: i32, bits: i32, value: *mut u32, values: usize) -> u32;
        pub fn gurthapen_pulses2bits(band: i32, lm: i32, pulses: i32, value: *mut u32, values: usize) -> u32;
        pub fn gurthapen_compute_allocation_read(
            state: *mut i64, states: usize, s: *const u8, bytes: usize, c: i32, lm: i32, start: i32, end: i32, trim: i32, total: i32,
            offsets: *const i32, offset_count: usize, caps: *const i32, cap_count: usize, pulses: *mut i32, pulse_count: usize, fine: *mut i32,
            fine_count: usize, priorities: *mut i32, priority_count: usize, shown: *mut i32, shown_count: usize,
        ) -> u32;
        pub fn gurthapen_compute_allocation_write(
            state: *mut i64, states: usize, buf: *mut u8, bytes: usize, c: i32, lm: i32, start: i32, end: i32, trim: i32, total: i32,
            intensity: i32, dual: i32, previous: i32, bandwidth: i32, offsets: *const i32, offset_count: usize, caps: *const i32,
            cap_count: usize, pulses: *mut i32, pulse_count: usize, fine: *mut i32, fine_count: usize, priorities: *mut i32,
            priority_count: usize, shown: *mut i32, shown_count: usize,
        ) -> u32;
        pub fn gurthapen_unquant_coarse_energy(
            state: *mut i64, states: usize, s: *const u8, bytes: usize, energies: *mut f32, energy_count: usize, c: i32, lm: i32, start: i32,
            end: i32, intra: i32,
        ) -> u32;
        pub fn gurthapen_unquant_energy_finalise(
            state: *mut i64, states: usize, s: *const u8, bytes: usize, energies: *mut f32, energy_count: usize, c: i32, start: i32, end: i32,
            fine: *const i32, fine_count: usize, priorities: *const i32, priority_count: usize, left: i32,
        ) -> u32;
        pub fn gurthapen_alg_unquant(
            state: *mut i64, states: usize, s: *const u8, bytes: usize, shape: *mut f32, places: usize, n: i32, k: i32, spread: i32, b: i32,
            gain: f32, mask: *mut u32, masks: usize,
        ) -> u32;
        pub fn gurthapen_record_frame(
            energies: *mut f32, energy_count: usize, next: *mut u64, next_count: usize, state: *mut i64, states: usize, s: *const u8,
            bytes: usize, number: u64, c: i32, lm: i32, start: i32, end: i32, intra: i32,
        ) -> u32;
        pub fn gurthapen_list(
            line: *const u8, line_bytes: usize, number: u32, out: *mut u8, room: usize, length: *mut usize, lengths: usize,
        ) -> u32;
    }
}

/// A call that must not be refused.
fn done(no: u32) {
    if no != 0 {
        refused(no);
    }
}

#[cold]
fn refused(no: u32) -> ! {
    panic!("a call of the port is refused as {no}")
}

// Each list below is lent with its own length, so that every call stays in its bounds.

pub fn dec_new(s: &[u8]) -> State {
    let mut state = [0; 12];
    done(unsafe { gurthapen::gurthapen_dec_new(state.as_mut_ptr(), 12, s.as_ptr(), s.len()) });
    state
}

pub fn dec_bit_logp(state: &mut State, s: &[u8], logp: u32) -> u32 {
    let mut value = 0;
    done(unsafe { gurthapen::gurthapen_dec_bit_logp(state.as_mut_ptr(), 12, s.as_ptr(), s.len(), logp, &mut value, 1) });
    value
}

pub fn dec_icdf(state: &mut State, s: &[u8], t: &[u8], ftb: u32) -> u32 {
    let mut value = 0;
    done(unsafe { gurthapen::gurthapen_dec_icdf(state.as_mut_ptr(), 12, s.as_ptr(), s.len(), t.as_ptr(), t.len(), ftb, &mut value, 1) });
    value
}

pub fn dec_uint(state: &mut State, s: &[u8], ft: u32) -> u32 {
    let mut value = 0;
    done(unsafe { gurthapen::gurthapen_dec_uint(state.as_mut_ptr(), 12, s.as_ptr(), s.len(), ft, &mut value, 1) });
    value
}

pub fn dec_bits(state: &mut State, s: &[u8], n: u32) -> u32 {
    let mut value = 0;
    done(unsafe { gurthapen::gurthapen_dec_bits(state.as_mut_ptr(), 12, s.as_ptr(), s.len(), n, &mut value, 1) });
    value
}

pub fn enc_new(buf: &[u8]) -> State {
    let mut state = [0; 12];
    done(unsafe { gurthapen::gurthapen_enc_new(state.as_mut_ptr(), 12, buf.as_ptr(), buf.len()) });
    state
}

pub fn enc_bit_logp(state: &mut State, buf: &mut [u8], value: u32, logp: u32) {
    done(unsafe { gurthapen::gurthapen_enc_bit_logp(state.as_mut_ptr(), 12, buf.as_mut_ptr(), buf.len(), value, logp) });
}

pub fn enc_icdf(state: &mut State, buf: &mut [u8], s: u32, t: &[u8], ftb: u32) {
    done(unsafe { gurthapen::gurthapen_enc_icdf(state.as_mut_ptr(), 12, buf.as_mut_ptr(), buf.len(), s, t.as_ptr(), t.len(), ftb) });
}

pub fn enc_uint(state: &mut State, buf: &mut [u8], fl: u32, ft: u32) {
    done(unsafe { gurthapen::gurthapen_enc_uint(state.as_mut_ptr(), 12, buf.as_mut_ptr(), buf.len(), fl, ft) });
}

pub fn enc_bits(state: &mut State, buf: &mut [u8], v: u32, n: u32) {
    done(unsafe { gurthapen::gurthapen_enc_bits(state.as_mut_ptr(), 12, buf.as_mut_ptr(), buf.len(), v, n) });
}

pub fn laplace_decode(state: &mut State, s: &[u8], fs: u32, decay: u32) -> i32 {
    let mut value = 0;
    done(unsafe { gurthapen::gurthapen_laplace_decode(state.as_mut_ptr(), 12, s.as_ptr(), s.len(), fs, decay, &mut value, 1) });
    value
}

/// The value that counts as written.
pub fn laplace_encode(state: &mut State, buf: &mut [u8], z: i32, fs: u32, decay: u32) -> i32 {
    let mut value = 0;
    done(unsafe { gurthapen::gurthapen_laplace_encode(state.as_mut_ptr(), 12, buf.as_mut_ptr(), buf.len(), z, fs, decay, &mut value, 1) });
    value
}

/// The energy.
pub fn decode_pulses(state: &mut State, s: &[u8], y: &mut [i32; 176], n: u32, k: u32) -> u32 {
    let mut energy = 0;
    done(unsafe { gurthapen::gurthapen_decode_pulses(state.as_mut_ptr(), 12, s.as_ptr(), s.len(), y.as_mut_ptr(), 176, n, k, &mut energy, 1) });
    energy
}

pub fn encode_pulses(state: &mut State, buf: &mut [u8], y: &[i32; 176], n: u32, k: u32) {
    done(unsafe { gurthapen::gurthapen_encode_pulses(state.as_mut_ptr(), 12, buf.as_mut_ptr(), buf.len(), y.as_ptr(), 176, n, k) });
}

pub fn get_pulses(i: i32) -> u32 {
    let mut value = 0;
    done(unsafe { gurthapen::gurthapen_get_pulses(i, &mut value, 1) });
    value
}

pub fn bits2pulses(band: i32, lm: i32, bits: i32) -> u32 {
    let mut value = 0;
    done(unsafe { gurthapen::gurthapen_bits2pulses(band, lm, bits, &mut value, 1) });
    value
}

/// None where there is no such index.
pub fn pulses2bits_if(band: i32, lm: i32, pulses: i32) -> Option<u32> {
    let mut value = 0;
    let no = unsafe { gurthapen::gurthapen_pulses2bits(band, lm, pulses, &mut value, 1) };
    (no == 0).then_some(value)
}

pub fn pulses2bits(band: i32, lm: i32, pulses: i32) -> u32 {
    let mut value = 0;
    done(unsafe { gurthapen::gurthapen_pulses2bits(band, lm, pulses, &mut value, 1) });
    value
}

/// The numbers of an allocation: C, LM, start, end, trim, total; then intensity, dual stereo, previous band count and bandwidth, of a write.
pub type Numbers = [i32; 10];

/// Pulses, fine bits and priorities of the 21 bands.
pub type Lists = [[i32; 21]; 3];

/// Coded bands, balance, intensity and dual stereo; or the refusal.
pub fn allocation_read(
    state: &mut State, s: &[u8], numbers: &Numbers, offsets: &[i32; 21], caps: &[i32; 21], lists: &mut Lists,
) -> Result<[i32; 4], u32> {
    let [c, lm, start, end, trim, total, ..] = *numbers;
    let [pulses, fine, priorities] = lists;
    let mut shown = [0; 4];
    let no = unsafe {
        gurthapen::gurthapen_compute_allocation_read(
            state.as_mut_ptr(), 12, s.as_ptr(), s.len(), c, lm, start, end, trim, total, offsets.as_ptr(), 21, caps.as_ptr(), 21,
            pulses.as_mut_ptr(), 21, fine.as_mut_ptr(), 21, priorities.as_mut_ptr(), 21, shown.as_mut_ptr(), 4,
        )
    };
    if no == 0 { Ok(shown) } else { Err(no) }
}

/// The same, written.
pub fn allocation_write(
    state: &mut State, buf: &mut [u8], numbers: &Numbers, offsets: &[i32; 21], caps: &[i32; 21], lists: &mut Lists,
) -> Result<[i32; 4], u32> {
    let [c, lm, start, end, trim, total, intensity, dual, previous, bandwidth] = *numbers;
    let [pulses, fine, priorities] = lists;
    let mut shown = [0; 4];
    let no = unsafe {
        gurthapen::gurthapen_compute_allocation_write(
            state.as_mut_ptr(), 12, buf.as_mut_ptr(), buf.len(), c, lm, start, end, trim, total, intensity, dual, previous, bandwidth,
            offsets.as_ptr(), 21, caps.as_ptr(), 21, pulses.as_mut_ptr(), 21, fine.as_mut_ptr(), 21, priorities.as_mut_ptr(), 21,
            shown.as_mut_ptr(), 4,
        )
    };
    if no == 0 { Ok(shown) } else { Err(no) }
}

/// The coarse energies of a frame, in place.
pub fn coarse(state: &mut State, e: &Energies, energies: &mut [f32; 42]) {
    done(unsafe {
        gurthapen::gurthapen_unquant_coarse_energy(
            state.as_mut_ptr(), 12, e.bytes.as_ptr(), e.bytes.len(), energies.as_mut_ptr(), 42, e.c, e.lm, e.start, e.end, e.intra,
        )
    });
}

/// The last bits of a frame, in place.
pub fn finalise(state: &mut State, e: &Energies, energies: &mut [f32; 42]) {
    done(unsafe {
        gurthapen::gurthapen_unquant_energy_finalise(
            state.as_mut_ptr(), 12, e.bytes.as_ptr(), e.bytes.len(), energies.as_mut_ptr(), 42, e.c, e.start, e.end, e.fine.as_ptr(), 21,
            e.priorities.as_ptr(), 21, e.left,
        )
    });
}

/// The coarse energies of the record's next frame, in place.
pub fn record_frame(state: &mut State, e: &Energies, energies: &mut [f32; 42], next: &mut u64) {
    let number = *next;
    done(unsafe {
        gurthapen::gurthapen_record_frame(
            energies.as_mut_ptr(), 42, next, 1, state.as_mut_ptr(), 12, e.bytes.as_ptr(), e.bytes.len(), number, e.c, e.lm, e.start, e.end,
            e.intra,
        )
    });
}

/// A shape of n places, and its collapse mask; or the refusal.
pub fn shape(state: &mut State, s: &Shape, places: &mut [f32]) -> Result<u32, u32> {
    let mut mask = 0;
    let no = unsafe {
        gurthapen::gurthapen_alg_unquant(
            state.as_mut_ptr(), 12, s.bytes.as_ptr(), s.bytes.len(), places.as_mut_ptr(), places.len(), s.n as i32, s.k as i32, s.spread, s.b,
            s.gain, &mut mask, 1,
        )
    };
    if no == 0 { Ok(mask) } else { Err(no) }
}

/// The bytes of the answer to a request line.
pub fn list(line: &[u8], number: u32, out: &mut [u8]) -> usize {
    let mut length = 0;
    done(unsafe { gurthapen::gurthapen_list(line.as_ptr(), line.len(), number, out.as_mut_ptr(), out.len(), &mut length, 1) });
    length
}
