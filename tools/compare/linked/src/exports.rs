//! The port's exported calls of symbols, Laplace values, pulse words and lookups, by name in libgurthapen.a. A lent list crosses as a pointer and a length.
//! Nothing checks these declarations: they follow crates/gurthapen/src.

mod gurthapen {
    extern "C" {
        pub fn gurthapen_dec_new(state: *mut i64, state_n: usize, s: *const u8, n: usize) -> u32;
        pub fn gurthapen_dec_bit_logp(state: *mut i64, state_n: usize, s: *const u8, n: usize, logp: u32, value: *mut u32, value_n: usize) -> u32;
        pub fn gurthapen_dec_icdf(
            state: *mut i64, state_n: usize, s: *const u8, n: usize, t: *const u8, t_n: usize, ftb: u32, value: *mut u32, value_n: usize,
        ) -> u32;
        pub fn gurthapen_dec_uint(state: *mut i64, state_n: usize, s: *const u8, n: usize, ft: u32, value: *mut u32, value_n: usize) -> u32;
        pub fn gurthapen_dec_bits(state: *mut i64, state_n: usize, s: *const u8, n: usize, bits: u32, value: *mut u32, value_n: usize) -> u32;
        pub fn gurthapen_dec_tell(state: *const i64, state_n: usize, value: *mut u32, value_n: usize) -> u32;
        pub fn gurthapen_dec_tell_frac(state: *const i64, state_n: usize, value: *mut u32, value_n: usize) -> u32;
        pub fn gurthapen_enc_new(state: *mut i64, state_n: usize, buf: *const u8, n: usize) -> u32;
        pub fn gurthapen_enc_bit_logp(state: *mut i64, state_n: usize, buf: *mut u8, n: usize, v: u32, logp: u32) -> u32;
        pub fn gurthapen_enc_icdf(state: *mut i64, state_n: usize, buf: *mut u8, n: usize, s: u32, t: *const u8, t_n: usize, ftb: u32) -> u32;
        pub fn gurthapen_enc_uint(state: *mut i64, state_n: usize, buf: *mut u8, n: usize, fl: u32, ft: u32) -> u32;
        pub fn gurthapen_enc_bits(state: *mut i64, state_n: usize, buf: *mut u8, n: usize, v: u32, bits: u32) -> u32;
        pub fn gurthapen_enc_close(state: *mut i64, state_n: usize, buf: *mut u8, n: usize) -> u32;
        pub fn gurthapen_enc_tell(state: *const i64, state_n: usize, value: *mut u32, value_n: usize) -> u32;
        pub fn gurthapen_enc_tell_frac(state: *const i64, state_n: usize, value: *mut u32, value_n: usize) -> u32;
        pub fn gurthapen_laplace_decode(
            state: *mut i64, state_n: usize, s: *const u8, n: usize, fs: u32, decay: u32, value: *mut i32, value_n: usize,
        ) -> u32;
        pub fn gurthapen_laplace_encode(
            state: *mut i64, state_n: usize, buf: *mut u8, n: usize, z: i32, fs: u32, decay: u32, value: *mut i32, value_n: usize,
        ) -> u32;
        pub fn gurthapen_decode_pulses(
            state: *mut i64, state_n: usize, s: *const u8, bytes: usize, y: *mut i32, y_n: usize, n: u32, k: u32, energy: *mut u32,
            energy_n: usize,
        ) -> u32;
        pub fn gurthapen_encode_pulses(
            state: *mut i64, state_n: usize, buf: *mut u8, bytes: usize, y: *const i32, y_n: usize, n: u32, k: u32,
        ) -> u32;
        pub fn gurthapen_get_pulses(i: i32, value: *mut u32, value_n: usize) -> u32;
        pub fn gurthapen_bits2pulses(band: i32, lm: i32, bits: i32, value: *mut u32, value_n: usize) -> u32;
        pub fn gurthapen_pulses2bits(band: i32, lm: i32, pulses: i32, value: *mut u32, value_n: usize) -> u32;
    }
}

// Each list is lent with its own length, and no two of them overlap, so that every call stays in its bounds.

pub fn dec_new(state: &mut [i64], s: &[u8]) -> u32 {
    unsafe { gurthapen::gurthapen_dec_new(state.as_mut_ptr(), state.len(), s.as_ptr(), s.len()) }
}

pub fn dec_bit_logp(state: &mut [i64], s: &[u8], logp: u32, value: &mut [u32]) -> u32 {
    unsafe { gurthapen::gurthapen_dec_bit_logp(state.as_mut_ptr(), state.len(), s.as_ptr(), s.len(), logp, value.as_mut_ptr(), value.len()) }
}

pub fn dec_icdf(state: &mut [i64], s: &[u8], t: &[u8], ftb: u32, value: &mut [u32]) -> u32 {
    unsafe {
        gurthapen::gurthapen_dec_icdf(state.as_mut_ptr(), state.len(), s.as_ptr(), s.len(), t.as_ptr(), t.len(), ftb, value.as_mut_ptr(), value.len())
    }
}

pub fn dec_uint(state: &mut [i64], s: &[u8], ft: u32, value: &mut [u32]) -> u32 {
    unsafe { gurthapen::gurthapen_dec_uint(state.as_mut_ptr(), state.len(), s.as_ptr(), s.len(), ft, value.as_mut_ptr(), value.len()) }
}

pub fn dec_bits(state: &mut [i64], s: &[u8], n: u32, value: &mut [u32]) -> u32 {
    unsafe { gurthapen::gurthapen_dec_bits(state.as_mut_ptr(), state.len(), s.as_ptr(), s.len(), n, value.as_mut_ptr(), value.len()) }
}

pub fn dec_tell(state: &[i64], value: &mut [u32]) -> u32 {
    unsafe { gurthapen::gurthapen_dec_tell(state.as_ptr(), state.len(), value.as_mut_ptr(), value.len()) }
}

pub fn dec_tell_frac(state: &[i64], value: &mut [u32]) -> u32 {
    unsafe { gurthapen::gurthapen_dec_tell_frac(state.as_ptr(), state.len(), value.as_mut_ptr(), value.len()) }
}

pub fn enc_new(state: &mut [i64], buf: &[u8]) -> u32 {
    unsafe { gurthapen::gurthapen_enc_new(state.as_mut_ptr(), state.len(), buf.as_ptr(), buf.len()) }
}

pub fn enc_bit_logp(state: &mut [i64], buf: &mut [u8], v: u32, logp: u32) -> u32 {
    unsafe { gurthapen::gurthapen_enc_bit_logp(state.as_mut_ptr(), state.len(), buf.as_mut_ptr(), buf.len(), v, logp) }
}

pub fn enc_icdf(state: &mut [i64], buf: &mut [u8], s: u32, t: &[u8], ftb: u32) -> u32 {
    unsafe { gurthapen::gurthapen_enc_icdf(state.as_mut_ptr(), state.len(), buf.as_mut_ptr(), buf.len(), s, t.as_ptr(), t.len(), ftb) }
}

pub fn enc_uint(state: &mut [i64], buf: &mut [u8], fl: u32, ft: u32) -> u32 {
    unsafe { gurthapen::gurthapen_enc_uint(state.as_mut_ptr(), state.len(), buf.as_mut_ptr(), buf.len(), fl, ft) }
}

pub fn enc_bits(state: &mut [i64], buf: &mut [u8], v: u32, n: u32) -> u32 {
    unsafe { gurthapen::gurthapen_enc_bits(state.as_mut_ptr(), state.len(), buf.as_mut_ptr(), buf.len(), v, n) }
}

pub fn enc_close(state: &mut [i64], buf: &mut [u8]) -> u32 {
    unsafe { gurthapen::gurthapen_enc_close(state.as_mut_ptr(), state.len(), buf.as_mut_ptr(), buf.len()) }
}

pub fn enc_tell(state: &[i64], value: &mut [u32]) -> u32 {
    unsafe { gurthapen::gurthapen_enc_tell(state.as_ptr(), state.len(), value.as_mut_ptr(), value.len()) }
}

pub fn enc_tell_frac(state: &[i64], value: &mut [u32]) -> u32 {
    unsafe { gurthapen::gurthapen_enc_tell_frac(state.as_ptr(), state.len(), value.as_mut_ptr(), value.len()) }
}

pub fn laplace_decode(state: &mut [i64], s: &[u8], fs: u32, decay: u32, value: &mut [i32]) -> u32 {
    unsafe { gurthapen::gurthapen_laplace_decode(state.as_mut_ptr(), state.len(), s.as_ptr(), s.len(), fs, decay, value.as_mut_ptr(), value.len()) }
}

pub fn laplace_encode(state: &mut [i64], buf: &mut [u8], z: i32, fs: u32, decay: u32, value: &mut [i32]) -> u32 {
    unsafe {
        gurthapen::gurthapen_laplace_encode(state.as_mut_ptr(), state.len(), buf.as_mut_ptr(), buf.len(), z, fs, decay, value.as_mut_ptr(), value.len())
    }
}

pub fn decode_pulses(state: &mut [i64], s: &[u8], y: &mut [i32], n: u32, k: u32, energy: &mut [u32]) -> u32 {
    unsafe {
        gurthapen::gurthapen_decode_pulses(
            state.as_mut_ptr(), state.len(), s.as_ptr(), s.len(), y.as_mut_ptr(), y.len(), n, k, energy.as_mut_ptr(), energy.len(),
        )
    }
}

pub fn encode_pulses(state: &mut [i64], buf: &mut [u8], y: &[i32], n: u32, k: u32) -> u32 {
    unsafe { gurthapen::gurthapen_encode_pulses(state.as_mut_ptr(), state.len(), buf.as_mut_ptr(), buf.len(), y.as_ptr(), y.len(), n, k) }
}

pub fn get_pulses(i: i32, value: &mut [u32]) -> u32 {
    unsafe { gurthapen::gurthapen_get_pulses(i, value.as_mut_ptr(), value.len()) }
}

pub fn bits2pulses(band: i32, lm: i32, bits: i32, value: &mut [u32]) -> u32 {
    unsafe { gurthapen::gurthapen_bits2pulses(band, lm, bits, value.as_mut_ptr(), value.len()) }
}

pub fn pulses2bits(band: i32, lm: i32, pulses: i32, value: &mut [u32]) -> u32 {
    unsafe { gurthapen::gurthapen_pulses2bits(band, lm, pulses, value.as_mut_ptr(), value.len()) }
}
