//! libopus 1.3.1, called by name in its static archive. Nothing checks these declarations: they follow its headers.
#[repr(C)]
#[derive(Clone, Copy, Debug)]
pub struct EcCtx {
    pub buf: *mut u8,
    pub storage: u32,
    pub end_offs: u32,
    pub end_window: u32,
    pub nend_bits: i32,
    pub nbits_total: i32,
    pub offs: u32,
    pub rng: u32,
    pub val: u32,
    pub ext: u32,
    pub rem: i32,
    pub error: i32,
}

/// A mode, of which only the place is known here.
pub type Mode = core::ffi::c_void;

extern "C" {
    pub fn opus_custom_mode_create(fs: i32, frame_size: i32, error: *mut i32) -> *const Mode;
    pub fn init_caps(m: *const Mode, cap: *mut i32, lm: i32, c: i32);
    pub fn clt_compute_allocation(
        m: *const Mode, start: i32, end: i32, offsets: *const i32, cap: *const i32, alloc_trim: i32,
        intensity: *mut i32, dual_stereo: *mut i32, total: i32, balance: *mut i32, pulses: *mut i32,
        ebits: *mut i32, fine_priority: *mut i32, c: i32, lm: i32, ec: *mut EcCtx, encode: i32,
        prev: i32, signal_bandwidth: i32,
    ) -> i32;
    pub fn ec_enc_init(e: *mut EcCtx, buf: *mut u8, size: u32);
    pub fn ec_enc_bit_logp(e: *mut EcCtx, val: i32, logp: u32);
    pub fn ec_enc_icdf(e: *mut EcCtx, s: i32, icdf: *const u8, ftb: u32);
    pub fn ec_enc_uint(e: *mut EcCtx, fl: u32, ft: u32);
    pub fn ec_enc_bits(e: *mut EcCtx, fl: u32, bits: u32);
    pub fn ec_enc_done(e: *mut EcCtx);
    pub fn ec_dec_init(e: *mut EcCtx, buf: *mut u8, size: u32);
    pub fn ec_dec_bit_logp(e: *mut EcCtx, logp: u32) -> i32;
    pub fn ec_dec_icdf(e: *mut EcCtx, icdf: *const u8, ftb: u32) -> i32;
    pub fn ec_dec_uint(e: *mut EcCtx, ft: u32) -> u32;
    pub fn ec_dec_bits(e: *mut EcCtx, bits: u32) -> u32;
    pub fn ec_tell_frac(e: *mut EcCtx) -> u32;
    pub fn ec_laplace_encode(e: *mut EcCtx, value: *mut i32, fs: u32, decay: i32);
    pub fn ec_laplace_decode(e: *mut EcCtx, fs: u32, decay: i32) -> i32;
    pub fn unquant_coarse_energy(m: *const Mode, start: i32, end: i32, old: *mut f32, intra: i32, dec: *mut EcCtx, c: i32, lm: i32);
    pub fn unquant_energy_finalise(
        m: *const Mode, start: i32, end: i32, old: *mut f32, fine: *mut i32, priority: *mut i32, bits_left: i32, dec: *mut EcCtx, c: i32,
    );
    pub fn encode_pulses(y: *const i32, n: i32, k: i32, enc: *mut EcCtx);
    pub fn alg_unquant(x: *mut f32, n: i32, k: i32, spread: i32, b: i32, dec: *mut EcCtx, gain: f32) -> u32;
    pub fn decode_pulses(y: *mut i32, n: i32, k: i32, dec: *mut EcCtx) -> f32;
}
