//! The calls of libgurthapen.a, as bindings/c/gurthapen.h has them: a slice crosses as its pointer and its length.

extern "C" {
    pub fn gurthapen_dec_new(state: *mut i64, state_n: usize, packet: *const u8, packet_n: usize) -> u32;
    pub fn gurthapen_dec_bit_logp(
        state: *mut i64,
        state_n: usize,
        packet: *const u8,
        packet_n: usize,
        logp: u32,
        value: *mut u32,
        value_n: usize,
    ) -> u32;
    pub fn gurthapen_dec_icdf(
        state: *mut i64,
        state_n: usize,
        packet: *const u8,
        packet_n: usize,
        table: *const u8,
        table_n: usize,
        ftb: u32,
        value: *mut u32,
        value_n: usize,
    ) -> u32;
    pub fn gurthapen_dec_uint(
        state: *mut i64,
        state_n: usize,
        packet: *const u8,
        packet_n: usize,
        ft: u32,
        value: *mut u32,
        value_n: usize,
    ) -> u32;
    pub fn gurthapen_dec_bits(
        state: *mut i64,
        state_n: usize,
        packet: *const u8,
        packet_n: usize,
        n: u32,
        value: *mut u32,
        value_n: usize,
    ) -> u32;
    pub fn gurthapen_dec_tell(state: *const i64, state_n: usize, value: *mut u32, value_n: usize) -> u32;
    pub fn gurthapen_dec_tell_frac(state: *const i64, state_n: usize, value: *mut u32, value_n: usize) -> u32;
    pub fn gurthapen_enc_new(state: *mut i64, state_n: usize, buf: *const u8, buf_n: usize) -> u32;
    pub fn gurthapen_enc_bit_logp(state: *mut i64, state_n: usize, buf: *mut u8, buf_n: usize, value: u32, logp: u32) -> u32;
    pub fn gurthapen_enc_icdf(
        state: *mut i64,
        state_n: usize,
        buf: *mut u8,
        buf_n: usize,
        s: u32,
        table: *const u8,
        table_n: usize,
        ftb: u32,
    ) -> u32;
    pub fn gurthapen_enc_uint(state: *mut i64, state_n: usize, buf: *mut u8, buf_n: usize, fl: u32, ft: u32) -> u32;
    pub fn gurthapen_enc_bits(state: *mut i64, state_n: usize, buf: *mut u8, buf_n: usize, v: u32, n: u32) -> u32;
    pub fn gurthapen_enc_close(state: *mut i64, state_n: usize, buf: *mut u8, buf_n: usize) -> u32;
    pub fn gurthapen_enc_tell(state: *const i64, state_n: usize, value: *mut u32, value_n: usize) -> u32;
    pub fn gurthapen_enc_tell_frac(state: *const i64, state_n: usize, value: *mut u32, value_n: usize) -> u32;
    pub fn gurthapen_laplace_decode(
        state: *mut i64,
        state_n: usize,
        packet: *const u8,
        packet_n: usize,
        fs: u32,
        decay: u32,
        value: *mut i32,
        value_n: usize,
    ) -> u32;
    pub fn gurthapen_laplace_encode(
        state: *mut i64,
        state_n: usize,
        buf: *mut u8,
        buf_n: usize,
        z: i32,
        fs: u32,
        decay: u32,
        value: *mut i32,
        value_n: usize,
    ) -> u32;
    pub fn gurthapen_decode_pulses(
        state: *mut i64,
        state_n: usize,
        packet: *const u8,
        packet_n: usize,
        y: *mut i32,
        y_n: usize,
        n: u32,
        k: u32,
        energy: *mut u32,
        energy_n: usize,
    ) -> u32;
    pub fn gurthapen_encode_pulses(
        state: *mut i64,
        state_n: usize,
        buf: *mut u8,
        buf_n: usize,
        y: *const i32,
        y_n: usize,
        n: u32,
        k: u32,
    ) -> u32;
    pub fn gurthapen_get_pulses(i: i32, value: *mut u32, value_n: usize) -> u32;
    pub fn gurthapen_bits2pulses(band: i32, lm: i32, bits: i32, value: *mut u32, value_n: usize) -> u32;
    pub fn gurthapen_pulses2bits(band: i32, lm: i32, pulses: i32, value: *mut u32, value_n: usize) -> u32;
    pub fn gurthapen_compute_allocation_read(
        state: *mut i64,
        state_n: usize,
        packet: *const u8,
        packet_n: usize,
        c: i32,
        lm: i32,
        start: i32,
        end: i32,
        trim: i32,
        total: i32,
        offsets: *const i32,
        offsets_n: usize,
        caps: *const i32,
        caps_n: usize,
        pulses: *mut i32,
        pulses_n: usize,
        fine: *mut i32,
        fine_n: usize,
        priorities: *mut i32,
        priorities_n: usize,
        shown: *mut i32,
        shown_n: usize,
    ) -> u32;
    pub fn gurthapen_compute_allocation_write(
        state: *mut i64,
        state_n: usize,
        buf: *mut u8,
        buf_n: usize,
        c: i32,
        lm: i32,
        start: i32,
        end: i32,
        trim: i32,
        total: i32,
        intensity: i32,
        dual: i32,
        previous: i32,
        bandwidth: i32,
        offsets: *const i32,
        offsets_n: usize,
        caps: *const i32,
        caps_n: usize,
        pulses: *mut i32,
        pulses_n: usize,
        fine: *mut i32,
        fine_n: usize,
        priorities: *mut i32,
        priorities_n: usize,
        shown: *mut i32,
        shown_n: usize,
    ) -> u32;
    pub fn gurthapen_unquant_coarse_energy(
        state: *mut i64,
        state_n: usize,
        packet: *const u8,
        packet_n: usize,
        energies: *mut f32,
        energies_n: usize,
        c: i32,
        lm: i32,
        start: i32,
        end: i32,
        intra: i32,
    ) -> u32;
    pub fn gurthapen_unquant_energy_finalise(
        state: *mut i64,
        state_n: usize,
        packet: *const u8,
        packet_n: usize,
        energies: *mut f32,
        energies_n: usize,
        c: i32,
        start: i32,
        end: i32,
        fine: *const i32,
        fine_n: usize,
        priorities: *const i32,
        priorities_n: usize,
        left: i32,
    ) -> u32;
    pub fn gurthapen_alg_unquant(
        state: *mut i64,
        state_n: usize,
        packet: *const u8,
        packet_n: usize,
        shape: *mut f32,
        shape_n: usize,
        n: i32,
        k: i32,
        spread: i32,
        b: i32,
        gain: f32,
        mask: *mut u32,
        mask_n: usize,
    ) -> u32;
    pub fn gurthapen_record_fresh(energies: *mut f32, energies_n: usize, next: *mut u64, next_n: usize) -> u32;
    pub fn gurthapen_record_order(next: u64, number: u64) -> u32;
    pub fn gurthapen_record_frame(
        energies: *mut f32,
        energies_n: usize,
        next: *mut u64,
        next_n: usize,
        state: *mut i64,
        state_n: usize,
        packet: *const u8,
        packet_n: usize,
        number: u64,
        c: i32,
        lm: i32,
        start: i32,
        end: i32,
        intra: i32,
    ) -> u32;
    pub fn gurthapen_record_save(
        energies: *const f32,
        energies_n: usize,
        next: u64,
        buf: *mut u8,
        buf_n: usize,
        length: *mut usize,
        length_n: usize,
    ) -> u32;
    pub fn gurthapen_record_restore(
        line: *const u8,
        line_n: usize,
        energies: *mut f32,
        energies_n: usize,
        next: *mut u64,
        next_n: usize,
    ) -> u32;
    pub fn gurthapen_list(
        line: *const u8,
        line_n: usize,
        number: u32,
        out: *mut u8,
        out_n: usize,
        length: *mut usize,
        length_n: usize,
    ) -> u32;
    pub fn gurthapen_round_trip(
        bytes: *const u8,
        bytes_n: usize,
        symbols: *const u32,
        symbols_n: usize,
        tables: *const u8,
        tables_n: usize,
        c: i32,
        lm: i32,
        start: i32,
        end: i32,
        trim: i32,
        total: i32,
        intensity: i32,
        dual: i32,
        previous: i32,
        bandwidth: i32,
        offsets: *const i32,
        offsets_n: usize,
        caps: *const i32,
        caps_n: usize,
        outcome: *mut u64,
        outcome_n: usize,
    ) -> u32;
}
