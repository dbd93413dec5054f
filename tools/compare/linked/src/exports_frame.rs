//! The port's exported calls that take or give what a frame has: allocation, energies, shapes, the stream record, the lister's answers and the
//! round trip. As in exports.rs, nothing checks these declarations. Energies and shapes are lent by their bits, which have the size and the
//! alignment of an f32. A call that the archive lacks leaves its function unused.
#![allow(clippy::too_many_arguments, dead_code)]
use driver::alloc::Numbers;

mod gurthapen {
    extern "C" {
        pub fn gurthapen_compute_allocation_read(
            state: *mut i64, state_n: usize, s: *const u8, n: usize, c: i32, lm: i32, start: i32, end: i32, trim: i32, total: i32,
            offsets: *const i32, offsets_n: usize, caps: *const i32, caps_n: usize, pulses: *mut i32, pulses_n: usize, fine: *mut i32,
            fine_n: usize, priorities: *mut i32, priorities_n: usize, shown: *mut i32, shown_n: usize,
        ) -> u32;
        pub fn gurthapen_compute_allocation_write(
            state: *mut i64, state_n: usize, buf: *mut u8, n: usize, c: i32, lm: i32, start: i32, end: i32, trim: i32, total: i32,
            intensity: i32, dual: i32, previous: i32, bandwidth: i32, offsets: *const i32, offsets_n: usize, caps: *const i32, caps_n: usize,
            pulses: *mut i32, pulses_n: usize, fine: *mut i32, fine_n: usize, priorities: *mut i32, priorities_n: usize, shown: *mut i32,
            shown_n: usize,
        ) -> u32;
        pub fn gurthapen_unquant_coarse_energy(
            state: *mut i64, state_n: usize, s: *const u8, n: usize, energies: *mut f32, energies_n: usize, c: i32, lm: i32, start: i32,
            end: i32, intra: i32,
        ) -> u32;
        pub fn gurthapen_unquant_energy_finalise(
            state: *mut i64, state_n: usize, s: *const u8, n: usize, energies: *mut f32, energies_n: usize, c: i32, start: i32, end: i32,
            fine: *const i32, fine_n: usize, priorities: *const i32, priorities_n: usize, left: i32,
        ) -> u32;
        pub fn gurthapen_alg_unquant(
            state: *mut i64, state_n: usize, s: *const u8, bytes: usize, shape: *mut f32, shape_n: usize, n: i32, k: i32, spread: i32, b: i32,
            gain: f32, mask: *mut u32, mask_n: usize,
        ) -> u32;
        pub fn gurthapen_record_fresh(energies: *mut f32, energies_n: usize, next: *mut u64, next_n: usize) -> u32;
        pub fn gurthapen_record_order(next: u64, number: u64) -> u32;
        pub fn gurthapen_record_frame(
            energies: *mut f32, energies_n: usize, next: *mut u64, next_n: usize, state: *mut i64, state_n: usize, s: *const u8, n: usize,
            number: u64, c: i32, lm: i32, start: i32, end: i32, intra: i32,
        ) -> u32;
        pub fn gurthapen_record_save(
            energies: *const f32, energies_n: usize, next: u64, buf: *mut u8, buf_n: usize, length: *mut usize, length_n: usize,
        ) -> u32;
        pub fn gurthapen_record_restore(
            line: *const u8, line_n: usize, energies: *mut f32, energies_n: usize, next: *mut u64, next_n: usize,
        ) -> u32;
        pub fn gurthapen_list(
            line: *const u8, line_n: usize, number: u32, out: *mut u8, out_n: usize, length: *mut usize, length_n: usize,
        ) -> u32;
        pub fn gurthapen_round_trip(
            bytes: *const u8, bytes_n: usize, symbols: *const u32, symbols_n: usize, tables: *const u8, tables_n: usize, c: i32, lm: i32, start: i32,
            end: i32, trim: i32, total: i32, intensity: i32, dual: i32, previous: i32, bandwidth: i32, offsets: *const i32, offsets_n: usize,
            caps: *const i32, caps_n: usize, outcome: *mut u64, outcome_n: usize,
        ) -> u32;
    }
}

// Each list is lent with its own length, and no two of them overlap, so that every call stays in its bounds.

pub fn allocation_read(
    state: &mut [i64], s: &[u8], n: &Numbers, offsets: &[i32], caps: &[i32], pulses: &mut [i32], fine: &mut [i32], priorities: &mut [i32],
    shown: &mut [i32],
) -> u32 {
    unsafe {
        gurthapen::gurthapen_compute_allocation_read(
            state.as_mut_ptr(), state.len(), s.as_ptr(), s.len(), n.c, n.lm, n.start, n.end, n.trim, n.total, offsets.as_ptr(), offsets.len(),
            caps.as_ptr(), caps.len(), pulses.as_mut_ptr(), pulses.len(), fine.as_mut_ptr(), fine.len(), priorities.as_mut_ptr(),
            priorities.len(), shown.as_mut_ptr(), shown.len(),
        )
    }
}

pub fn allocation_write(
    state: &mut [i64], buf: &mut [u8], n: &Numbers, offsets: &[i32], caps: &[i32], pulses: &mut [i32], fine: &mut [i32], priorities: &mut [i32],
    shown: &mut [i32],
) -> u32 {
    unsafe {
        gurthapen::gurthapen_compute_allocation_write(
            state.as_mut_ptr(), state.len(), buf.as_mut_ptr(), buf.len(), n.c, n.lm, n.start, n.end, n.trim, n.total, n.intensity, n.dual,
            n.previous, n.bandwidth, offsets.as_ptr(), offsets.len(), caps.as_ptr(), caps.len(), pulses.as_mut_ptr(), pulses.len(),
            fine.as_mut_ptr(), fine.len(), priorities.as_mut_ptr(), priorities.len(), shown.as_mut_ptr(), shown.len(),
        )
    }
}

pub fn coarse(state: &mut [i64], s: &[u8], energies: &mut [u32], c: i32, lm: i32, start: i32, end: i32, intra: i32) -> u32 {
    unsafe {
        gurthapen::gurthapen_unquant_coarse_energy(
            state.as_mut_ptr(), state.len(), s.as_ptr(), s.len(), energies.as_mut_ptr().cast(), energies.len(), c, lm, start, end, intra,
        )
    }
}

pub fn finalise(
    state: &mut [i64], s: &[u8], energies: &mut [u32], c: i32, start: i32, end: i32, fine: &[i32], priorities: &[i32], left: i32,
) -> u32 {
    unsafe {
        gurthapen::gurthapen_unquant_energy_finalise(
            state.as_mut_ptr(), state.len(), s.as_ptr(), s.len(), energies.as_mut_ptr().cast(), energies.len(), c, start, end, fine.as_ptr(),
            fine.len(), priorities.as_ptr(), priorities.len(), left,
        )
    }
}

pub fn shape(state: &mut [i64], s: &[u8], shape: &mut [u32], n: i32, k: i32, spread: i32, b: i32, gain: f32, mask: &mut [u32]) -> u32 {
    unsafe {
        gurthapen::gurthapen_alg_unquant(
            state.as_mut_ptr(), state.len(), s.as_ptr(), s.len(), shape.as_mut_ptr().cast(), shape.len(), n, k, spread, b, gain,
            mask.as_mut_ptr(), mask.len(),
        )
    }
}

pub fn record_fresh(energies: &mut [u32], next: &mut [u64]) -> u32 {
    unsafe { gurthapen::gurthapen_record_fresh(energies.as_mut_ptr().cast(), energies.len(), next.as_mut_ptr(), next.len()) }
}

pub fn record_order(next: u64, number: u64) -> u32 {
    unsafe { gurthapen::gurthapen_record_order(next, number) }
}

pub fn record_frame(
    energies: &mut [u32], next: &mut [u64], state: &mut [i64], s: &[u8], number: u64, c: i32, lm: i32, start: i32, end: i32, intra: i32,
) -> u32 {
    unsafe {
        gurthapen::gurthapen_record_frame(
            energies.as_mut_ptr().cast(), energies.len(), next.as_mut_ptr(), next.len(), state.as_mut_ptr(), state.len(), s.as_ptr(), s.len(),
            number, c, lm, start, end, intra,
        )
    }
}

pub fn record_save(energies: &[u32], next: u64, buf: &mut [u8], length: &mut [usize]) -> u32 {
    unsafe {
        gurthapen::gurthapen_record_save(energies.as_ptr().cast(), energies.len(), next, buf.as_mut_ptr(), buf.len(), length.as_mut_ptr(), length.len())
    }
}

pub fn record_restore(line: &[u8], energies: &mut [u32], next: &mut [u64]) -> u32 {
    unsafe {
        gurthapen::gurthapen_record_restore(line.as_ptr(), line.len(), energies.as_mut_ptr().cast(), energies.len(), next.as_mut_ptr(), next.len())
    }
}

pub fn list(line: &[u8], number: u32, out: &mut [u8], length: &mut [usize]) -> u32 {
    unsafe { gurthapen::gurthapen_list(line.as_ptr(), line.len(), number, out.as_mut_ptr(), out.len(), length.as_mut_ptr(), length.len()) }
}

/// The numbers are C, LM, start, end, trim, total, intensity, dual stereo, previous band count and bandwidth.
pub fn round_trip(bytes: &[u8], symbols: &[u32], tables: &[u8], n: &[i32; 10], offsets: &[i32], caps: &[i32], outcome: &mut [u64]) -> u32 {
    unsafe {
        gurthapen::gurthapen_round_trip(
            bytes.as_ptr(), bytes.len(), symbols.as_ptr(), symbols.len(), tables.as_ptr(), tables.len(), n[0], n[1], n[2], n[3], n[4], n[5], n[6],
            n[7], n[8], n[9], offsets.as_ptr(), offsets.len(), caps.as_ptr(), caps.len(), outcome.as_mut_ptr(), outcome.len(),
        )
    }
}
