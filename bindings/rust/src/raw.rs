//! The exported calls, over slices of any length: each answers 0, or the number of a refusal, and then every slice is as it was.
//!
//! A state is twelve numbers ([`crate::State`] names them). A slice that is lent for one result has one element.
//!
//! ```
//! let mut value = [0];
//! assert_eq!(gurthapen::raw::get_pulses(23, &mut value), 0);
//! assert_eq!(value, [30]);
//! assert_eq!(gurthapen::raw::get_pulses(41, &mut value), 1);
//! assert_eq!(gurthapen::raw::get_pulses(23, &mut []), 2);
//! assert_eq!(value, [30]);
//! ```

use crate::exported;

// Each call below is safe: the exported function takes any number and any length, writes only into the slices that it is lent mutably, and
// keeps no pointer. A borrow of each slice rules out that two of them overlap where one is written.

// ---- Reading

/// A new reader of a packet.
pub fn dec_new(state: &mut [i64], packet: &[u8]) -> u32 {
    unsafe { exported::gurthapen_dec_new(state.as_mut_ptr(), state.len(), packet.as_ptr(), packet.len()) }
}

/// One bit that is 1 with a probability of 1 in 2^logp.
pub fn dec_bit_logp(state: &mut [i64], packet: &[u8], logp: u32, value: &mut [u32]) -> u32 {
    unsafe {
        exported::gurthapen_dec_bit_logp(
            state.as_mut_ptr(),
            state.len(),
            packet.as_ptr(),
            packet.len(),
            logp,
            value.as_mut_ptr(),
            value.len(),
        )
    }
}

/// A symbol of a table of 2^ftb places.
pub fn dec_icdf(state: &mut [i64], packet: &[u8], table: &[u8], ftb: u32, value: &mut [u32]) -> u32 {
    unsafe {
        exported::gurthapen_dec_icdf(
            state.as_mut_ptr(),
            state.len(),
            packet.as_ptr(),
            packet.len(),
            table.as_ptr(),
            table.len(),
            ftb,
            value.as_mut_ptr(),
            value.len(),
        )
    }
}

/// A number below ft, all alike.
pub fn dec_uint(state: &mut [i64], packet: &[u8], ft: u32, value: &mut [u32]) -> u32 {
    unsafe {
        exported::gurthapen_dec_uint(
            state.as_mut_ptr(),
            state.len(),
            packet.as_ptr(),
            packet.len(),
            ft,
            value.as_mut_ptr(),
            value.len(),
        )
    }
}

/// n raw bits from the end of the packet.
pub fn dec_bits(state: &mut [i64], packet: &[u8], n: u32, value: &mut [u32]) -> u32 {
    unsafe {
        exported::gurthapen_dec_bits(
            state.as_mut_ptr(),
            state.len(),
            packet.as_ptr(),
            packet.len(),
            n,
            value.as_mut_ptr(),
            value.len(),
        )
    }
}

/// How many bits a reader has used.
pub fn dec_tell(state: &[i64], value: &mut [u32]) -> u32 {
    unsafe { exported::gurthapen_dec_tell(state.as_ptr(), state.len(), value.as_mut_ptr(), value.len()) }
}

/// How many eighths of a bit a reader has used.
pub fn dec_tell_frac(state: &[i64], value: &mut [u32]) -> u32 {
    unsafe { exported::gurthapen_dec_tell_frac(state.as_ptr(), state.len(), value.as_mut_ptr(), value.len()) }
}

// ---- Writing

/// A new writer over the bytes.
pub fn enc_new(state: &mut [i64], buf: &[u8]) -> u32 {
    unsafe { exported::gurthapen_enc_new(state.as_mut_ptr(), state.len(), buf.as_ptr(), buf.len()) }
}

/// One bit, which is 1 in one of 2^logp places.
pub fn enc_bit_logp(state: &mut [i64], buf: &mut [u8], value: u32, logp: u32) -> u32 {
    unsafe { exported::gurthapen_enc_bit_logp(state.as_mut_ptr(), state.len(), buf.as_mut_ptr(), buf.len(), value, logp) }
}

/// The symbol s of a table of 2^ftb places.
pub fn enc_icdf(state: &mut [i64], buf: &mut [u8], s: u32, table: &[u8], ftb: u32) -> u32 {
    unsafe {
        exported::gurthapen_enc_icdf(
            state.as_mut_ptr(),
            state.len(),
            buf.as_mut_ptr(),
            buf.len(),
            s,
            table.as_ptr(),
            table.len(),
            ftb,
        )
    }
}

/// A number fl below ft.
pub fn enc_uint(state: &mut [i64], buf: &mut [u8], fl: u32, ft: u32) -> u32 {
    unsafe { exported::gurthapen_enc_uint(state.as_mut_ptr(), state.len(), buf.as_mut_ptr(), buf.len(), fl, ft) }
}

/// n raw bits of v.
pub fn enc_bits(state: &mut [i64], buf: &mut [u8], v: u32, n: u32) -> u32 {
    unsafe { exported::gurthapen_enc_bits(state.as_mut_ptr(), state.len(), buf.as_mut_ptr(), buf.len(), v, n) }
}

/// The last bytes; nothing may be written after it.
pub fn enc_close(state: &mut [i64], buf: &mut [u8]) -> u32 {
    unsafe { exported::gurthapen_enc_close(state.as_mut_ptr(), state.len(), buf.as_mut_ptr(), buf.len()) }
}

/// How many bits a writer has used.
pub fn enc_tell(state: &[i64], value: &mut [u32]) -> u32 {
    unsafe { exported::gurthapen_enc_tell(state.as_ptr(), state.len(), value.as_mut_ptr(), value.len()) }
}

/// How many eighths of a bit a writer has used.
pub fn enc_tell_frac(state: &[i64], value: &mut [u32]) -> u32 {
    unsafe { exported::gurthapen_enc_tell_frac(state.as_ptr(), state.len(), value.as_mut_ptr(), value.len()) }
}

// ---- Laplace values

/// A Laplace value of the pair fs and decay.
pub fn laplace_decode(state: &mut [i64], packet: &[u8], fs: u32, decay: u32, value: &mut [i32]) -> u32 {
    unsafe {
        exported::gurthapen_laplace_decode(
            state.as_mut_ptr(),
            state.len(),
            packet.as_ptr(),
            packet.len(),
            fs,
            decay,
            value.as_mut_ptr(),
            value.len(),
        )
    }
}

/// The Laplace value z of the pair fs and decay; what counts as written goes into value.
pub fn laplace_encode(state: &mut [i64], buf: &mut [u8], z: i32, fs: u32, decay: u32, value: &mut [i32]) -> u32 {
    unsafe {
        exported::gurthapen_laplace_encode(
            state.as_mut_ptr(),
            state.len(),
            buf.as_mut_ptr(),
            buf.len(),
            z,
            fs,
            decay,
            value.as_mut_ptr(),
            value.len(),
        )
    }
}

// ---- Pulse words

/// A vector of n places and k pulses into the first n of 176 places.
pub fn decode_pulses(state: &mut [i64], packet: &[u8], y: &mut [i32], n: u32, k: u32, energy: &mut [u32]) -> u32 {
    unsafe {
        exported::gurthapen_decode_pulses(
            state.as_mut_ptr(),
            state.len(),
            packet.as_ptr(),
            packet.len(),
            y.as_mut_ptr(),
            y.len(),
            n,
            k,
            energy.as_mut_ptr(),
            energy.len(),
        )
    }
}

/// The vector of k pulses that stands in the first n of 176 places.
pub fn encode_pulses(state: &mut [i64], buf: &mut [u8], y: &[i32], n: u32, k: u32) -> u32 {
    unsafe {
        exported::gurthapen_encode_pulses(
            state.as_mut_ptr(),
            state.len(),
            buf.as_mut_ptr(),
            buf.len(),
            y.as_ptr(),
            y.len(),
            n,
            k,
        )
    }
}

// ---- Lookups

/// The number of pulses that an index of the cache stands for.
pub fn get_pulses(i: i32, value: &mut [u32]) -> u32 {
    unsafe { exported::gurthapen_get_pulses(i, value.as_mut_ptr(), value.len()) }
}

/// The index of pulses whose cost is nearest to the bits.
pub fn bits2pulses(band: i32, lm: i32, bits: i32, value: &mut [u32]) -> u32 {
    unsafe { exported::gurthapen_bits2pulses(band, lm, bits, value.as_mut_ptr(), value.len()) }
}

/// What an index of pulses costs.
pub fn pulses2bits(band: i32, lm: i32, pulses: i32, value: &mut [u32]) -> u32 {
    unsafe { exported::gurthapen_pulses2bits(band, lm, pulses, value.as_mut_ptr(), value.len()) }
}

// ---- Bit allocation

/// Reads an allocation: the bands go into three lists of 21, coded bands, balance, intensity and dual stereo into shown. Offsets and caps are checked
/// whole: [`crate::Frame`] says what has to stand outside start..end-1.
#[allow(clippy::too_many_arguments)]
pub fn compute_allocation_read(
    state: &mut [i64],
    packet: &[u8],
    c: i32,
    lm: i32,
    start: i32,
    end: i32,
    trim: i32,
    total: i32,
    offsets: &[i32],
    caps: &[i32],
    pulses: &mut [i32],
    fine: &mut [i32],
    priorities: &mut [i32],
    shown: &mut [i32],
) -> u32 {
    unsafe {
        exported::gurthapen_compute_allocation_read(
            state.as_mut_ptr(),
            state.len(),
            packet.as_ptr(),
            packet.len(),
            c,
            lm,
            start,
            end,
            trim,
            total,
            offsets.as_ptr(),
            offsets.len(),
            caps.as_ptr(),
            caps.len(),
            pulses.as_mut_ptr(),
            pulses.len(),
            fine.as_mut_ptr(),
            fine.len(),
            priorities.as_mut_ptr(),
            priorities.len(),
            shown.as_mut_ptr(),
            shown.len(),
        )
    }
}

/// Writes an allocation.
#[allow(clippy::too_many_arguments)]
pub fn compute_allocation_write(
    state: &mut [i64],
    buf: &mut [u8],
    c: i32,
    lm: i32,
    start: i32,
    end: i32,
    trim: i32,
    total: i32,
    intensity: i32,
    dual: i32,
    previous: i32,
    bandwidth: i32,
    offsets: &[i32],
    caps: &[i32],
    pulses: &mut [i32],
    fine: &mut [i32],
    priorities: &mut [i32],
    shown: &mut [i32],
) -> u32 {
    unsafe {
        exported::gurthapen_compute_allocation_write(
            state.as_mut_ptr(),
            state.len(),
            buf.as_mut_ptr(),
            buf.len(),
            c,
            lm,
            start,
            end,
            trim,
            total,
            intensity,
            dual,
            previous,
            bandwidth,
            offsets.as_ptr(),
            offsets.len(),
            caps.as_ptr(),
            caps.len(),
            pulses.as_mut_ptr(),
            pulses.len(),
            fine.as_mut_ptr(),
            fine.len(),
            priorities.as_mut_ptr(),
            priorities.len(),
            shown.as_mut_ptr(),
            shown.len(),
        )
    }
}

// ---- Energies

/// Coarse energies: those of the bands start..end-1 of the first c channels, in place of those of the frame before.
#[allow(clippy::too_many_arguments)]
pub fn unquant_coarse_energy(
    state: &mut [i64],
    packet: &[u8],
    energies: &mut [f32],
    c: i32,
    lm: i32,
    start: i32,
    end: i32,
    intra: i32,
) -> u32 {
    unsafe {
        exported::gurthapen_unquant_coarse_energy(
            state.as_mut_ptr(),
            state.len(),
            packet.as_ptr(),
            packet.len(),
            energies.as_mut_ptr(),
            energies.len(),
            c,
            lm,
            start,
            end,
            intra,
        )
    }
}

/// The bits left over, one for each channel of a band.
#[allow(clippy::too_many_arguments)]
pub fn unquant_energy_finalise(
    state: &mut [i64],
    packet: &[u8],
    energies: &mut [f32],
    c: i32,
    start: i32,
    end: i32,
    fine: &[i32],
    priorities: &[i32],
    left: i32,
) -> u32 {
    unsafe {
        exported::gurthapen_unquant_energy_finalise(
            state.as_mut_ptr(),
            state.len(),
            packet.as_ptr(),
            packet.len(),
            energies.as_mut_ptr(),
            energies.len(),
            c,
            start,
            end,
            fine.as_ptr(),
            fine.len(),
            priorities.as_ptr(),
            priorities.len(),
            left,
        )
    }
}

// ---- Shapes

/// The shape of a vector of n places and k pulses, and which of its b parts hold a pulse.
#[allow(clippy::too_many_arguments)]
pub fn alg_unquant(
    state: &mut [i64],
    packet: &[u8],
    shape: &mut [f32],
    n: i32,
    k: i32,
    spread: i32,
    b: i32,
    gain: f32,
    mask: &mut [u32],
) -> u32 {
    unsafe {
        exported::gurthapen_alg_unquant(
            state.as_mut_ptr(),
            state.len(),
            packet.as_ptr(),
            packet.len(),
            shape.as_mut_ptr(),
            shape.len(),
            n,
            k,
            spread,
            b,
            gain,
            mask.as_mut_ptr(),
            mask.len(),
        )
    }
}

// ---- The stream record

/// The record before the first frame.
pub fn record_fresh(energies: &mut [f32], next: &mut [u64]) -> u32 {
    unsafe { exported::gurthapen_record_fresh(energies.as_mut_ptr(), energies.len(), next.as_mut_ptr(), next.len()) }
}

/// A frame's number against the next one: 0, 10 or 11; 1 where either is outside its domain.
pub fn record_order(next: u64, number: u64) -> u32 {
    unsafe { exported::gurthapen_record_order(next, number) }
}

/// Frame `number`, whose coarse energies the reader stands before.
#[allow(clippy::too_many_arguments)]
pub fn record_frame(
    energies: &mut [f32],
    next: &mut [u64],
    state: &mut [i64],
    packet: &[u8],
    number: u64,
    c: i32,
    lm: i32,
    start: i32,
    end: i32,
    intra: i32,
) -> u32 {
    unsafe {
        exported::gurthapen_record_frame(
            energies.as_mut_ptr(),
            energies.len(),
            next.as_mut_ptr(),
            next.len(),
            state.as_mut_ptr(),
            state.len(),
            packet.as_ptr(),
            packet.len(),
            number,
            c,
            lm,
            start,
            end,
            intra,
        )
    }
}

/// The record's line, without a line feed, to the front of a buffer of 390 bytes or more, and its length.
pub fn record_save(energies: &[f32], next: u64, buf: &mut [u8], length: &mut [usize]) -> u32 {
    unsafe {
        exported::gurthapen_record_save(
            energies.as_ptr(),
            energies.len(),
            next,
            buf.as_mut_ptr(),
            buf.len(),
            length.as_mut_ptr(),
            length.len(),
        )
    }
}

/// The record of a line without its line feed.
pub fn record_restore(line: &[u8], energies: &mut [f32], next: &mut [u64]) -> u32 {
    unsafe {
        exported::gurthapen_record_restore(
            line.as_ptr(),
            line.len(),
            energies.as_mut_ptr(),
            energies.len(),
            next.as_mut_ptr(),
            next.len(),
        )
    }
}

// ---- The lister

/// The lister's answer to a line without its line feed, to the front of a buffer of 1,200 bytes or more, and its length.
pub fn list(line: &[u8], number: u32, out: &mut [u8], length: &mut [usize]) -> u32 {
    unsafe {
        exported::gurthapen_list(
            line.as_ptr(),
            line.len(),
            number,
            out.as_mut_ptr(),
            out.len(),
            length.as_mut_ptr(),
            length.len(),
        )
    }
}

// ---- The round trip

/// Writes symbols, five numbers each, and an allocation with a new writer over a copy of the bytes, closes, reads back and compares; how it ended goes
/// into outcome, four numbers (bindings/c/gurthapen.h says which). Refused, with the outcome as it was: 2 where the symbols are not five numbers
/// each or the outcome has not four, 1 where a kind is above 4 or a table has entries past the end of tables.
#[allow(clippy::too_many_arguments)]
pub fn round_trip(
    bytes: &[u8],
    symbols: &[u32],
    tables: &[u8],
    c: i32,
    lm: i32,
    start: i32,
    end: i32,
    trim: i32,
    total: i32,
    intensity: i32,
    dual: i32,
    previous: i32,
    bandwidth: i32,
    offsets: &[i32],
    caps: &[i32],
    outcome: &mut [u64],
) -> u32 {
    unsafe {
        exported::gurthapen_round_trip(
            bytes.as_ptr(),
            bytes.len(),
            symbols.as_ptr(),
            symbols.len(),
            tables.as_ptr(),
            tables.len(),
            c,
            lm,
            start,
            end,
            trim,
            total,
            intensity,
            dual,
            previous,
            bandwidth,
            offsets.as_ptr(),
            offsets.len(),
            caps.as_ptr(),
            caps.len(),
            outcome.as_mut_ptr(),
            outcome.len(),
        )
    }
}
