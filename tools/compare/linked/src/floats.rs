//! Floats by their bits.
#![allow(dead_code)] // where the archive lacks every call that has floats

/// What stands beside a lent list, and in a list for a result before the call.
pub const KEPT: u32 = 0x5eed_5eed;

/// Bits of energies; every NaN has the same.
pub fn tame(bits: &[u32]) -> Vec<u32> {
    driver::energy::bits_of(&bits.iter().map(|&v| f32::from_bits(v)).collect::<Vec<f32>>())
}

/// For a reader.
pub fn shown_bits(bits: &[u32]) -> String {
    bits.iter().map(|v| format!("{v:08x}")).collect::<Vec<String>>().join(" ")
}
