use crate::{raw, Refusal};

fn look(call: impl FnOnce(&mut [u32]) -> u32) -> Result<u32, Refusal> {
    let mut value = [0];
    Refusal::check(call(&mut value))?;
    Ok(value[0])
}

/// The number of pulses that an index of the cache stands for, 0..40.
///
/// ```
/// assert_eq!(gurthapen::get_pulses(23), Ok(30));
/// assert_eq!(gurthapen::get_pulses(41), Err(gurthapen::Refusal::Number));
/// ```
pub fn get_pulses(i: i32) -> Result<u32, Refusal> {
    look(|value| raw::get_pulses(i, value))
}

/// The index of pulses whose cost is nearest to the bits: band 0..20, LM -1..3, bits -81,600..81,600.
///
/// ```
/// assert_eq!(gurthapen::bits2pulses(20, 3, -81_600), Ok(0));
/// assert_eq!(gurthapen::bits2pulses(0, -1, 0), Err(gurthapen::Refusal::NoRow));
/// ```
pub fn bits2pulses(band: i32, lm: i32, bits: i32) -> Result<u32, Refusal> {
    look(|value| raw::bits2pulses(band, lm, bits, value))
}

/// What an index of pulses costs.
///
/// ```
/// assert_eq!(gurthapen::pulses2bits(20, 3, 0), Ok(0));
/// assert_eq!(gurthapen::pulses2bits(20, 3, -1), Err(gurthapen::Refusal::Index));
/// ```
pub fn pulses2bits(band: i32, lm: i32, pulses: i32) -> Result<u32, Refusal> {
    look(|value| raw::pulses2bits(band, lm, pulses, value))
}
