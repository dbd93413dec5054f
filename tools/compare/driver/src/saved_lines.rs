//! Saved records by document 01's words, apart from the port: "Saved records are text lines".
use crate::listing::strict;
use crate::record::Record;
use crate::refusals;

/// The longest line takes so many bytes, and so many are asked for.
pub const ROOM: usize = 390;

/// The number of the refusal of a save into so many bytes, 0 for none.
pub fn refusal(record: &Record, room: usize) -> u32 {
    let finite = record.0.iter().all(|&v| f32::from_bits(v).is_finite());
    refusals::first(room >= ROOM, record.1 <= 4_294_967_295, finite, 0, true, true)
}

/// The line of a record.
pub fn line_of(record: &Record) -> String {
    let energies: String = record.0.iter().map(|v| format!("\t{v:08x}")).collect();
    format!("E\t{}{energies}", record.1)
}

/// The bits that eight lowercase hex digits write.
fn word(text: &str) -> Option<u32> {
    let digits = text.len() == 8 && text.bytes().all(|b| b.is_ascii_digit() || (b'a'..=b'f').contains(&b));
    if digits { u32::from_str_radix(text, 16).ok() } else { None }
}

/// A whole number of 256ths.
fn whole(text: &str) -> Option<u32> {
    let z = strict(text).filter(|z| (-32768..=32767).contains(z))?;
    Some((z as f32 / 256.0).to_bits())
}

/// The record of a line, or its refusal: 1 where it is malformed, 3 where an energy is not finite.
pub fn record_of(line: &[u8]) -> Result<Record, u32> {
    let text = std::str::from_utf8(line).map_err(|_| 1u32)?;
    let fields: Vec<&str> = text.split('\t').collect();
    let [letter, next, energies @ ..] = &fields[..] else { return Err(1) };
    let field = match *letter {
        "E" => word,
        "Q" => whole,
        _ => return Err(1),
    };
    let next = strict(next).filter(|n| !next.starts_with('-') && *n <= 4_294_967_295).ok_or(1u32)?;
    let energies: Option<Vec<u32>> = energies.iter().map(|f| field(f)).collect();
    let energies: [u32; 42] = energies.ok_or(1u32)?.try_into().map_err(|_| 1u32)?;
    if energies.iter().all(|&v| f32::from_bits(v).is_finite()) { Ok((energies, next as u64)) } else { Err(3) }
}
