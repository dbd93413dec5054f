//! The lister's requests: document 01, "The lister". A request is one line; its answer is an R line and a B line for each band, or an X line, with
//! the number of the line among all that were asked. The allocation is the crate's, and libopus must agree with it (alloc.rs); the caps are
//! libopus' own. The line is read here by the document's words, apart from the port.
use crate::alloc::{Asked, Numbers};
use crate::{coder, Side};
use oracle::celt::entdec;
use oracle::libopus;

/// A strict decimal: no plus, no leading zero, a minus only before a nonzero figure; None where it is not one, or beyond 64 bits.
pub fn strict(text: &str) -> Option<i64> {
    let figures = text.strip_prefix('-').unwrap_or(text);
    let plain = !figures.is_empty() && figures.bytes().all(|b| b.is_ascii_digit());
    let needless = figures.starts_with('0') && text != "0";
    if plain && !needless { text.parse().ok() } else { None }
}

/// One of 32 bits.
fn decimal(text: &str) -> Option<i32> {
    strict(text)?.try_into().ok()
}

/// The bytes of an even number of lowercase hex digits.
fn packet(text: &str) -> Option<Vec<u8>> {
    let digit = |b: u8| if b.is_ascii_uppercase() { None } else { (b as char).to_digit(16) };
    let digits: Option<Vec<u32>> = text.bytes().map(digit).collect();
    let digits = digits.filter(|d| d.len() % 2 == 0)?;
    Some(digits.chunks(2).map(|d| (d[0] * 16 + d[1]) as u8).collect())
}

/// What a line asks, where it is well formed.
fn asked(line: &str) -> Option<Asked> {
    let fields: Vec<&str> = line.split('\t').collect();
    let [c, lm, start, end, trim, total, hex] = fields[..] else { return None };
    if line.len() > 2600 {
        return None;
    }
    let mut bytes = packet(hex)?;
    let trim = if trim.is_empty() { 5 } else { decimal(trim)? };
    let total = if total.is_empty() { 64 * bytes.len() as i32 } else { decimal(total)? };
    let numbers = Numbers {
        c: decimal(c)?, lm: decimal(lm)?, start: decimal(start)?, end: decimal(end)?, trim, total, intensity: 0, dual: 0, previous: 0, bandwidth: 0,
    };
    let mut state = [0; 12];
    state[..11].copy_from_slice(&coder::numbers(&entdec::ec_dec_init(&mut bytes).save()));
    Some(Asked { writes: false, room: [21; 3], numbers, state, offsets: vec![0; 21], caps: vec![0; 21], bytes })
}

/// The caps by libopus, for numbers of the domain.
fn caps(n: Numbers) -> Vec<i32> {
    let mut list = vec![0; 21];
    // The list has an entry for each band of the mode.
    unsafe { libopus::init_caps(libopus::opus_custom_mode_create(48000, 960, &mut 0), list.as_mut_ptr(), n.lm, n.c) };
    list
}

/// The lines that answer a request.
pub fn listing(number: u64, line: &str) -> String {
    let Some(mut a) = asked(line) else { return format!("X\t{number}\t1") };
    let n = a.numbers;
    if a.refusal() == 0 {
        a.caps = caps(n);
    }
    match a.given() {
        Ok(g) => {
            let head = format!("R\t{number}\t{}\t{}\t{}\t{}", g.coded, g.balance, g.intensity, g.dual);
            let band = |j: usize| format!("\nB\t{j}\t{}\t{}\t{}", g.lists[0][j], g.lists[1][j], g.lists[2][j]);
            head + &(n.start as usize..n.end as usize).map(band).collect::<String>()
        }
        Err(no) => format!("X\t{number}\t{no}"),
    }
}

/// The oracles' side; it counts the lines.
pub struct Oracle(pub u64);

impl Side for Oracle {
    fn answer(&mut self, line: &str) -> Option<String> {
        self.0 += 1;
        Some(listing(self.0, line))
    }
}
