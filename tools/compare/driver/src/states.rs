//! A reader's state on a request line: storage offs ends window waiting total rng val ext rem error, in the port's encoding.
use crate::coder;
use oracle::celt::entcode::ec_ctx_saved;
use oracle::libopus::EcCtx;

pub type State = [u32; 11];

/// A coder's state as the exported calls take it, in the crate's order and encoding: storage, end_offs, end_window, nend_bits, nbits_total, offs, rng,
/// val, ext, rem, error, and whether the writer is closed.
pub type List = [i64; 12];

/// Document 01's rule of a coder state that is handed in. A number without a rule of its own has 32 bits; the error mark and closed are any.
pub fn list_ok(l: &List, writes: bool) -> bool {
    let [storage, ends, window, waiting, total, offs, rng, val, ext, rem, ..] = *l;
    if ![ends, window, offs, val, ext].iter().all(|v| (0..1 << 32).contains(v)) {
        return false;
    }
    let counts = (0..=1275).contains(&storage) && (0..=32).contains(&waiting) && (33..=65535).contains(&total);
    if !counts || rng <= 1 << 23 || rng > 1 << 31 {
        return false;
    }
    let [low, places, held] = match writes {
        true => [val + rng < 1 << 32, offs + ends <= storage, (-1..=255).contains(&rem) && ext <= 65535],
        false => [val < rng, offs <= storage && ends <= storage, (0..=255).contains(&rem)],
    };
    low && places && held
}

/// The bits told so far; of a state that breaks its rule, any number.
pub fn list_tell(l: &List) -> i64 {
    l[4].wrapping_sub(64 - l[6].leading_zeros() as i64)
}

/// A state of a request line as such a list, of a reader or a writer.
pub fn list(state: &State, closed: u32, writes: bool) -> List {
    let [storage, offs, ends, window, waiting, total, rng, val, ext, rem, error] = state.map(i64::from);
    let mark = if writes { -1 } else { 1 };
    let held = if writes && rem == 256 { -1 } else { rem };
    [storage, ends, window, waiting, total, offs, rng, val, ext, held, error * mark, closed as i64]
}

/// A list that obeys its rule, as the crate saves it. Every mark but 0 is one; a reader's is 1, a writer's -1.
pub fn list_saved(l: &List, writes: bool) -> ec_ctx_saved {
    let mark = if writes { -1 } else { 1 };
    ec_ctx_saved {
        storage: l[0] as u32, end_offs: l[1] as u32, end_window: l[2] as u32, nend_bits: l[3] as i32, nbits_total: l[4] as i32, offs: l[5] as u32,
        rng: l[6] as u32, val: l[7] as u32, ext: l[8] as u32, rem: l[9] as i32, error: if l[10] == 0 { 0 } else { mark },
    }
}

/// And back.
pub fn saved_list(at: &ec_ctx_saved, closed: i64) -> List {
    [
        at.storage as i64, at.end_offs as i64, at.end_window as i64, at.nend_bits as i64, at.nbits_total as i64, at.offs as i64, at.rng as i64,
        at.val as i64, at.ext as i64, at.rem as i64, at.error as i64, closed,
    ]
}

/// Document 01's rule of a reader that is handed in.
pub fn is_ok(state: &State) -> bool {
    list_ok(&list(state, 0, false), false)
}

/// The bits told so far.
pub fn tell(state: &State) -> u32 {
    state[5] - (32 - state[6].leading_zeros())
}

/// As the crate saves it.
pub fn saved(state: &State) -> ec_ctx_saved {
    let [storage, offs, end_offs, end_window, waiting, total, rng, val, ext, rem, error] = *state;
    ec_ctx_saved {
        storage, offs, end_offs, end_window, nend_bits: waiting as i32, nbits_total: total as i32, rng, val, ext, rem: rem as i32,
        error: error as i32,
    }
}

/// As libopus has it, over the packet's bytes, which must outlive it.
pub fn lent(at: &ec_ctx_saved, bytes: &mut [u8]) -> EcCtx {
    EcCtx {
        buf: bytes.as_mut_ptr(), storage: at.storage, end_offs: at.end_offs, end_window: at.end_window, nend_bits: at.nend_bits,
        nbits_total: at.nbits_total, offs: at.offs, rng: at.rng, val: at.val, ext: at.ext, rem: at.rem, error: at.error,
    }
}

/// From libopus' own, as the crate saves it.
pub fn saved_back(c: &EcCtx) -> ec_ctx_saved {
    ec_ctx_saved {
        storage: c.storage, end_offs: c.end_offs, end_window: c.end_window, nend_bits: c.nend_bits, nbits_total: c.nbits_total, offs: c.offs,
        rng: c.rng, val: c.val, ext: c.ext, rem: c.rem, error: c.error,
    }
}

/// From libopus' own.
pub fn back(c: &EcCtx) -> State {
    coder::numbers(&saved_back(c))
}

/// From recorded traffic: storage, end_offs, end_window, nend_bits, nbits_total, offs, rng, val, ext, rem, error, separated by commas.
pub fn recorded(text: &str) -> State {
    let n: Vec<u32> = text.split(',').map(|w| w.parse().unwrap_or_else(|_| panic!("'{text}' is no reader's state"))).collect();
    [n[0], n[5], n[1], n[2], n[3], n[4], n[6], n[7], n[8], n[9], (n[10] != 0) as u32]
}

/// Bytes in hex.
pub fn bytes_of(hex: &str) -> Vec<u8> {
    (0..hex.len() / 2).map(|at| u8::from_str_radix(&hex[2 * at..2 * at + 2], 16).expect("hex")).collect()
}
