//! Random states of readers: new ones, ones after a few symbols, and any that obey the rule, whether or not symbols lead to them.
use driver::random::Random;
use driver::states::{saved_list, List};
use oracle::celt::entcode::ec_tell;
use oracle::celt::entdec;

/// Random bytes, of which many are 0, 128 or 255.
pub fn packet(r: &mut Random, storage: usize) -> Vec<u8> {
    let plain = r.below(2);
    let any = |r: &mut Random| {
        let b = r.below(256);
        if plain == 0 { b as u8 } else { [0, 128, 255, b, b, b][r.below(6) as usize] as u8 }
    };
    (0..storage).map(|_| any(r)).collect()
}

/// A reader of the packet after a few symbols, for as long as the next call is not refused.
fn after_symbols(r: &mut Random, bytes: &mut [u8]) -> List {
    let mut c = entdec::ec_dec_init(bytes);
    for _ in 0..r.below(24) {
        if ec_tell(&c) as u32 + 24 > 8 * c.storage + 32 {
            break;
        }
        match r.below(4) {
            0 => drop(entdec::ec_dec_bits(&mut c, r.within(1, 12))),
            1 => drop(entdec::ec_dec_uint(&mut c, r.within(2, 300))),
            _ => drop(entdec::ec_dec_bit_logp(&mut c, r.within(1, 15))),
        }
    }
    saved_list(&c.save(), 0)
}

/// A state within its rule; tell is at its bound now and then, and never above it.
fn any_within(r: &mut Random, storage: u32) -> List {
    let rng = match r.below(8) {
        0 => r.one_of(&[(1 << 23) + 1, 1 << 31, (1 << 31) - 1, 1 << 24]),
        _ => r.within((1 << 23) + 1, 1 << 31),
    };
    let most = 8 * storage + 32 + (32 - rng.leading_zeros());
    let total = if r.below(4) == 0 { most } else { r.within(33, most) };
    let [ends, offs] = [r.within(0, storage), r.within(0, storage)];
    let [window, ext] = [r.within(0, u32::MAX), r.within(0, u32::MAX)];
    [storage, ends, window, r.below(33), total, offs, rng, r.below(rng), ext, r.below(256), r.below(8) / 7, 0].map(i64::from)
}

/// A reader of these bytes.
pub fn reader(r: &mut Random, bytes: &[u8]) -> List {
    match r.below(8) {
        0..=2 => saved_list(&entdec::ec_dec_init(&mut bytes.to_vec()).save(), 0),
        3..=5 => after_symbols(r, &mut bytes.to_vec()),
        _ => any_within(r, bytes.len() as u32),
    }
}

/// How many bytes a packet has: mostly few.
pub fn storage(r: &mut Random) -> usize {
    match r.below(32) {
        0 => r.one_of(&[0, 1, 1274, 1275]) as usize,
        1 => r.within(0, 1275) as usize,
        2..=7 => r.within(0, 4) as usize,
        _ => r.within(2, 80) as usize,
    }
}
