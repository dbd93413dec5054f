//! Damaged copies of a coder's state.
use driver::random::Random;
use driver::states::{list_tell, List};

/// A number of a state and a value at its limits, one step outside them, or any.
pub fn damage(r: &mut Random, state: &List, storage: usize) -> (u8, i64) {
    let place = r.below(12) as u8;
    let n = storage as i64;
    // A number that was damaged before may be any.
    let less = |a: i64, b: i64| a.wrapping_sub(b);
    let [held, rng, val] = [state[place as usize], state[6], state[7]];
    let word = r.within(0, u32::MAX) as i64;
    let far = [i64::MIN, i64::MAX, -1, 1 << 32, (1 << 32) - 1, less(held, 1), less(held, -1), word];
    let far = r.one_of(&far);
    let near: [i64; 8] = match place {
        0 => [n, n + 1, n - 1, 0, 1275, 1276, n, n],
        1 | 5 => {
            let other = state[6 - place as usize];
            [0, 1, n, n + 1, less(n, other), less(n + 1, other), n - 1, r.below(n as u32 + 1) as i64]
        }
        2 => [0, (1 << 32) - 1, word, word, word, word, 1 << 31, 255],
        3 => [0, 32, 33, 7, 8, 25, r.below(33) as i64, r.below(33) as i64],
        // The bits used, at the bound of number 4 and one above it.
        4 => {
            let most = 8 * n + 32 + less(held, list_tell(state));
            [32, 33, 65535, 65536, most, most + 1, r.within(33, 65535) as i64, r.within(33, 200) as i64]
        }
        6 => {
            let any = r.within((1 << 23) + 1, 1 << 31) as i64;
            [1 << 23, (1 << 23) + 1, 1 << 31, (1 << 31) + 1, any, any, less(val, -1), less(1 << 32, val)]
        }
        7 => {
            let top = less(1 << 32, rng);
            [0, less(rng, 1), rng, less(top, 1), top, r.below(1 << 31) as i64, word, r.below(1 << 23) as i64]
        }
        // A long run of waiting bytes takes long to write, and is rare.
        8 => [0, 1, 2, 5, 40, if r.below(16) == 0 { 65535 } else { 65536 }, 65536, r.below(1300) as i64],
        9 => [-1, 0, 255, 256, -2, r.below(256) as i64, r.below(256) as i64, -1],
        10 => [0, 1, -1, 2, -2, 0, 1, -1],
        _ => [0, 1, -1, 2, 0, 1, 0, 0],
    };
    (place, if r.below(4) == 0 { far } else { r.one_of(&near) })
}
