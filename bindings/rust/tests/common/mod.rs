//! What the tests share: numbers from a seed, and document 01's rule of a state, written out once more in Rust.
#![allow(dead_code)]

pub struct Random(pub u64);

impl Random {
    pub fn next(&mut self) -> u64 {
        // xorshift64*
        self.0 ^= self.0 >> 12;
        self.0 ^= self.0 << 25;
        self.0 ^= self.0 >> 27;
        self.0.wrapping_mul(0x2545_f491_4f6c_dd1d)
    }

    /// Below n.
    pub fn below(&mut self, n: u64) -> u64 {
        (self.next() >> 11) % n
    }

    pub fn one_of<T: Copy>(&mut self, from: &[T]) -> T {
        from[self.below(from.len() as u64) as usize]
    }
}

fn u32s(numbers: &[i64]) -> bool {
    numbers.iter().all(|&n| (0..=0xffff_ffff).contains(&n))
}

/// What is the same for reader and writer.
fn counts(s: &[i64]) -> bool {
    s[0] <= 1275 && s[6] > 1 << 23 && s[6] <= 1 << 31 && s[3] <= 32 && (33..=65_535).contains(&s[4])
}

pub fn reader_ok(s: &[i64]) -> bool {
    u32s(&s[..10]) && counts(s) && s[7] < s[6] && s[5] <= s[0] && s[1] <= s[0] && s[9] <= 255
}

pub fn writer_ok(s: &[i64]) -> bool {
    u32s(&s[..9]) && counts(s) && s[5] + s[1] <= s[0] && s[7] + s[6] < 1 << 32 && (-1..=255).contains(&s[9]) && s[8] <= 65_535
}

/// Bits used, of a good state.
pub fn tell(s: &[i64]) -> i64 {
    s[4] - (64 - i64::from(s[6].leading_zeros()))
}

/// The refusal of a read whose numbers are good, over n bytes.
pub fn read_refusal(s: &[i64], n: usize) -> u32 {
    if s[0] != n as i64 {
        2
    } else if !reader_ok(s) {
        1
    } else if tell(s) > 8 * s[0] + 32 {
        4
    } else {
        0
    }
}

/// The refusal of a close over n bytes.
pub fn close_refusal(s: &[i64], n: usize) -> u32 {
    if s[0] != n as i64 {
        2
    } else if !writer_ok(s) {
        1
    } else if s[11] != 0 {
        12
    } else {
        0
    }
}

/// The refusal of a write whose numbers are good, over n bytes.
pub fn write_refusal(s: &[i64], n: usize) -> u32 {
    match close_refusal(s, n) {
        0 if tell(s) > 8 * s[0] + 32 => 4,
        no => no,
    }
}

/// A state over n bytes: mostly good numbers, and some that lie at a border, past it, or far off.
pub fn some_state(random: &mut Random, n: usize) -> [i64; 12] {
    let n = n as i64;
    let far = [i64::MIN, i64::MIN + 1, -(1 << 32), -2, -1, 256, 1 << 32, (1 << 32) - 1, i64::MAX];
    let mut s = [
        n,
        random.below(n as u64 + 1) as i64,
        random.below(1 << 32) as i64,
        random.below(33) as i64,
        33 + random.below(300) as i64,
        random.below(n as u64 + 1) as i64,
        (1 << 23) + 1 + random.below((1 << 31) - (1 << 23)) as i64,
        0,
        random.below(3) as i64,
        random.below(257) as i64 - 1,
        random.below(2) as i64 - 1,
        0,
    ];
    s[7] = random.below(s[6] as u64) as i64;
    let borders = [
        vec![n - 1, n + 1, 1275, 1276],
        vec![n, n + 1],
        vec![(1 << 32) - 1],
        vec![32, 33],
        vec![0, 32, 33, 65_535, 65_536, 8 * n + 64, 8 * n + 65],
        vec![n, n + 1],
        vec![0, 1, 1 << 23, (1 << 23) + 1, 1 << 31, (1 << 31) + 1],
        vec![s[6], s[6] - 1, (1 << 32) - s[6], (1 << 32) - s[6] - 1],
        vec![65_535, 65_536, (1 << 32) - 1],
        vec![-2, -1, 0, 255, 256],
        vec![1, -1, i64::MIN, i64::MAX],
        vec![1, -1, i64::MIN, i64::MAX],
    ];
    for _ in 0..random.below(3) {
        let place = random.below(12) as usize;
        s[place] = if random.below(2) == 0 {
            random.one_of(&far)
        } else {
            random.one_of(&borders[place])
        };
    }
    s
}
