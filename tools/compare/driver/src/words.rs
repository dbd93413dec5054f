//! Requests of Laplace values and pulse words. The crate answers Laplace values, and libopus must agree. The crate has no encode_pulses and no
//! decode_pulses, so that libopus alone answers pulse words. S, D, C, O, K and k are the range coder's requests (coder.rs), with its answers.
//!
//!     P fs decay        the pair of later L and l
//!     L value           writes a value                                  l        reads one
//!     Z                 the 176 places are zero                         A place value    one is the value
//!     W n k             writes the vector in the first n places         w n k    reads one into them
//!
//! Of L and l the answer is the letter, the value that counts as written or was read, and the state as in coder.rs. Of W it is the
//! letter, total, rng and val; of w the letter, the energy, error, total, rng and val, and then each place of the 176 that is not zero,
//! with its value. P, Z and A have no answer.
use crate::coder::{self, Call, Stage};
use crate::random::Random;
use crate::{Sequence, Side};
use oracle::celt::entcode::ec_tell;
use oracle::celt::{cwrs, entdec, entenc};
use std::sync::OnceLock;

/// V(n, k), the number of vectors of n places and k pulses, where it is below 2^32.
pub fn count(n: u32, k: u32) -> Option<u32> {
    static COUNTS: OnceLock<Vec<Vec<u64>>> = OnceLock::new();
    let counts = COUNTS.get_or_init(|| {
        let mut v = vec![vec![1u64; 129]; 177];
        for n in 0..177 {
            for k in 1..129 {
                v[n][k] = if n == 0 { 0 } else { (v[n - 1][k] + v[n][k - 1] + v[n - 1][k - 1]).min(1 << 40) };
            }
        }
        v
    });
    u32::try_from(counts[n as usize][k as usize]).ok()
}

/// N 2..176 and K 1..128.
pub fn in_domain(n: u32, k: u32) -> bool {
    (2..=176).contains(&n) && (1..=128).contains(&k)
}

/// A vector's own refusal, of N and K in their domain: 7 where the count is 2^32 or more, 8 where a vector to write has another sum; 0 for none.
pub fn own_refusal(places: &[i32], n: u32, k: u32, writes: bool) -> u32 {
    let pulses = || places[..n as usize].iter().map(|v| v.unsigned_abs() as u64).sum::<u64>();
    match count(n, k) {
        None => 7,
        Some(_) if writes && pulses() != k as u64 => 8,
        _ => 0,
    }
}

/// The oracles' side of a sequence.
#[derive(Clone)]
pub struct Oracle {
    pub coder: coder::Oracle,
    pair: (u32, u32),
    places: [i32; 176],
}

impl Oracle {
    pub fn new() -> Self {
        Oracle { coder: coder::Oracle::new(), pair: (0, 0), places: [0; 176] }
    }

    /// Document 01's refusals of a vector's call. own: its own, 7 or 8, which 2, 1 and 3 go before.
    fn refusal(&self, n: u32, k: u32, own: u32) -> u32 {
        match self.coder.with_state(self.coder.refusal(true, in_domain(n, k), true)) {
            0 | 4 | 12 if own != 0 => own,
            no => no,
        }
    }

    fn own(&self, n: u32, k: u32, writes: bool) -> u32 {
        if in_domain(n, k) { own_refusal(&self.places, n, k, writes) } else { 0 }
    }

    fn put_vector(&mut self, n: u32, k: u32) -> String {
        let no = self.refusal(n, k, self.own(n, k, true));
        if no != 0 {
            return format!("X {no}");
        }
        assert!(cwrs::has_count(n, k), "V({n}, {k}) is not in the oracles' tables");
        let mut c = entenc::ec_enc_init(&mut self.coder.bytes);
        c.restore(self.coder.at);
        // Each row of the tables that the call reads has the entry.
        unsafe { cwrs::encode_pulses(self.places.as_mut_ptr(), n as i32, k as i32, &mut c) };
        let (at, tell) = (c.save(), ec_tell(&c) as u32);
        (self.coder.at, self.coder.tell) = (at, tell);
        format!("W {} {} {}", at.nbits_total, at.rng, at.val)
    }

    fn get_vector(&mut self, n: u32, k: u32) -> String {
        let no = self.refusal(n, k, self.own(n, k, false));
        if no != 0 {
            return format!("X {no}");
        }
        assert!(cwrs::has_count(n, k), "V({n}, {k}) is not in the oracles' tables");
        let mut c = entdec::ec_dec_init(&mut self.coder.bytes);
        c.restore(self.coder.at);
        // The vector has room for 176 numbers, and each row of the tables that the call reads has the entry.
        let energy = unsafe { cwrs::decode_pulses(self.places.as_mut_ptr(), n as i32, k as i32, &mut c) };
        let (at, tell) = (c.save(), ec_tell(&c) as u32);
        (self.coder.at, self.coder.tell) = (at, tell);
        let placed = self.places.iter().enumerate().filter(|(_, &v)| v != 0);
        let placed: String = placed.map(|(place, v)| format!(" {place} {v}")).collect();
        format!("w {energy} {} {} {} {}{placed}", (at.error != 0) as u32, at.nbits_total, at.rng, at.val)
    }

}

impl Side for Oracle {
    fn answer(&mut self, line: &str) -> Option<String> {
        let mut words = line.split(' ');
        let letter = words.next().unwrap_or("");
        let n: Vec<i64> = words.map(|w| w.parse().unwrap_or_else(|_| panic!("'{line}' is no request"))).collect();
        let (fs, decay) = self.pair;
        let writes = matches!(self.coder.stage, Stage::Writing | Stage::Closed);
        let reads = self.coder.stage == Stage::Reading;
        match (letter, n.as_slice()) {
            ("S" | "D" | "C" | "O" | "K" | "k", _) => self.coder.answer(line),
            ("P", &[fs, decay]) => {
                self.pair = (fs as u32, decay as u32);
                None
            }
            ("Z", []) => {
                self.places = [0; 176];
                None
            }
            ("A", &[place, value]) => {
                self.places[place as usize] = value as i32;
                None
            }
            ("L", &[value]) if writes => Some(self.coder.call(letter, Call::PutLaplace(value as i32, fs, decay))),
            ("W", &[n, k]) if writes => Some(self.put_vector(n as u32, k as u32)),
            ("l", []) if reads => Some(self.coder.call(letter, Call::GetLaplace(fs, decay))),
            ("w", &[n, k]) if reads => Some(self.get_vector(n as u32, k as u32)),
            _ => panic!("'{line}' is no request here"),
        }
    }
}

/// A sequence as it grows, with the oracles' state after each request.
pub struct Maker {
    pub lines: Sequence,
    pub oracle: Oracle,
}

impl Maker {
    pub fn new(storage: u32, fill: u32) -> Self {
        let mut m = Maker { lines: vec![], oracle: Oracle::new() };
        m.ask(format!("S {storage} {fill}"));
        m
    }

    /// Makes a request; true where it is refused.
    pub fn ask(&mut self, line: String) -> bool {
        let answer = self.oracle.answer(&line);
        self.lines.push(line);
        answer.is_some_and(|a| a.starts_with('X'))
    }

    pub fn ask_all(&mut self, lines: &[&str]) {
        for line in lines {
            self.ask(line.to_string());
        }
    }
    /// A reader over random bytes, of which many are 0, 128 or 255.
    pub fn open_any(&mut self, r: &mut Random, storage: u32) {
        for place in 0..storage {
            let b = r.below(256);
            self.ask(format!("D {place} {}", r.one_of(&[0, 128, 255, b])));
        }
        self.ask("O".to_string());
    }
}
