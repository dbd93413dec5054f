//! Shapes of bands. A request is one line that stands for itself. The crate answers it; it has no decode_pulses, so that libopus' own reads the
//! vector. libopus' whole alg_unquant must agree in every bit. Document 01's refusals stand around both, which have none.
//!
//!     U numbers    reads a shape
//!
//! The numbers are decimal: the reader's state before the call, storage offs ends window waiting total rng val ext rem error; then N K spread B;
//! the gain by its bits; how many places are lent; how many bytes; the bytes.
//!
//! Before the call every lent place holds 0.5. An answer is U, the collapse mask and the state after the call as in coder.rs; a refusal is X and
//! its number. Then, of both, | and each place by the eight hex digits of its bits.
use crate::states::{self, List, State};
use crate::words::count;
use crate::{coder, refusals, Side};
use oracle::celt::entcode::{ec_ctx_saved, ec_tell, ec_tell_frac};
use oracle::celt::{cwrs, entdec, vq};
use oracle::libopus;

/// A request.
#[derive(Clone)]
pub struct Asked {
    pub state: State,
    pub n: i32,
    pub k: i32,
    pub spread: i32,
    pub b: i32,
    pub gain: u32,
    pub places: usize,
    pub bytes: Vec<u8>,
}

/// What is answered beside the refusals.
#[derive(Clone, PartialEq)]
pub struct Given {
    pub mask: u32,
    pub shape: Vec<u32>,
    pub state: State,
    pub tell: u32,
    pub frac: u32,
}

pub fn bits_of(x: &[f32]) -> Vec<u32> {
    x.iter().map(|v| v.to_bits()).collect()
}

impl Asked {
    pub fn line(&self) -> String {
        let mut words = vec!["U".to_string()];
        words.extend(self.state.iter().map(u32::to_string));
        words.extend([self.n, self.k, self.spread, self.b].iter().map(i32::to_string));
        words.extend([self.gain.to_string(), self.places.to_string(), self.bytes.len().to_string()]);
        words.extend(self.bytes.iter().map(u8::to_string));
        words.join(" ")
    }

    pub fn of(line: &str) -> Self {
        let no = || -> ! { panic!("'{line}' is no request") };
        let mut words = line.split(' ');
        if words.next() != Some("U") {
            no()
        }
        let n: Vec<i64> = words.map(|w| w.parse().unwrap_or_else(|_| no())).collect();
        if n.len() < 18 || n.len() != 18 + n[17] as usize {
            no()
        }
        Asked {
            state: std::array::from_fn(|at| n[at] as u32),
            n: n[11] as i32, k: n[12] as i32, spread: n[13] as i32, b: n[14] as i32, gain: n[15] as u32, places: n[16] as usize,
            bytes: n[18..].iter().map(|&b| b as u8).collect(),
        }
    }

    /// N 2..176, K 1..128, spread 0..3, B 1..16 dividing N.
    fn numbers_ok(&self) -> bool {
        let range = (2..=176).contains(&self.n) && (1..=128).contains(&self.k) && (0..=3).contains(&self.spread);
        range && (1..=16).contains(&self.b) && self.n % self.b == 0
    }

    /// Document 01's number of the refusal, 0 for none: 2, 1, 3, 7, 9, 4, whichever is met first.
    pub fn refusal(&self) -> u32 {
        self.refusal_of(&states::list(&self.state, 0, false))
    }

    /// The same with another state.
    pub fn refusal_of(&self, list: &List) -> u32 {
        let numbers = self.numbers_ok();
        let own = if numbers && count(self.n as u32, self.k as u32).is_none() {
            7
        } else if numbers && 2 * self.k < self.n && self.spread != 0 {
            9
        } else {
            0
        };
        refusals::first(
            list[0] == self.bytes.len() as i64 && self.n as i64 == self.places as i64,
            states::list_ok(list, false) && numbers,
            f32::from_bits(self.gain).abs() <= 1.0,
            own,
            true,
            states::list_tell(list) <= 8 * self.bytes.len() as i64 + 32,
        )
    }

    /// The lent shape before the call.
    pub fn lent(&self) -> Vec<f32> {
        vec![0.5; self.places]
    }

    /// The crate's answer to a request that is not refused, from a reader's state; libopus' decode_pulses reads the vector.
    pub fn by_crate(&self, at: ec_ctx_saved) -> Given {
        let (mut x, mut bytes) = (self.lent(), self.bytes.clone());
        let mut c = entdec::ec_dec_init(&mut bytes);
        c.restore(at);
        // The shape has N places, and the tables have the count.
        let mask = unsafe { vq::alg_unquant(x.as_mut_ptr(), self.n, self.k, self.spread, self.b, &mut c, f32::from_bits(self.gain)) };
        Given { mask, shape: bits_of(&x), state: coder::numbers(&c.save()), tell: ec_tell(&c) as u32, frac: ec_tell_frac(&c) }
    }

    /// libopus' answer to such a request.
    pub fn by_libopus(&self, at: ec_ctx_saved) -> Given {
        let (mut x, mut bytes) = (self.lent(), self.bytes.clone());
        let mut c = states::lent(&at, &mut bytes);
        // As above; the bytes outlive the calls.
        let (mask, frac) = unsafe {
            let mask = libopus::alg_unquant(x.as_mut_ptr(), self.n, self.k, self.spread, self.b, &mut c, f32::from_bits(self.gain));
            (mask, libopus::ec_tell_frac(&mut c))
        };
        let state = states::back(&c);
        Given { mask, shape: bits_of(&x), state, tell: states::tell(&state), frac }
    }

    /// Both oracles' answer, or the number of the refusal.
    pub fn given(&self) -> Result<Given, u32> {
        match self.refusal() {
            0 => {
                assert!(cwrs::has_count(self.n as u32, self.k as u32), "V({}, {}) is not in the oracles' tables", self.n, self.k);
                let at = states::saved(&self.state);
                let given = self.by_crate(at);
                assert!(given == self.by_libopus(at), "the crate and libopus differ at '{}'", self.line());
                Ok(given)
            }
            no => Err(no),
        }
    }
}

/// The oracles' side.
pub struct Oracle;

impl Side for Oracle {
    fn answer(&mut self, line: &str) -> Option<String> {
        let a = Asked::of(line);
        let (text, shape) = match a.given() {
            Ok(g) => {
                let numbers: Vec<u32> = [&[g.mask][..], &g.state, &[g.tell, g.frac]].concat();
                (numbers.iter().fold("U".to_string(), |text, v| format!("{text} {v}")), g.shape)
            }
            Err(no) => (format!("X {no}"), bits_of(&a.lent())),
        };
        let shape: String = shape.iter().map(|v| format!("{v:08x}")).collect();
        Some(format!("{text} | {shape}"))
    }
}
