//! Energies of bands. A request is one line that stands for itself. The crate answers it, and libopus must agree in every bit and number.
//! Document 01's refusals stand around both, which have none.
//!
//!     E numbers    decodes coarse energies        F numbers    spends the last bits
//!
//! The numbers are decimal: the reader's state before the call, storage offs ends window waiting total rng val ext rem error; then C LM start end
//! intra, and the bits left, of which E passes over the last and F over LM and intra; then four lengths, of the energies, the fine bits, the
//! priorities and the bytes; then the energies by their bits, the fine bits, the priorities and the bytes.
//!
//! An answer is the request's letter and the state after the call as in coder.rs; a refusal is X and its number. Then, of both, | and each energy by
//! the eight hex digits of its bits; of a NaN, whose bits tell nothing, 7fc00000.
use crate::states::{self, List, State};
use crate::{coder, refusals, Side};
use oracle::celt::entcode::{ec_ctx_saved, ec_tell, ec_tell_frac};
use oracle::celt::{entdec, modes, quant_bands};
use oracle::libopus;

/// A request.
#[derive(Clone)]
pub struct Asked {
    pub coarse: bool,
    pub state: State,
    pub c: i32,
    pub lm: i32,
    pub start: i32,
    pub end: i32,
    pub intra: i32,
    pub left: i32,
    pub energies: Vec<u32>,
    pub fine: Vec<i32>,
    pub priorities: Vec<i32>,
    pub bytes: Vec<u8>,
}

/// What is answered beside the refusals.
#[derive(Clone, PartialEq)]
pub struct Given {
    pub energies: Vec<u32>,
    pub state: State,
    pub tell: u32,
    pub frac: u32,
}

fn listed<T: ToString>(list: &[T]) -> String {
    list.iter().map(|v| format!(" {}", v.to_string())).collect()
}

/// Bits; of a NaN, whose bits tell nothing, always the same.
pub fn bits_of(x: &[f32]) -> Vec<u32> {
    x.iter().map(|v| if v.is_nan() { 0x7fc0_0000 } else { v.to_bits() }).collect()
}

impl Asked {
    fn letter(&self) -> &'static str {
        if self.coarse { "E" } else { "F" }
    }

    pub fn line(&self) -> String {
        let numbers = [self.c, self.lm, self.start, self.end, self.intra, self.left];
        let lengths = [self.energies.len(), self.fine.len(), self.priorities.len(), self.bytes.len()];
        let lists = [listed(&self.energies), listed(&self.fine), listed(&self.priorities), listed(&self.bytes)].concat();
        [self.letter().to_string(), listed(&self.state), listed(&numbers), listed(&lengths), lists].concat()
    }

    pub fn of(line: &str) -> Self {
        let mut words = line.split(' ');
        let letter = words.next().unwrap_or("");
        assert!(matches!(letter, "E" | "F"), "'{line}' is no request");
        let n: Vec<i64> = words.map(|w| w.parse().unwrap_or_else(|_| panic!("'{line}' is no request"))).collect();
        let size = |at: usize| n[at] as usize;
        let whole = |at: usize| i32::try_from(n[at]).unwrap_or_else(|_| panic!("{} is no i32", n[at]));
        let [fine, priorities] = [21 + size(17), 21 + size(17) + size(18)];
        let bytes = priorities + size(19);
        assert!(n.len() == bytes + size(20), "'{line}' is no request");
        Asked {
            coarse: letter == "E",
            state: std::array::from_fn(|at| n[at] as u32),
            c: whole(11), lm: whole(12), start: whole(13), end: whole(14), intra: whole(15), left: whole(16),
            energies: n[21..fine].iter().map(|&v| v as u32).collect(),
            fine: (fine..priorities).map(whole).collect(),
            priorities: (priorities..bytes).map(whole).collect(),
            bytes: n[bytes..].iter().map(|&b| b as u8).collect(),
        }
    }

    /// The energies.
    pub fn floats(&self) -> Vec<f32> {
        self.energies.iter().map(|&v| f32::from_bits(v)).collect()
    }

    /// Document 01's number of the refusal, 0 for none: 2, 1, 3, 4, whichever is met first.
    pub fn refusal(&self) -> u32 {
        self.refusal_of(&states::list(&self.state, 0, false), true, 0)
    }

    /// The same with another state, and what a record's frame has beside it: whether its numbers are of the domain, and its own refusal.
    pub fn refusal_of(&self, list: &List, frames: bool, own: u32) -> u32 {
        let bands = (1..=2).contains(&self.c) && 0 <= self.start && self.start < self.end && self.end <= 21;
        let numbers = bands && (!self.coarse || (0..=3).contains(&self.lm) && (0..=1).contains(&self.intra));
        let lists = self.coarse || [self.fine.len(), self.priorities.len()] == [21; 2];
        let fines = self.fine.iter().all(|v| (0..=8).contains(v)) && self.priorities.iter().all(|v| (0..=1).contains(v));
        refusals::first(
            list[0] == self.bytes.len() as i64 && self.energies.len() == 42 && lists,
            states::list_ok(list, false) && numbers && frames,
            self.energies.iter().all(|&v| f32::from_bits(v).is_finite()) && (self.coarse || fines),
            own,
            true,
            states::list_tell(list) <= 8 * self.bytes.len() as i64 + 32,
        )
    }

    /// The crate's answer to a request that is not refused, from a reader's state.
    pub fn by_crate(&self, at: ec_ctx_saved) -> Given {
        let (mut x, mut bytes) = (self.floats(), self.bytes.clone());
        let (mut fine, mut priorities) = (self.fine.clone(), self.priorities.clone());
        let mut c = entdec::ec_dec_init(&mut bytes);
        c.restore(at);
        // There are 42 energies, and for F 21 fine bits and priorities.
        unsafe {
            let mode = modes::opus_custom_mode_create(48000, 960, &mut 0);
            if self.coarse {
                quant_bands::unquant_coarse_energy(mode, self.start, self.end, x.as_mut_ptr(), self.intra, &mut c, self.c, self.lm);
            } else {
                let (f, p) = (fine.as_mut_ptr(), priorities.as_mut_ptr());
                quant_bands::unquant_energy_finalise(mode, self.start, self.end, x.as_mut_ptr(), f, p, self.left, &mut c, self.c);
            }
        }
        Given { energies: bits_of(&x), state: coder::numbers(&c.save()), tell: ec_tell(&c) as u32, frac: ec_tell_frac(&c) }
    }

    /// libopus' answer to such a request.
    pub fn by_libopus(&self, at: ec_ctx_saved) -> Given {
        let (mut x, mut bytes) = (self.floats(), self.bytes.clone());
        let (mut fine, mut priorities) = (self.fine.clone(), self.priorities.clone());
        let mut c = states::lent(&at, &mut bytes);
        // As above; the bytes outlive the calls.
        let frac = unsafe {
            let mode = libopus::opus_custom_mode_create(48000, 960, &mut 0);
            if self.coarse {
                libopus::unquant_coarse_energy(mode, self.start, self.end, x.as_mut_ptr(), self.intra, &mut c, self.c, self.lm);
            } else {
                let (f, p) = (fine.as_mut_ptr(), priorities.as_mut_ptr());
                libopus::unquant_energy_finalise(mode, self.start, self.end, x.as_mut_ptr(), f, p, self.left, &mut c, self.c);
            }
            libopus::ec_tell_frac(&mut c)
        };
        let state = states::back(&c);
        Given { energies: bits_of(&x), state, tell: states::tell(&state), frac }
    }

    /// Both oracles' answer, or the number of the refusal.
    pub fn given(&self) -> Result<Given, u32> {
        match self.refusal() {
            0 => {
                let at = states::saved(&self.state);
                let given = self.by_crate(at);
                assert!(given == self.by_libopus(at), "the crate and libopus differ at '{}'", self.line());
                Ok(given)
            }
            no => Err(no),
        }
    }
}

/// The oracles' side.
pub struct Oracle;

impl Side for Oracle {
    fn answer(&mut self, line: &str) -> Option<String> {
        let a = Asked::of(line);
        let (text, energies) = match a.given() {
            Ok(g) => (format!("{}{} {} {}", a.letter(), listed(&g.state), g.tell, g.frac), g.energies),
            Err(no) => (format!("X {no}"), bits_of(&a.floats())),
        };
        let energies: String = energies.iter().map(|v| format!("{v:08x}")).collect();
        Some(format!("{text} | {energies}"))
    }
}
