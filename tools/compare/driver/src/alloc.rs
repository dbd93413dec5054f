//! Whole bit allocations. A request is one line that stands for itself. The crate answers it, and libopus must agree in every number and byte.
//! Document 01's refusals stand around both, which have none.
//!
//!     R numbers    reads an allocation            W numbers    writes one
//!
//! The numbers are decimal: the coder's state before the call, storage offs ends window waiting total rng val ext rem error closed, of which R passes
//! over closed; then C LM start end trim total intensity dual previous bandwidth, of which R passes over the last four; then six lengths, of
//! the offsets, the caps, the lists for pulses, fine bits and priorities, and the bytes; then the offsets, the caps and the bytes.
//!
//! Before the call the list for pulses holds -1 throughout, that for fine bits -2, and that for priorities -3. An answer is the request's letter and the
//! state after the call as in coder.rs, then, | before each: coded, balance, intensity and dual; the three lists whole; the bytes in hex.
//! A refusal is X and its number, and then the lists and the bytes as well.
use crate::{coder, refusals, states, Side};
use oracle::celt::entcode::{ec_ctx_saved, ec_tell, ec_tell_frac};
use oracle::celt::{entdec, entenc, modes, rate};
use oracle::libopus;

/// The numbers of a call.
#[derive(Clone, Copy, Debug)]
pub struct Numbers {
    pub c: i32,
    pub lm: i32,
    pub start: i32,
    pub end: i32,
    pub trim: i32,
    pub total: i32,
    pub intensity: i32,
    pub dual: i32,
    pub previous: i32,
    pub bandwidth: i32,
}

impl Numbers {
    /// Document 01's domain of the numbers.
    pub fn are_ok(&self, writes: bool) -> bool {
        let n = self;
        let stereo = (n.start..=n.end).contains(&n.intensity) && (0..=1).contains(&n.dual);
        (1..=2).contains(&n.c)
            && (0..=3).contains(&n.lm)
            && 0 <= n.start
            && n.start < n.end
            && n.end <= 21
            && (0..=10).contains(&n.trim)
            && n.total <= 81600
            && (!writes || n.c == 1 || stereo)
    }
}

/// Every offset and every cap is inside its range.
pub fn are_entries(offsets: &[i32], caps: &[i32]) -> bool {
    offsets.iter().all(|v| (0..=81600).contains(v)) && caps.iter().all(|v| (0..=32767).contains(v))
}

/// A coder's state in the port's encoding and order: storage offs ends window waiting total rng val ext rem error closed.
pub type State = [u32; 12];

/// A request.
#[derive(Clone)]
pub struct Asked {
    pub writes: bool,
    pub room: [usize; 3],
    pub numbers: Numbers,
    pub state: State,
    pub offsets: Vec<i32>,
    pub caps: Vec<i32>,
    pub bytes: Vec<u8>,
}

fn listed<T: ToString>(list: &[T]) -> String {
    list.iter().map(|v| format!(" {}", v.to_string())).collect()
}

impl Asked {
    pub fn line(&self) -> String {
        let Numbers { c, lm, start, end, trim, total, intensity, dual, previous, bandwidth } = self.numbers;
        let lengths = [&[self.offsets.len(), self.caps.len()][..], &self.room, &[self.bytes.len()]].concat();
        let numbers = [c, lm, start, end, trim, total, intensity, dual, previous, bandwidth];
        let letter = if self.writes { "W" } else { "R" };
        let lists = [listed(&self.offsets), listed(&self.caps), listed(&self.bytes)].concat();
        [letter.to_string(), listed(&self.state), listed(&numbers), listed(&lengths), lists].concat()
    }

    pub fn of(line: &str) -> Self {
        let mut words = line.split(' ');
        let letter = words.next().unwrap_or("");
        assert!(matches!(letter, "R" | "W"), "'{line}' is no request");
        let n: Vec<i64> = words.map(|w| w.parse().unwrap_or_else(|_| panic!("'{line}' is no request"))).collect();
        let size = |at: usize| n[at] as usize;
        let whole = |at: usize| i32::try_from(n[at]).unwrap_or_else(|_| panic!("{} is no i32", n[at]));
        let [offsets, caps, bytes] = [28, 28 + size(22), 28 + size(22) + size(23)];
        assert!(n.len() == bytes + size(27), "'{line}' is no request");
        Asked {
            writes: letter == "W",
            room: [size(24), size(25), size(26)],
            numbers: Numbers {
                c: whole(12), lm: whole(13), start: whole(14), end: whole(15), trim: whole(16), total: whole(17), intensity: whole(18),
                dual: whole(19), previous: whole(20), bandwidth: whole(21),
            },
            state: std::array::from_fn(|at| n[at] as u32),
            offsets: (offsets..caps).map(whole).collect(),
            caps: (caps..bytes).map(whole).collect(),
            bytes: n[bytes..].iter().map(|&b| b as u8).collect(),
        }
    }

    /// The state as the exported calls take it.
    pub fn list(&self) -> states::List {
        let [at @ .., closed] = self.state;
        states::list(&at, closed, self.writes)
    }

    /// Document 01's number of the refusal, 0 for none: 2, 1, 3, 12, 4, whichever is met first.
    pub fn refusal(&self) -> u32 {
        self.refusal_of(&self.list())
    }

    /// The same with another state.
    pub fn refusal_of(&self, list: &states::List) -> u32 {
        let lengths = [self.offsets.len(), self.caps.len(), self.room[0], self.room[1], self.room[2]];
        refusals::first(
            list[0] == self.bytes.len() as i64 && lengths == [21; 5],
            states::list_ok(list, self.writes) && self.numbers.are_ok(self.writes),
            are_entries(&self.offsets, &self.caps),
            0,
            !(self.writes && list[11] != 0),
            states::list_tell(list) <= 8 * self.bytes.len() as i64 + 32,
        )
    }

    /// The lists for the answer before the call.
    pub fn lists(&self) -> [Vec<i32>; 3] {
        std::array::from_fn(|at| vec![-1 - at as i32; self.room[at]])
    }

    /// The state in the crate's encoding: rem is -1 where none is held, and the error mark is 1 in a reader, -1 in a writer.
    pub fn saved(&self) -> ec_ctx_saved {
        let [storage, offs, end_offs, end_window, waiting, total, rng, val, ext, rem, error, _] = self.state;
        let marked = if self.writes { -1 } else { 1 };
        ec_ctx_saved {
            storage, offs, end_offs, end_window, nend_bits: waiting as i32, nbits_total: total as i32, rng, val, ext,
            rem: if rem == 256 { -1 } else { rem as i32 },
            error: if error == 0 { 0 } else { marked },
        }
    }
}

/// What an allocation answers.
#[derive(Clone, PartialEq)]
pub struct Given {
    pub coded: i32,
    pub balance: i32,
    pub intensity: i32,
    pub dual: i32,
    pub lists: [Vec<i32>; 3],
    pub bytes: Vec<u8>,
    pub at: [u32; 11],
    pub tell: u32,
    pub frac: u32,
}

/// The crate's answer to a request that is not refused, from a coder's state.
pub fn by_crate(a: &Asked, at: ec_ctx_saved) -> Given {
    let n = a.numbers;
    let mut bytes = a.bytes.clone();
    let (mut intensity, mut dual, mut balance) = (n.intensity, n.dual, 0);
    let mut lists = a.lists();
    let [pulses, fine, priorities] = &mut lists;
    let mut c = if a.writes { entenc::ec_enc_init(&mut bytes) } else { entdec::ec_dec_init(&mut bytes) };
    c.restore(at);
    // Every list has 21 entries, and start and end are bands of the mode.
    let coded = unsafe {
        let mode = modes::opus_custom_mode_create(48000, 960, &mut 0);
        rate::clt_compute_allocation(
            mode, n.start, n.end, a.offsets.as_ptr(), a.caps.as_ptr(), n.trim, &mut intensity, &mut dual, n.total, &mut balance,
            pulses.as_mut_ptr(), fine.as_mut_ptr(), priorities.as_mut_ptr(), n.c, n.lm, &mut c, a.writes as i32, n.previous, n.bandwidth,
        )
    };
    let (at, tell, frac) = (coder::numbers(&c.save()), ec_tell(&c) as u32, ec_tell_frac(&c));
    Given { coded, balance, intensity, dual, lists, bytes, at, tell, frac }
}

/// libopus' answer to such a request.
pub fn by_libopus(a: &Asked, at: ec_ctx_saved) -> Given {
    let n = a.numbers;
    let mut bytes = a.bytes.clone();
    let (mut intensity, mut dual, mut balance) = (n.intensity, n.dual, 0);
    let mut lists = a.lists();
    let [pulses, fine, priorities] = &mut lists;
    let mut c = states::lent(&at, &mut bytes);
    // As above; the bytes outlive the calls.
    let (coded, frac) = unsafe {
        let mode = libopus::opus_custom_mode_create(48000, 960, &mut 0);
        let coded = libopus::clt_compute_allocation(
            mode, n.start, n.end, a.offsets.as_ptr(), a.caps.as_ptr(), n.trim, &mut intensity, &mut dual, n.total, &mut balance,
            pulses.as_mut_ptr(), fine.as_mut_ptr(), priorities.as_mut_ptr(), n.c, n.lm, &mut c, a.writes as i32, n.previous, n.bandwidth,
        );
        (coded, libopus::ec_tell_frac(&mut c))
    };
    let left = states::saved_back(&c);
    let tell = (c.nbits_total - (32 - c.rng.leading_zeros() as i32)) as u32;
    Given { coded, balance, intensity, dual, lists, bytes, at: coder::numbers(&left), tell, frac }
}

impl Asked {
    /// What the oracles give, or the number of the refusal.
    pub fn given(&self) -> Result<Given, u32> {
        match self.refusal() {
            0 => {
                let given = by_crate(self, self.saved());
                assert!(given == by_libopus(self, self.saved()), "the crate and libopus differ at\n{}", self.line());
                Ok(given)
            }
            no => Err(no),
        }
    }

    fn answer(&self) -> String {
        let (mut text, lists, bytes) = match self.given() {
            Ok(g) => {
                let letter = if self.writes { "W" } else { "R" };
                let closed = if self.writes { listed(&self.state[11..]) } else { String::new() };
                let numbers = listed(&[g.coded, g.balance, g.intensity, g.dual]);
                (format!("{letter}{}{closed} {} {} |{numbers}", listed(&g.at), g.tell, g.frac), g.lists, g.bytes)
            }
            Err(no) => (format!("X {no}"), self.lists(), self.bytes.clone()),
        };
        for list in &lists {
            text += &format!(" |{}", listed(list));
        }
        let hex: String = bytes.iter().map(|b| format!("{b:02x}")).collect();
        format!("{text} | {hex}")
    }
}

/// The oracles' side.
pub struct Oracle;

impl Side for Oracle {
    fn answer(&mut self, line: &str) -> Option<String> {
        Some(Asked::of(line).answer())
    }
}
