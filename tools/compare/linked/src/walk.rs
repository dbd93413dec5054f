//! Calls on a coder's state, step by step, by the port, the crate and libopus. Each side has its own bytes; after a call that all answer alike the
//! bytes are the same, and so one state serves the three. Every list is lent from the middle of a longer one, and all of that is compared, so that
//! a write beside a list shows.
//!
//! Symbols and Laplace values are answered by both oracles, pulse words by libopus alone: the crate's files lack them. tell is the crate's.
use crate::exports;
use crate::steps::{vector, Ask, Lent, Step};
use crate::tally::{Tally, Why};
use driver::coder::{by_crate, by_libopus, Call, Left};
use driver::random::Random;
use driver::states::{self, list_ok, list_tell, List};
use driver::{pulse_sequences, refusals, words};
use oracle::celt::entcode::{ec_ctx_saved, ec_tell, ec_tell_frac};
use oracle::celt::{cwrs, entenc};
use oracle::libopus;
use std::panic::{catch_unwind, AssertUnwindSafe};

/// The elements before and after each lent list.
const GUARD: usize = 4;
/// What stands in them, and in a list for a result before the call.
const KEPT: u32 = 0x5eed_5eed;
/// The places of a vector.
pub const ROOM: usize = 176;

/// Something differs; the same steps, replayed, say what.
pub struct Differs;

/// What a call left: its number, and the lists with what stands beside them.
struct Answer {
    no: u32,
    state: [i64; 12 + 2 * GUARD],
    value: [u32; 1 + 2 * GUARD],
}

/// A longer list of which the state is the middle.
fn widened(state: &List) -> [i64; 12 + 2 * GUARD] {
    let mut wide = [KEPT as i64; 12 + 2 * GUARD];
    wide[GUARD..GUARD + 12].copy_from_slice(state);
    wide
}

pub struct Walk {
    pub state: List,
    bytes: [Vec<u8>; 3],
    places: [[i32; ROOM + 2 * GUARD]; 3],
    /// The steps since the bytes were new.
    pub log: Vec<Step>,
    /// What differs is written down.
    careful: bool,
    pub said: String,
}

impl Walk {
    pub fn new() -> Self {
        let mut w = Walk {
            state: [0; 12],
            bytes: [vec![], vec![], vec![]],
            places: [[0; ROOM + 2 * GUARD]; 3],
            log: vec![],
            careful: false,
            said: String::new(),
        };
        w.bytes(0, 0);
        w
    }

    /// A walk that writes down what differs, for which it keeps the bytes as they were before each call.
    pub fn careful() -> Self {
        Walk { careful: true, ..Walk::new() }
    }

    /// How many bytes are lent.
    pub fn storage(&self) -> usize {
        self.bytes[0].len() - 2 * GUARD
    }

    pub fn lent_bytes(&self) -> &[u8] {
        &self.bytes[0][GUARD..GUARD + self.storage()]
    }

    pub fn places(&self) -> &[i32] {
        &self.places[0][GUARD..GUARD + ROOM]
    }

    /// New bytes, and a state of zeros; the steps begin anew.
    pub fn bytes(&mut self, storage: usize, fill: u8) {
        self.log.clear();
        self.log.push(Step::Bytes(storage as u16, fill));
        self.state = [0; 12];
        self.places = [[0; ROOM + 2 * GUARD]; 3];
        for bytes in &mut self.bytes {
            bytes.clear();
            bytes.resize(GUARD, KEPT as u8);
            bytes.resize(GUARD + storage, fill);
            bytes.resize(2 * GUARD + storage, KEPT as u8);
        }
    }

    /// A step that only prepares a call.
    pub fn prepare(&mut self, step: Step) {
        self.log.push(step);
        match step {
            Step::Bytes(storage, fill) => self.bytes(storage as usize, fill),
            Step::Chance(seed) => {
                let mut r = Random::new(seed);
                for place in 0..self.storage() {
                    let b = r.below(256);
                    let v = [0, 128, 255, b, b, b, b, b][r.below(8) as usize] as u8;
                    self.bytes.iter_mut().for_each(|bytes| bytes[GUARD + place] = v);
                }
            }
            Step::Byte(place, v) => {
                if (place as usize) < self.storage() {
                    self.bytes.iter_mut().for_each(|bytes| bytes[GUARD + place as usize] = v);
                }
            }
            Step::Number(place, v) => self.state[place as usize] = v,
            Step::Vector(n, k, seed) => self.lay(&vector(n as usize, k, seed)[..n as usize]),
            Step::Numbered(n, k, number) => {
                let ft = words::count(n, k).expect("a count");
                self.lay(&pulse_sequences::vector((n, k), number, ft)[..n as usize]);
            }
            Step::Place(place, v) => self.places.iter_mut().for_each(|places| places[GUARD + place as usize] = v),
            Step::Ask(..) => unreachable!("a call is asked"),
        }
    }

    /// The first places of all sides.
    fn lay(&mut self, vector: &[i32]) {
        self.places.iter_mut().for_each(|places| places[GUARD..GUARD + vector.len()].copy_from_slice(vector));
    }

    /// The bytes and the state are put back; all sides have the same bytes.
    pub fn put_back(&mut self, state: &List, bytes: &[u8], steps: usize) {
        self.state = *state;
        self.bytes.iter_mut().for_each(|own| own[GUARD..GUARD + bytes.len()].copy_from_slice(bytes));
        self.log.truncate(steps);
    }

    /// Document 01's refusal of a call, 0 for none.
    fn refusal(&self, ask: &Ask, lent: &Lent, bytes: usize) -> u32 {
        let writes = ask.writes();
        let lists = lent.state == 0 && (lent.value == 0 || !ask.has_value());
        let fits = lists && self.state[0] == bytes as i64;
        let state = || list_ok(&self.state, writes);
        let open = !writes || self.state[11] == 0;
        let room = || list_tell(&self.state) <= 8 * bytes as i64 + 32;
        match ask {
            Ask::Symbol(Call::Writer | Call::Reader) => refusals::first(lists, bytes <= 1275, true, 0, true, true),
            Ask::Symbol(Call::Close) => refusals::first(fits, state(), true, 0, open, true),
            Ask::Symbol(call) => {
                let (lengths, numbers, table) = call.domain();
                let state = state();
                refusals::first(lengths && fits, numbers && state, table, 0, open, state && room())
            }
            Ask::DecTell | Ask::DecTellFrac | Ask::EncTell | Ask::EncTellFrac => refusals::first(lists, state(), true, 0, true, true),
            Ask::PutPulses(n, k) | Ask::GetPulses(n, k) => {
                let domain = words::in_domain(*n, *k);
                let own = if domain { words::own_refusal(self.places(), *n, *k, writes) } else { 0 };
                let state = state();
                refusals::first(fits && lent.places == 0, state && domain, true, own, open, state && room())
            }
        }
    }

    /// The port's answer; it has its own bytes and places.
    fn ours(&mut self, ask: &Ask, lent: &Lent, bytes: usize) -> Answer {
        let mut state = widened(&self.state);
        let mut value = [KEPT; 1 + 2 * GUARD];
        let mut signed = [KEPT as i32; 1 + 2 * GUARD];
        let l = &mut state[GUARD..(GUARD as i32 + 12 + lent.state as i32) as usize];
        let to = (GUARD as i32 + 1 + lent.value as i32) as usize;
        let v = &mut value[GUARD..to];
        let z = &mut signed[GUARD..to];
        let s = &mut self.bytes[0][GUARD..GUARD + bytes];
        let y = &mut self.places[0][GUARD..(GUARD as i32 + ROOM as i32 + lent.places as i32) as usize];
        let no = match *ask {
            Ask::Symbol(call) => match call {
                Call::Writer => exports::enc_new(l, s),
                Call::PutBit(v, logp) => exports::enc_bit_logp(l, s, v, logp),
                Call::PutTable(v, table, ftb) => exports::enc_icdf(l, s, v, table, ftb),
                Call::PutUniform(v, ft) => exports::enc_uint(l, s, v, ft),
                Call::PutRaw(v, bits) => exports::enc_bits(l, s, v, bits),
                Call::Close => exports::enc_close(l, s),
                Call::Reader => exports::dec_new(l, s),
                Call::GetBit(logp) => exports::dec_bit_logp(l, s, logp, v),
                Call::GetTable(table, ftb) => exports::dec_icdf(l, s, table, ftb, v),
                Call::GetUniform(ft) => exports::dec_uint(l, s, ft, v),
                Call::GetRaw(bits) => exports::dec_bits(l, s, bits, v),
                Call::PutLaplace(value, fs, decay) => exports::laplace_encode(l, s, value, fs, decay, z),
                Call::GetLaplace(fs, decay) => exports::laplace_decode(l, s, fs, decay, z),
            },
            Ask::DecTell => exports::dec_tell(l, v),
            Ask::DecTellFrac => exports::dec_tell_frac(l, v),
            Ask::EncTell => exports::enc_tell(l, v),
            Ask::EncTellFrac => exports::enc_tell_frac(l, v),
            Ask::PutPulses(n, k) => exports::encode_pulses(l, s, y, n, k),
            Ask::GetPulses(n, k) => exports::decode_pulses(l, s, y, n, k, v),
        };
        if matches!(ask, Ask::Symbol(Call::PutLaplace(..) | Call::GetLaplace(..))) {
            value = signed.map(|v| v as u32);
        }
        Answer { no, state, value }
    }

    /// An oracle's bytes, as many as are lent to the port.
    fn oracle_bytes(&mut self, side: usize, bytes: usize) -> &mut [u8] {
        &mut self.bytes[side][GUARD..GUARD + bytes]
    }

    /// What the crate leaves, unless it panics or lacks the call, and what libopus leaves.
    fn oracles(&mut self, ask: &Ask, bytes: usize) -> (Option<Left>, Option<Left>) {
        let at = states::list_saved(&self.state, ask.writes());
        match ask {
            Ask::Symbol(call) => {
                let first = catch_unwind(AssertUnwindSafe(|| by_crate(self.oracle_bytes(1, bytes), at, call))).ok();
                let second = by_libopus(self.oracle_bytes(2, bytes), at, call);
                if first.is_none() {
                    self.as_libopus();
                }
                (first, Some(second))
            }
            Ask::PutPulses(n, k) | Ask::GetPulses(n, k) => {
                let left = self.pulses_by_libopus(&at, bytes, *n as i32, *k as i32, ask.writes());
                self.as_libopus();
                (None, Some(left))
            }
            _ => {
                let mut none = [];
                let mut c = entenc::ec_enc_init(&mut none);
                c.restore(at);
                let (tell, frac) = (ec_tell(&c) as u32, ec_tell_frac(&c));
                let whole = matches!(ask, Ask::DecTell | Ask::EncTell);
                let first = Left { value: if whole { tell } else { frac }, at, tell, frac };
                // libopus' archive has tell_frac alone; tell stands in a header.
                let frac = unsafe { libopus::ec_tell_frac(&mut states::lent(&at, &mut [])) };
                (Some(first), (!whole).then_some(Left { value: frac, at, tell, frac }))
            }
        }
    }

    /// Where libopus alone answers, the crate's bytes and places become its own.
    fn as_libopus(&mut self) {
        let [_, first, second] = &mut self.bytes;
        first.copy_from_slice(second);
        self.places[1] = self.places[2];
    }

    fn pulses_by_libopus(&mut self, at: &ec_ctx_saved, bytes: usize, n: i32, k: i32, writes: bool) -> Left {
        let mut c = states::lent(at, self.oracle_bytes(2, bytes));
        let y = self.places[2][GUARD..].as_mut_ptr();
        // The places suffice for every n, and each row of the tables that the call reads has the entry.
        let value = unsafe {
            if writes {
                libopus::encode_pulses(y, n, k, &mut c);
                0
            } else {
                libopus::decode_pulses(y, n, k, &mut c) as u32
            }
        };
        Left { value, at: states::saved_back(&c), tell: 0, frac: 0 }
    }

    /// Asks all sides. Gives the number of the refusal, 0 for none.
    pub fn ask(&mut self, ask: Ask, lent: Lent, tally: &mut Tally) -> Result<u32, Differs> {
        self.log.push(Step::Ask(ask, lent));
        let bytes = (self.storage() as i32 + lent.bytes as i32).max(0) as usize;
        let no = self.refusal(&ask, &lent, bytes);
        if let (0, Ask::PutPulses(n, k) | Ask::GetPulses(n, k)) = (no, ask) {
            if !cwrs::has_count(n, k) {
                tally.apart(ask.name(), Why::NoCount, || format!("{ask:?}"));
                return Ok(0);
            }
        }
        let before = self.careful.then(|| (self.bytes[0].clone(), self.places[0]));
        let answer = self.ours(&ask, &lent, bytes);
        let (first, second) = if no == 0 { self.oracles(&ask, bytes) } else { (None, None) };
        // What the lists must hold then.
        let mut next = self.state;
        let mut value = KEPT;
        if let Some(left) = first.or(second) {
            let closes = matches!(ask, Ask::Symbol(Call::Close));
            if !matches!(ask, Ask::DecTell | Ask::DecTellFrac | Ask::EncTell | Ask::EncTellFrac) {
                next = states::saved_list(&left.at, closes as i64);
            }
            if ask.has_value() {
                value = left.value;
            }
        }
        let mut values = [KEPT; 1 + 2 * GUARD];
        values[GUARD] = value;
        let oracles = match (&first, &second) {
            (Some(a), Some(b)) => states::saved_list(&a.at, 0) == states::saved_list(&b.at, 0) && a.value == b.value && self.bytes[1] == self.bytes[2],
            _ => true,
        };
        let same = answer.no == no && answer.state == widened(&next) && answer.value == values && self.bytes[0] == self.bytes[1];
        let pulses = matches!(ask, Ask::PutPulses(..) | Ask::GetPulses(..));
        if !(same && oracles) || pulses && self.places[0] != self.places[1] {
            if let Some((bytes, places)) = before {
                self.said = self.difference(&ask, &lent, &bytes, &places, no, &answer, (first, second));
            }
            return Err(Differs);
        }
        if no == 0 && first.is_none() && !pulses {
            tally.apart(ask.name(), Why::CratePanics, || format!("{ask:?}, state {:?}", self.state));
        }
        self.state = next;
        tally.alike(ask.name(), no);
        Ok(no)
    }

    /// The call with its whole input, and what each side left.
    fn difference(
        &self, ask: &Ask, lent: &Lent, bytes: &[u8], places: &[i32], no: u32, answer: &Answer, oracles: (Option<Left>, Option<Left>),
    ) -> String {
        let inner = |list: &[u8]| hex(&list[GUARD..list.len() - GUARD]);
        let pulses = matches!(ask, Ask::PutPulses(..) | Ask::GetPulses(..));
        let vector = |list: &[i32]| if pulses { format!("; places {}", placed(&list[GUARD..GUARD + ROOM])) } else { String::new() };
        let mut text = format!("{} differs: {ask:?}", crate::tally::NAMES[ask.name() as usize]);
        if *lent != Lent::default() {
            text += &format!(" {lent:?}");
        }
        text += &format!("\n  input    state {:?}; bytes {}{}", self.state, inner(bytes), vector(places));
        let left = &answer.state[GUARD..GUARD + 12];
        let signed = matches!(ask, Ask::Symbol(Call::PutLaplace(..) | Call::GetLaplace(..)));
        let number = |v: u32| if signed { (v as i32).to_string() } else { v.to_string() };
        let value = |v: u32| if ask.has_value() { format!("value {}; ", number(v)) } else { String::new() };
        let (given, after) = (value(answer.value[GUARD]), vector(&self.places[0]));
        text += &format!("\n  port     {}; {given}state {left:?}; bytes {}{after}", answer.no, inner(&self.bytes[0]));
        if no != 0 {
            text += &format!("\n  expected refusal {no}, and every list as it was");
        }
        for (name, side, left) in [("crate", 1, oracles.0), ("libopus", 2, oracles.1)] {
            if let Some(left) = left {
                let closes = matches!(ask, Ask::Symbol(Call::Close));
                let (state, value, after) = (states::saved_list(&left.at, closes as i64), value(left.value), vector(&self.places[side]));
                text += &format!("\n  {name:8} 0; {value}state {state:?}; bytes {}{after}", inner(&self.bytes[side]));
            }
        }
        let beside = answer.state[..GUARD].iter().chain(&answer.state[GUARD + 12..]).any(|&v| v != KEPT as i64)
            || answer.value[..GUARD].iter().chain(&answer.value[GUARD + 1..]).any(|&v| v != KEPT)
            || self.bytes[0].iter().take(GUARD).chain(self.bytes[0].iter().rev().take(GUARD)).any(|&v| v != KEPT as u8);
        text + if beside { "\n  the port wrote beside a lent list" } else { "" }
    }
}

pub fn hex(bytes: &[u8]) -> String {
    let text: String = bytes.iter().map(|b| format!("{b:02x}")).collect();
    if text.is_empty() { "none".to_string() } else { text }
}

/// The places that are not zero, with their numbers.
fn placed(y: &[i32]) -> String {
    let list: Vec<String> = y.iter().enumerate().filter(|(_, &v)| v != 0).map(|(at, v)| format!("{at}: {v}")).collect();
    if list.is_empty() { "all zero".to_string() } else { list.join(", ") }
}
