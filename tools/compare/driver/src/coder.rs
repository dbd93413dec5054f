//! The range coder's requests, answered by the crate. libopus answers each one too, and the two must agree.
//! Document 01's refusals stand around the crate, which has none.
//!
//!     S storage fill    a new writer over bytes that all are fill          T ftb entry ..    the table of later I and i
//!     B value logp      U value ft      R value bits      I symbol         writes            C    close
//!     D place value     a byte is changed                                  O    a new reader over the bytes
//!     b logp            u ft            r bits            i                reads
//!     K state           a writer with these numbers                        k state    a reader, both over the bytes of the last S
//!
//! An answer is the request's letter, for a read its value, then the state: storage offs ends window waiting total rng val ext rem error,
//! for a writer closed, then tell and tell_frac. The bytes in hex follow a close, and up to 60 of them every write. A refusal is X and
//! its number; that of tell or tell_frac stands in its place. The state is in the port's encoding: rem is 256 where the crate has -1, error and
//! closed are 0 or 1. T and D have no answer.
use crate::{refusals, states, Side};
use oracle::celt::entcode::{ec_ctx_saved, ec_tell, ec_tell_frac};
use oracle::celt::{entdec, entenc, laplace, quant_bands};
use oracle::libopus;
use std::sync::OnceLock;

/// A call of the coder.
#[derive(Clone, Copy, Debug)]
pub enum Call<'a> {
    Writer,
    PutBit(u32, u32),
    PutTable(u32, &'a [u8], u32),
    PutUniform(u32, u32),
    PutRaw(u32, u32),
    Close,
    Reader,
    GetBit(u32),
    GetTable(&'a [u8], u32),
    GetUniform(u32),
    GetRaw(u32),
    PutLaplace(i32, u32, u32),
    GetLaplace(u32, u32),
}

/// What a call leaves: its value (0 for a write, but of a Laplace value the one that counts as written), the state, tell and tell_frac.
#[derive(Clone, Copy)]
pub struct Left {
    pub value: u32,
    pub at: ec_ctx_saved,
    pub tell: u32,
    pub frac: u32,
}

/// What the crate makes of a call that is not refused.
pub fn by_crate(bytes: &mut [u8], at: ec_ctx_saved, call: &Call) -> Left {
    let mut c = match call {
        Call::Reader => entdec::ec_dec_init(bytes),
        _ => entenc::ec_enc_init(bytes),
    };
    if !matches!(call, Call::Writer | Call::Reader) {
        c.restore(at);
    }
    let mut value = 0;
    match *call {
        Call::Writer | Call::Reader => (),
        Call::PutBit(v, logp) => entenc::ec_enc_bit_logp(&mut c, v as i32, logp),
        Call::PutTable(s, table, ftb) => entenc::ec_enc_icdf(&mut c, s as i32, table, ftb),
        Call::PutUniform(v, ft) => entenc::ec_enc_uint(&mut c, v, ft),
        Call::PutRaw(v, bits) => entenc::ec_enc_bits(&mut c, v, bits),
        Call::Close => entenc::ec_enc_done(&mut c),
        Call::GetBit(logp) => value = entdec::ec_dec_bit_logp(&mut c, logp) as u32,
        Call::GetTable(table, ftb) => value = entdec::ec_dec_icdf(&mut c, table, ftb) as u32,
        Call::GetUniform(ft) => value = entdec::ec_dec_uint(&mut c, ft),
        Call::GetRaw(bits) => value = entdec::ec_dec_bits(&mut c, bits),
        // The crate calls these two unsafe. They read and write nothing but the coder and the value.
        Call::PutLaplace(v, fs, decay) => {
            let mut counts = v;
            unsafe { laplace::ec_laplace_encode(&mut c, &mut counts, fs, decay as i32) };
            value = counts as u32;
        }
        Call::GetLaplace(fs, decay) => value = unsafe { laplace::ec_laplace_decode(&mut c, fs, decay as i32) } as u32,
    }
    Left { value, at: c.save(), tell: ec_tell(&c) as u32, frac: ec_tell_frac(&c) }
}

/// What libopus makes of it.
pub fn by_libopus(bytes: &mut [u8], at: ec_ctx_saved, call: &Call) -> Left {
    let buf = bytes.as_mut_ptr();
    let size = bytes.len() as u32;
    let mut c = states::lent(&at, bytes);
    let mut value = 0;
    let e = &mut c;
    // The bytes outlive the calls, and every number is one that the crate was given as well.
    let (tell, frac) = unsafe {
        match *call {
            Call::Writer => libopus::ec_enc_init(e, buf, size),
            Call::Reader => {
                e.ext = 0;
                libopus::ec_dec_init(e, buf, size)
            }
            Call::PutBit(v, logp) => libopus::ec_enc_bit_logp(e, v as i32, logp),
            Call::PutTable(s, table, ftb) => libopus::ec_enc_icdf(e, s as i32, table.as_ptr(), ftb),
            Call::PutUniform(v, ft) => libopus::ec_enc_uint(e, v, ft),
            Call::PutRaw(v, bits) => libopus::ec_enc_bits(e, v, bits),
            Call::Close => libopus::ec_enc_done(e),
            Call::GetBit(logp) => value = libopus::ec_dec_bit_logp(e, logp) as u32,
            Call::GetTable(table, ftb) => value = libopus::ec_dec_icdf(e, table.as_ptr(), ftb) as u32,
            Call::GetUniform(ft) => value = libopus::ec_dec_uint(e, ft),
            Call::GetRaw(bits) => value = libopus::ec_dec_bits(e, bits),
            Call::PutLaplace(v, fs, decay) => {
                let mut counts = v;
                libopus::ec_laplace_encode(e, &mut counts, fs, decay as i32);
                value = counts as u32;
            }
            Call::GetLaplace(fs, decay) => value = libopus::ec_laplace_decode(e, fs, decay as i32) as u32,
        }
        ((e.nbits_total - (32 - e.rng.leading_zeros() as i32)) as u32, libopus::ec_tell_frac(e))
    };
    let at = states::saved_back(&c);
    Left { value, at, tell, frac }
}

/// The state's eleven numbers in the port's encoding and order.
pub fn numbers(at: &ec_ctx_saved) -> [u32; 11] {
    let rem = if at.rem < 0 { 256 } else { at.rem as u32 };
    let error = (at.error != 0) as u32;
    [
        at.storage, at.offs, at.end_offs, at.end_window, at.nend_bits as u32, at.nbits_total as u32, at.rng, at.val, at.ext, rem, error,
    ]
}

/// Is this one of the pairs of the coarse-energy model?
fn is_pair(fs: u32, decay: u32) -> bool {
    // A pair is made of two bytes, shifted by 7 and 6 bits.
    static KNOWN: OnceLock<Vec<bool>> = OnceLock::new();
    let known = KNOWN.get_or_init(|| {
        let mut known = vec![false; 1 << 16];
        quant_bands::model_pairs().iter().for_each(|(fs, decay)| known[((fs << 1) + (decay >> 6)) as usize] = true);
        known
    });
    fs % 128 == 0 && decay % 64 == 0 && fs < 1 << 15 && decay < 1 << 14 && known[((fs << 1) + (decay >> 6)) as usize]
}

/// A table falls strictly to 0, and its first entry is below 2^ftb.
fn falls(table: &[u8], ftb: u32) -> bool {
    (table.first().map_or(0, |&x| x as u32) < 1 << ftb.min(8)) && table.windows(2).all(|w| w[1] < w[0]) && table.last() == Some(&0)
}

impl Call<'_> {
    /// What document 01 says of a symbol's call: its lengths, its numbers, its lists.
    pub fn domain(&self) -> (bool, bool, bool) {
        let known = |ftb: u32| (1..=8).contains(&ftb);
        match *self {
            Call::PutBit(v, logp) => (true, v <= 1 && (1..=15).contains(&logp), true),
            Call::PutTable(s, table, ftb) => (!table.is_empty(), known(ftb) && (s as usize) < table.len(), falls(table, ftb)),
            Call::PutUniform(v, ft) => (true, 2 <= ft && v < ft, true),
            Call::PutRaw(v, bits) => (true, (1..=25).contains(&bits) && (v as u64) < 1 << bits.min(32), true),
            Call::GetBit(logp) => (true, (1..=15).contains(&logp), true),
            Call::GetTable(table, ftb) => (!table.is_empty(), known(ftb), falls(table, ftb)),
            Call::GetUniform(ft) => (true, 2 <= ft, true),
            Call::GetRaw(bits) => (true, (1..=25).contains(&bits), true),
            Call::PutLaplace(v, fs, decay) => (true, (-32768..=32767).contains(&v) && is_pair(fs, decay), true),
            Call::GetLaplace(fs, decay) => (true, is_pair(fs, decay), true),
            Call::Writer | Call::Reader | Call::Close => (true, true, true),
        }
    }

    /// A call on a writer's state.
    pub fn writes(&self) -> bool {
        use Call::*;
        matches!(self, Writer | PutBit(..) | PutTable(..) | PutUniform(..) | PutRaw(..) | PutLaplace(..) | Close)
    }
}

/// Where a sequence stands.
#[derive(Clone, Copy, PartialEq)]
pub enum Stage {
    Idle,
    Writing,
    Closed,
    Reading,
}

/// The oracles' side of a sequence. What a generator needs to know of its state is public.
#[derive(Clone)]
pub struct Oracle {
    pub bytes: Vec<u8>,
    pub table: Vec<u8>,
    pub ftb: u32,
    pub stage: Stage,
    pub at: ec_ctx_saved,
    pub tell: u32,
    pub frac: u32,
    pub value: u32,
}

impl Oracle {
    pub fn new() -> Self {
        Oracle::over(vec![])
    }

    /// Before the first request, over these bytes.
    pub fn over(bytes: Vec<u8>) -> Self {
        Oracle { bytes, table: vec![], ftb: 0, stage: Stage::Idle, at: ec_ctx_saved::default(), tell: 0, frac: 0, value: 0 }
    }

    /// Document 01's refusals; the call's own, of pulse words, stand in words.rs.
    pub fn refusal(&self, lengths: bool, numbers: bool, lists: bool) -> u32 {
        let room = self.tell <= 8 * self.bytes.len() as u32 + 32;
        refusals::first(lengths, numbers, lists, 0, self.stage != Stage::Closed, room)
    }

    fn refusal_of(&self, call: &Call) -> u32 {
        let (lengths, numbers, lists) = call.domain();
        match call {
            Call::Writer | Call::Reader => (self.bytes.len() > 1275) as u32,
            Call::Close => if self.stage == Stage::Closed { 12 } else { 0 },
            _ => self.refusal(lengths, numbers, lists),
        }
    }

    /// The answer to a call: both oracles run it, unless it is refused.
    pub fn call(&mut self, letter: &str, call: Call) -> String {
        let no = match call {
            Call::Writer | Call::Reader => self.refusal_of(&call),
            _ => self.with_state(self.refusal_of(&call)),
        };
        if no != 0 {
            return format!("X {no}");
        }
        let mut other = self.bytes.clone();
        let left = by_crate(&mut self.bytes, self.at, &call);
        let second = by_libopus(&mut other, self.at, &call);
        assert!(
            left.value == second.value && left.tell == second.tell && left.frac == second.frac && numbers(&left.at) == numbers(&second.at)
                && self.bytes == other,
            "the crate and libopus differ at '{letter}'"
        );
        self.at = left.at;
        (self.tell, self.frac) = (left.tell, left.frac);
        self.value = left.value;
        self.stage = match call {
            Call::Writer => Stage::Writing,
            Call::Close => Stage::Closed,
            Call::Reader => Stage::Reading,
            _ => self.stage,
        };
        let value = match call {
            Call::GetBit(_) | Call::GetTable(..) | Call::GetUniform(_) | Call::GetRaw(_) => format!("{letter} {}", left.value),
            Call::PutLaplace(..) | Call::GetLaplace(..) => format!("{letter} {}", left.value as i32),
            _ => letter.to_string(),
        };
        self.line(value, format!("{} {}", left.tell, left.frac))
    }

    /// The line of an answer: its letter and value, the state, what tell and tell_frac say, and the bytes where they are shown.
    fn line(&self, value: String, told: String) -> String {
        let mut words = vec![value];
        words.extend(numbers(&self.at).iter().map(u32::to_string));
        if self.stage != Stage::Reading {
            words.push(((self.stage == Stage::Closed) as u32).to_string());
        }
        words.push(told);
        let shows = self.stage == Stage::Closed || self.stage == Stage::Writing && self.bytes.len() <= 60;
        if shows && !self.bytes.is_empty() {
            words.push(self.bytes.iter().map(|b| format!("{b:02x}")).collect());
        }
        words.join(" ")
    }

    /// Does the state keep document 01's rule of a reader or of a writer?
    fn state_ok(&self) -> bool {
        let state = numbers(&self.at);
        let [storage, offs, ends, _, waiting, total, rng, val, ext, rem, _] = state;
        if self.stage == Stage::Reading {
            return states::is_ok(&state);
        }
        let counts = storage <= 1275 && rng > 1 << 23 && rng <= 1 << 31 && waiting <= 32 && (33..=65535).contains(&total);
        let places = offs as u64 + ends as u64 <= storage as u64;
        counts && places && val as u64 + (rng as u64) < 1 << 32 && rem <= 256 && ext <= 65535
    }

    /// The number of a call's refusal once the state is looked at too: bytes unlike its storage are 2, and a rule that it breaks is 1 where no
    /// length is wrong.
    pub fn with_state(&self, no: u32) -> u32 {
        if no == 2 || self.at.storage as usize != self.bytes.len() {
            2
        } else if !self.state_ok() {
            1
        } else {
            no
        }
    }

    /// A state that is handed in, and its line. Where it breaks its rule, tell and tell_frac are refused.
    pub fn hand(&mut self, letter: &str, state: &states::State, stage: Stage) -> String {
        self.at = states::saved(state);
        if stage != Stage::Reading {
            self.at.rem = if state[9] == 256 { -1 } else { self.at.rem };
            self.at.error = -self.at.error;
        }
        self.stage = stage;
        if !self.state_ok() {
            return self.line(letter.to_string(), "X 1 X 1".to_string());
        }
        let mut c = entenc::ec_enc_init(&mut self.bytes);
        c.restore(self.at);
        let (tell, frac) = (ec_tell(&c) as u32, ec_tell_frac(&c));
        // The bytes outlive the call.
        let second = unsafe { libopus::ec_tell_frac(&mut states::lent(&self.at, &mut self.bytes)) };
        assert!(frac == second, "the crate and libopus differ at '{letter}'");
        (self.tell, self.frac) = (tell, frac);
        self.line(letter.to_string(), format!("{tell} {frac}"))
    }
}

impl Side for Oracle {
    fn answer(&mut self, line: &str) -> Option<String> {
        let mut words = line.split(' ');
        let letter = words.next().unwrap_or("");
        let n: Vec<u32> = words.map(|w| w.parse().unwrap_or_else(|_| panic!("'{line}' is no request"))).collect();
        let table = self.table.clone();
        let writes = matches!(self.stage, Stage::Writing | Stage::Closed);
        let reads = self.stage == Stage::Reading;
        match (letter, n.as_slice()) {
            ("S", &[storage, fill]) => {
                self.bytes = vec![fill as u8; storage as usize];
                self.stage = Stage::Idle;
                Some(self.call(letter, Call::Writer))
            }
            ("T", [ftb, entries @ ..]) => {
                self.ftb = *ftb;
                self.table = entries.iter().map(|&e| e as u8).collect();
                None
            }
            ("D", &[place, value]) => {
                self.bytes[place as usize] = value as u8;
                None
            }
            ("O", []) => {
                self.stage = Stage::Idle;
                Some(self.call(letter, Call::Reader))
            }
            ("K", &[ref state @ .., closed]) if state.len() == 11 => {
                let stage = if closed == 0 { Stage::Writing } else { Stage::Closed };
                Some(self.hand(letter, state.try_into().expect("eleven numbers"), stage))
            }
            ("k", state) if state.len() == 11 => Some(self.hand(letter, state.try_into().expect("eleven numbers"), Stage::Reading)),
            ("C", []) if writes => Some(self.call(letter, Call::Close)),
            ("B", &[v, logp]) if writes => Some(self.call(letter, Call::PutBit(v, logp))),
            ("I", &[s]) if writes => Some(self.call(letter, Call::PutTable(s, &table, self.ftb))),
            ("U", &[v, ft]) if writes => Some(self.call(letter, Call::PutUniform(v, ft))),
            ("R", &[v, bits]) if writes => Some(self.call(letter, Call::PutRaw(v, bits))),
            ("b", &[logp]) if reads => Some(self.call(letter, Call::GetBit(logp))),
            ("i", []) if reads => Some(self.call(letter, Call::GetTable(&table, self.ftb))),
            ("u", &[ft]) if reads => Some(self.call(letter, Call::GetUniform(ft))),
            ("r", &[bits]) if reads => Some(self.call(letter, Call::GetRaw(bits))),
            _ => panic!("'{line}' is no request here"),
        }
    }
}
