//! How many calls were compared, by exported call; what was not compared, by reason; and the progress of a run.
use std::collections::BTreeMap;
use std::time::{Duration, Instant};

macro_rules! exported {
    ($($name:ident $text:literal),* $(,)?) => {
        /// The exported calls.
        #[derive(Clone, Copy, PartialEq, Debug)]
        pub enum Name { $($name),* }

        /// Their names in libgurthapen.a.
        pub const NAMES: &[&str] = &[$($text),*];
    };
}

exported! {
    DecNew "gurthapen_dec_new",
    DecBit "gurthapen_dec_bit_logp",
    DecIcdf "gurthapen_dec_icdf",
    DecUint "gurthapen_dec_uint",
    DecBits "gurthapen_dec_bits",
    DecTell "gurthapen_dec_tell",
    DecTellFrac "gurthapen_dec_tell_frac",
    EncNew "gurthapen_enc_new",
    EncBit "gurthapen_enc_bit_logp",
    EncIcdf "gurthapen_enc_icdf",
    EncUint "gurthapen_enc_uint",
    EncBits "gurthapen_enc_bits",
    EncClose "gurthapen_enc_close",
    EncTell "gurthapen_enc_tell",
    EncTellFrac "gurthapen_enc_tell_frac",
    LaplaceDecode "gurthapen_laplace_decode",
    LaplaceEncode "gurthapen_laplace_encode",
    DecodePulses "gurthapen_decode_pulses",
    EncodePulses "gurthapen_encode_pulses",
    GetPulses "gurthapen_get_pulses",
    Bits2Pulses "gurthapen_bits2pulses",
    Pulses2Bits "gurthapen_pulses2bits",
    AllocationRead "gurthapen_compute_allocation_read",
    AllocationWrite "gurthapen_compute_allocation_write",
    Coarse "gurthapen_unquant_coarse_energy",
    Finalise "gurthapen_unquant_energy_finalise",
    Shape "gurthapen_alg_unquant",
    RecordFresh "gurthapen_record_fresh",
    RecordOrder "gurthapen_record_order",
    RecordFrame "gurthapen_record_frame",
    RecordSave "gurthapen_record_save",
    RecordRestore "gurthapen_record_restore",
    List "gurthapen_list",
    RoundTrip "gurthapen_round_trip",
}

/// Why a call was not compared, or with one oracle only.
#[derive(Clone, Copy, PartialEq, Eq, PartialOrd, Ord)]
pub enum Why {
    /// Nothing was compared.
    NoCount,
    /// The answer was compared with libopus' alone.
    CratePanics,
    /// Nothing was compared.
    OraclePanics,
}

impl Why {
    fn text(self) -> &'static str {
        match self {
            Why::NoCount => "not compared: V(N,K) is below 2^32, but in neither oracle's table",
            Why::CratePanics => "compared with libopus alone: the crate panics",
            Why::OraclePanics => "not compared: the oracles' side panics",
        }
    }
}

#[derive(Clone, Copy, Default)]
struct Count {
    taken: u64,
    refused: [u64; 13],
}

/// The counts of one kind.
pub struct Tally {
    kind: &'static str,
    counts: Vec<Count>,
    apart: BTreeMap<(&'static str, Why), (u64, String)>,
    ends: BTreeMap<&'static str, u64>,
    /// All calls that were compared.
    pub calls: u64,
    /// How many there are to be, for whoever watches; 0 where that is not known.
    pub goal: u64,
    began: Instant,
    shown: Instant,
}

impl Tally {
    pub fn new(kind: &'static str) -> Self {
        let now = Instant::now();
        let counts = vec![Count::default(); NAMES.len()];
        Tally { kind, counts, apart: BTreeMap::new(), ends: BTreeMap::new(), calls: 0, goal: 0, began: now, shown: now }
    }

    /// A call that was answered alike: no is its refusal, 0 for none.
    pub fn alike(&mut self, name: Name, no: u32) {
        let count = &mut self.counts[name as usize];
        if no == 0 {
            count.taken += 1;
        } else {
            count.refused[no as usize] += 1;
        }
        self.calls += 1;
        if self.calls % 0x4000 == 0 {
            self.progress();
        }
    }

    /// A call that stands apart, for that reason; the first one of them is shown.
    pub fn apart(&mut self, name: Name, why: Why, shown: impl FnOnce() -> String) {
        self.apart.entry((NAMES[name as usize], why)).or_insert_with(|| (0, shown())).0 += 1;
    }

    /// How a round trip ended.
    pub fn ended(&mut self, how: &'static str) {
        *self.ends.entry(how).or_default() += 1;
    }

    #[cold]
    fn progress(&mut self) {
        if self.shown.elapsed() < Duration::from_secs(5) {
            return;
        }
        self.shown = Instant::now();
        let goal = if self.goal == 0 { String::new() } else { format!(" of {}", grouped(self.goal)) };
        let speed = self.calls as f64 / self.began.elapsed().as_secs_f64();
        eprintln!("{}: {}{goal} calls, {} a second, no difference", self.kind, grouped(self.calls), grouped(speed as u64));
    }

    /// The counts as lines.
    pub fn lines(&self) -> Vec<String> {
        let seconds = self.began.elapsed().as_secs_f64();
        let mut list = vec![format!("{}: {} calls in {seconds:.0} seconds", self.kind, grouped(self.calls))];
        for (name, count) in NAMES.iter().zip(&self.counts) {
            let refused: u64 = count.refused.iter().sum();
            if count.taken + refused == 0 {
                continue;
            }
            let each = count.refused.iter().enumerate().filter(|(_, &n)| n > 0).map(|(no, &n)| format!("{} as {no}", grouped(n)));
            let each: Vec<String> = each.collect();
            let refused = if each.is_empty() { String::new() } else { format!("; refused {}", each.join(", ")) };
            list.push(format!("    {name}: taken {}{refused}", grouped(count.taken)));
        }
        let apart = self.apart.iter().map(|((name, why), (n, first))| format!("    {name}: {} {}; the first: {first}", grouped(*n), why.text()));
        list.extend(apart);
        let ends: Vec<String> = self.ends.iter().map(|(how, n)| format!("{} {how}", grouped(*n))).collect();
        if !ends.is_empty() {
            list.push(format!("    ended: {}", ends.join(", ")));
        }
        list
    }
}

/// A count with its thousands separated.
pub fn grouped(n: u64) -> String {
    let text = n.to_string();
    let parts: Vec<&str> = text.as_bytes().rchunks(3).rev().map(|c| std::str::from_utf8(c).unwrap_or("")).collect();
    parts.join(",")
}
