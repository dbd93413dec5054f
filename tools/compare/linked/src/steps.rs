//! The steps of a sequence of calls on a coder's state, and how a sequence is replayed and made short.
use crate::shrink::{shorter, Shrinks};
use crate::tally::{Name, Tally};
use crate::walk::{Walk, ROOM};
use driver::coder::Call;
use driver::random::Random;

/// What is asked.
#[derive(Clone, Copy, Debug)]
pub enum Ask {
    Symbol(Call<'static>),
    DecTell,
    DecTellFrac,
    EncTell,
    EncTellFrac,
    PutPulses(u32, u32),
    GetPulses(u32, u32),
}

/// By how much a lent list is longer than it must be; 0 for the right length.
#[derive(Clone, Copy, Default, PartialEq)]
pub struct Lent {
    pub state: i8,
    pub value: i8,
    pub bytes: i8,
    pub places: i8,
}

/// Right lengths, which most calls have, are not spelled out.
impl std::fmt::Debug for Lent {
    fn fmt(&self, f: &mut std::fmt::Formatter) -> std::fmt::Result {
        let lists = [("state", self.state), ("value", self.value), ("bytes", self.bytes), ("places", self.places)];
        let wrong: Vec<String> = lists.iter().filter(|l| l.1 != 0).map(|(name, by)| format!("{name} longer by {by}")).collect();
        f.write_str(if wrong.is_empty() { "lists as they must be" } else { "" })?;
        f.write_str(&wrong.join(", "))
    }
}

/// A step of a sequence.
#[derive(Clone, Copy, Debug)]
pub enum Step {
    /// So many bytes, all alike.
    Bytes(u16, u8),
    /// Each byte at random, from a seed; many are 0, 128 or 255.
    Chance(u64),
    /// A byte is changed.
    Byte(u16, u8),
    /// A number of the state is changed.
    Number(u8, i64),
    /// The places of the vector: N of them hold K random pulses, from a seed; the others keep what they have.
    Vector(u32, u32, u64),
    /// The same, with the pulses of the vector of that number, by libopus.
    Numbered(u32, u32, u32),
    /// A place of the vector is changed.
    Place(u8, i32),
    Ask(Ask, Lent),
}

impl Ask {
    pub fn name(&self) -> Name {
        match self {
            Ask::Symbol(call) => match call {
                Call::Writer => Name::EncNew,
                Call::PutBit(..) => Name::EncBit,
                Call::PutTable(..) => Name::EncIcdf,
                Call::PutUniform(..) => Name::EncUint,
                Call::PutRaw(..) => Name::EncBits,
                Call::Close => Name::EncClose,
                Call::Reader => Name::DecNew,
                Call::GetBit(_) => Name::DecBit,
                Call::GetTable(..) => Name::DecIcdf,
                Call::GetUniform(_) => Name::DecUint,
                Call::GetRaw(_) => Name::DecBits,
                Call::PutLaplace(..) => Name::LaplaceEncode,
                Call::GetLaplace(..) => Name::LaplaceDecode,
            },
            Ask::DecTell => Name::DecTell,
            Ask::DecTellFrac => Name::DecTellFrac,
            Ask::EncTell => Name::EncTell,
            Ask::EncTellFrac => Name::EncTellFrac,
            Ask::PutPulses(..) => Name::EncodePulses,
            Ask::GetPulses(..) => Name::DecodePulses,
        }
    }

    /// A call on a writer's state.
    pub fn writes(&self) -> bool {
        match self {
            Ask::Symbol(call) => call.writes(),
            Ask::EncTell | Ask::EncTellFrac | Ask::PutPulses(..) => true,
            Ask::DecTell | Ask::DecTellFrac | Ask::GetPulses(..) => false,
        }
    }

    /// It has a list for a result.
    pub fn has_value(&self) -> bool {
        match self {
            Ask::Symbol(call) => matches!(call, Call::PutLaplace(..)) || !call.writes() && !matches!(call, Call::Reader),
            Ask::PutPulses(..) => false,
            _ => true,
        }
    }
}

/// N places with K random pulses: each pulse goes to any place, and a place has one sign.
pub fn vector(n: usize, k: u32, seed: u64) -> [i32; ROOM] {
    let mut r = Random::new(seed);
    let mut y = [0; ROOM];
    // In one vector of four the pulses stand close together.
    let span = if r.below(4) == 0 { r.within(1, n as u32) } else { n as u32 };
    let from = r.below(n as u32 - span + 1);
    for _ in 0..k {
        y[(from + r.below(span)) as usize] += 1;
    }
    for v in y[..n].iter_mut() {
        *v *= 1 - 2 * r.below(2) as i32;
    }
    y
}

/// The steps of a walk, to be replayed.
pub struct Steps(pub Vec<Step>);

impl Shrinks for Steps {
    /// Steps are left out; a storage is made smaller.
    fn simpler(&self) -> Vec<Self> {
        let mut all: Vec<Self> = shorter(&self.0).into_iter().map(Steps).collect();
        if let Some(Step::Bytes(n, fill)) = self.0.first() {
            let fewer = [n / 2, n.saturating_sub(1)].into_iter().filter(|m| m < n);
            all.extend(fewer.map(|m| Steps([&[Step::Bytes(m, *fill)], &self.0[1..]].concat())));
        }
        all
    }

    fn differs(&self) -> Option<String> {
        let mut w = Walk::careful();
        let mut tally = Tally::new("replay");
        for &step in &self.0 {
            match step {
                Step::Ask(ask, lent) => {
                    if w.ask(ask, lent, &mut tally).is_err() {
                        return Some(w.said);
                    }
                }
                _ => w.prepare(step),
            }
        }
        None
    }

    fn shown(&self) -> String {
        let line = |step: &Step| match step {
            Step::Ask(ask, lent) if *lent == Lent::default() => format!("  {ask:?}"),
            Step::Ask(ask, lent) => format!("  {ask:?}, {lent:?}"),
            _ => format!("  {step:?}"),
        };
        format!("steps:\n{}", self.0.iter().map(line).collect::<Vec<String>>().join("\n"))
    }
}
