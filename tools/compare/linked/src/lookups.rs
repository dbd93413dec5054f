//! The pulse cache's lookups: every number of the domain and a ring around it, then any numbers. The crate alone answers: libopus has them in a
//! header, not in its archive.
use crate::exports;
use crate::tally::{Name, NAMES};
use crate::Run;
use driver::lookups::row;
use driver::random::Random;
use driver::refusals;
use oracle::celt::{modes, rate};
use std::sync::OnceLock;

/// A lookup and its numbers.
#[derive(Clone, Copy, Debug)]
enum Ask {
    GetPulses(i32),
    Bits2Pulses(i32, i32, i32),
    Pulses2Bits(i32, i32, i32),
}

/// What stands in a list before the call, and beside it.
const KEPT: u32 = 0x5eed_5eed;

fn mode() -> *const modes::OpusCustomMode {
    static MODE: OnceLock<usize> = OnceLock::new();
    // The crate's mode is a constant.
    *MODE.get_or_init(|| unsafe { modes::opus_custom_mode_create(48000, 960, &mut 0) as usize }) as *const modes::OpusCustomMode
}

impl Ask {
    fn name(&self) -> Name {
        match self {
            Ask::GetPulses(_) => Name::GetPulses,
            Ask::Bits2Pulses(..) => Name::Bits2Pulses,
            Ask::Pulses2Bits(..) => Name::Pulses2Bits,
        }
    }

    fn refusal(&self, lengths: bool) -> u32 {
        let known = |band: i32, lm: i32| (0..=20).contains(&band) && (-1..=3).contains(&lm);
        let (numbers, own) = match *self {
            Ask::GetPulses(i) => ((0..=40).contains(&i), 0),
            Ask::Bits2Pulses(band, lm, bits) => {
                let numbers = known(band, lm) && (-81600..=81600).contains(&bits);
                (numbers, if numbers && row(band, lm).is_none() { 5 } else { 0 })
            }
            Ask::Pulses2Bits(band, lm, pulses) => {
                let numbers = known(band, lm);
                let own = match numbers.then(|| row(band, lm)).flatten() {
                    None => 5,
                    Some(row) if !(0..row.len() as i32).contains(&pulses) => 6,
                    Some(_) => 0,
                };
                (numbers, own)
            }
        };
        refusals::first(lengths, numbers, true, own, true, true)
    }

    /// The crate's answer to a call that is not refused.
    fn by_crate(&self) -> u32 {
        // The row is there, and so is the place in it.
        let value = unsafe {
            match *self {
                Ask::GetPulses(i) => rate::get_pulses(i),
                Ask::Bits2Pulses(band, lm, bits) => rate::bits2pulses(mode(), band, lm, bits),
                Ask::Pulses2Bits(band, lm, pulses) => rate::pulses2bits(mode(), band, lm, pulses),
            }
        };
        value as u32
    }

    /// Asks the port with a list of so many places for the result, and compares.
    fn compared(&self, run: &mut Run, places: usize) -> Result<(), String> {
        let mut value = [KEPT; 4];
        let v = &mut value[1..1 + places];
        let no = match *self {
            Ask::GetPulses(i) => exports::get_pulses(i, v),
            Ask::Bits2Pulses(band, lm, bits) => exports::bits2pulses(band, lm, bits, v),
            Ask::Pulses2Bits(band, lm, pulses) => exports::pulses2bits(band, lm, pulses, v),
        };
        let expected = self.refusal(places == 1);
        let right = if expected == 0 { self.by_crate() } else { KEPT };
        if no != expected || value != [KEPT, right, KEPT, KEPT] {
            let name = NAMES[self.name() as usize];
            return Err(format!("{name} differs: {self:?}\n  port     {no}, list {value:?}\n  crate    {expected}, value {right}"));
        }
        run.tally.alike(self.name(), no);
        Ok(())
    }
}

/// The domain whole, and one step around it.
pub fn every(run: &mut Run) -> Result<(), String> {
    run.tally.goal = 21 * 5 * 163_201;
    for i in (-2..=42).chain([i32::MIN, i32::MAX]) {
        for places in 0..=2 {
            Ask::GetPulses(i).compared(run, places)?;
        }
    }
    for band in (-1..=21).chain([i32::MIN, i32::MAX]) {
        for lm in (-2..=4).chain([i32::MIN, i32::MAX]) {
            for pulses in (-2..=260).chain([i32::MIN, i32::MAX]) {
                Ask::Pulses2Bits(band, lm, pulses).compared(run, 1)?;
            }
            Ask::Pulses2Bits(band, lm, 1).compared(run, 0)?;
            let inside = (0..=20).contains(&band) && (-1..=3).contains(&lm);
            let most = if inside { 81_602 } else { 2 };
            for bits in (-most..=most).chain([i32::MIN, i32::MAX]) {
                Ask::Bits2Pulses(band, lm, bits).compared(run, 1)?;
            }
            Ask::Bits2Pulses(band, lm, 1).compared(run, 2)?;
        }
    }
    Ok(())
}

/// A number near the domain, or any.
fn near(r: &mut Random, least: i32, most: i32) -> i32 {
    match r.below(32) {
        0 => r.within(0, u32::MAX) as i32,
        1 => least - 1,
        2 => most + 1,
        _ => least + r.within(0, (most - least) as u32) as i32,
    }
}

pub fn chance(run: &mut Run, calls: u64) -> Result<(), String> {
    while run.tally.calls < calls {
        let r = &mut run.r;
        let (band, lm) = (near(r, 0, 20), near(r, -1, 3));
        let ask = match r.below(4) {
            0 => Ask::GetPulses(near(r, 0, 40)),
            1 => Ask::Pulses2Bits(band, lm, near(r, 0, 40)),
            // Most rows end below 300.
            2 => Ask::Bits2Pulses(band, lm, near(r, -10, 300)),
            _ => Ask::Bits2Pulses(band, lm, near(r, -81600, 81600)),
        };
        let places = if r.below(8) == 0 { r.one_of(&[0, 2]) } else { 1 };
        ask.compared(run, places)?;
    }
    Ok(())
}
