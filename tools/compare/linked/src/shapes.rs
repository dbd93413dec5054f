//! Shapes of bands: recorded traffic, the domain's limits and all refusals, then at random over the domain, with numbers, gains and lengths outside it
//! and damaged states. The crate's `alg_unquant` answers, over libopus' `decode_pulses`, and libopus' own; shapes are compared by their bits.
//! Pairs whose count is in no oracle's table are not compared, and counted.
use crate::both::{expected, Both};
use crate::damage::damage;
use crate::exports_frame as exports;
use crate::floats::{shown_bits, KEPT};
use crate::guarded::Guarded;
use crate::question::{asked, changed, oddly, zeroed, Question};
use crate::readers;
use crate::tally::{Name, Tally, Why, NAMES};
use crate::walk::hex;
use crate::Run;
use driver::pulse_sequences::counted;
use driver::random::Random;
use driver::shape::{bits_of, Asked, Given};
use driver::shape_sequences as sequences;
use driver::states::{self, List};
use oracle::celt::cwrs;

/// A call: its request with another state, perhaps, and by how much the lists of the state and the mask are longer than they must be.
#[derive(Clone)]
struct Shape {
    asked: Asked,
    list: List,
    state: i8,
    mask: i8,
}

fn plain(asked: Asked) -> Shape {
    let list = states::list(&asked.state, 0, false);
    Shape { asked, list, state: 0, mask: 0 }
}

impl Question for Shape {
    fn compared(&self, tally: &mut Tally) -> Result<u32, String> {
        let a = &self.asked;
        let right = if self.state == 0 && self.mask == 0 { a.refusal_of(&self.list) } else { 2 };
        if right == 0 && !cwrs::has_count(a.n as u32, a.k as u32) {
            tally.apart(Name::Shape, Why::NoCount, || format!("N {} K {}", a.n, a.k));
            return Ok(0);
        }
        let before = bits_of(&a.lent());
        let mut state = Guarded::new(&self.list, KEPT as i64, self.state);
        let mut shape = Guarded::new(&before, KEPT, 0);
        let mut mask = Guarded::new(&[KEPT], KEPT, self.mask);
        let gain = f32::from_bits(a.gain);
        let no = exports::shape(state.lent(), &a.bytes, shape.lent(), a.n, a.k, a.spread, a.b, gain, mask.lent());
        let at = states::list_saved(&self.list, false);
        let given = (right == 0).then(|| Both::asked(|| a.by_crate(at), || a.by_libopus(at)));
        let same = match &given {
            None => state.is(&self.list) && shape.is(&before) && mask.is(&[KEPT]),
            Some(both) => {
                let g = both.right();
                state.is(&states::list(&g.state, 0, false)) && shape.is(&g.shape) && mask.is(&[g.mask]) && both.agree()
            }
        };
        if no != right || !same {
            let held = format!("{no}; state {:?}; mask {:?}; shape {}", state.inner(), mask.inner(), shown_bits(shape.inner()));
            let said = |g: &Given| {
                let state = states::list(&g.state, 0, false);
                format!("0; state {state:?}; mask {}; shape {}", g.mask, shown_bits(&g.shape))
            };
            return Err(format!("{} differs\n  port     {held}{}", NAMES[Name::Shape as usize], expected(&given, right, said)));
        }
        if given.is_some_and(|both| both.crate_panics()) {
            tally.apart(Name::Shape, Why::CratePanics, || self.shown());
        }
        tally.alike(Name::Shape, no);
        Ok(no)
    }

    fn simpler(&self) -> Vec<Self> {
        let a = &self.asked;
        let mut all = vec![];
        if a.n > 2 && a.places as i64 == a.n as i64 {
            all.extend(changed(self, &[&|q| (q.asked.n, q.asked.places, q.asked.b) = (q.asked.n - 1, q.asked.places - 1, 1)]));
        }
        if a.k > 1 {
            all.extend(changed(self, &[&|q| q.asked.k -= 1]));
        }
        if a.gain != 0x3f80_0000 {
            all.extend(changed(self, &[&|q| q.asked.gain = 0x3f80_0000]));
        }
        all.extend(zeroed(self, |q| &mut q.asked.bytes));
        all
    }

    fn shown(&self) -> String {
        let a = &self.asked;
        let numbers = format!("N {} K {} spread {} B {} gain {:08x}, {} places", a.n, a.k, a.spread, a.b, a.gain, a.places);
        format!("{numbers}; state {:?}, longer by {}; mask longer by {}; bytes {}", self.list, self.state, self.mask, hex(&a.bytes))
    }
}

pub fn fixed(run: &mut Run) -> Result<(), String> {
    for a in sequences::requests(&mut run.r) {
        asked(run, plain(a))?;
    }
    Ok(())
}

/// One thing at a limit of its domain or outside it.
fn odd(r: &mut Random, q: &mut Shape) {
    let a = &mut q.asked;
    match r.below(8) {
        0 => {
            a.n = r.one_of(&[i32::MIN, -1, 0, 1, 2, 175, 176, 177, i32::MAX]);
            a.places = if r.below(4) == 0 { a.places } else { a.n.clamp(0, 200) as usize };
        }
        1 => a.k = r.one_of(&[i32::MIN, -1, 0, 1, 127, 128, 129, i32::MAX]),
        2 => a.spread = r.one_of(&[i32::MIN, -1, 0, 1, 2, 3, 4, i32::MAX]),
        3 => a.b = r.one_of(&[i32::MIN, -1, 0, 1, 2, 3, 5, 16, 17, i32::MAX]),
        4 => {
            let size = r.one_of(&[0x7fc0_0000, 0x7f80_0001, 0x7fff_ffff, 0x7f80_0000, 0x3f80_0000, 0x3f80_0001, 0x4000_0000, 0x7f7f_ffff]);
            a.gain = size + r.one_of(&[0, 0x8000_0000]);
        }
        5 => match r.below(3) {
            0 => a.places = r.one_of(&[0, a.places.saturating_sub(1), a.places + 1, 176]),
            1 => q.state = r.one_of(&[-1, 1, -12]),
            _ => q.mask = r.one_of(&[-1, 1]),
        },
        _ => {
            let (place, v) = damage(r, &q.list, a.bytes.len());
            q.list[place as usize] = v;
        }
    }
}

pub fn chance(run: &mut Run, calls: u64) -> Result<(), String> {
    while run.tally.calls < calls {
        let r = &mut run.r;
        let storage = readers::storage(r);
        let (n, k) = r.one_of(counted());
        let mut q = plain(sequences::asked(r, n, k, 0));
        q.asked.bytes = readers::packet(r, storage);
        q.list = readers::reader(r, &q.asked.bytes);
        oddly(r, &mut q, odd);
        asked(run, q)?;
    }
    Ok(())
}
