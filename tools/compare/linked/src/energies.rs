//! Coarse energies and last bits: recorded traffic, the domain's limits and all refusals, then at random over the domain, with numbers, entries,
//! energies and lengths outside it and damaged states. Both oracles answer; energies are compared by their bits, and a NaN with any NaN.
use crate::both::{expected, Both};
use crate::damage::damage;
use crate::exports_frame as exports;
use crate::floats::{shown_bits, tame, KEPT};
use crate::guarded::Guarded;
use crate::question::{asked, changed, oddly, zeroed, Question};
use crate::readers;
use crate::tally::{Name, Tally, Why, NAMES};
use crate::walk::hex;
use crate::Run;
use driver::energy::{Asked, Given};
use driver::energy_sequences as sequences;
use driver::random::Random;
use driver::states::{self, List};

/// A call: its request with another state, perhaps, and by how much the state's list is longer than it must be.
#[derive(Clone)]
struct Energies {
    asked: Asked,
    list: List,
    state: i8,
}

fn plain(asked: Asked) -> Energies {
    let list = states::list(&asked.state, 0, false);
    Energies { asked, list, state: 0 }
}

impl Energies {
    fn name(&self) -> Name {
        if self.asked.coarse { Name::Coarse } else { Name::Finalise }
    }
}

impl Question for Energies {
    fn compared(&self, tally: &mut Tally) -> Result<u32, String> {
        let a = &self.asked;
        let right = if self.state == 0 { a.refusal_of(&self.list, true, 0) } else { 2 };
        let mut state = Guarded::new(&self.list, KEPT as i64, self.state);
        let mut energies = Guarded::new(&a.energies, KEPT, 0);
        let (l, e) = (state.lent(), energies.lent());
        let no = match a.coarse {
            true => exports::coarse(l, &a.bytes, e, a.c, a.lm, a.start, a.end, a.intra),
            false => exports::finalise(l, &a.bytes, e, a.c, a.start, a.end, &a.fine, &a.priorities, a.left),
        };
        let at = states::list_saved(&self.list, false);
        let given = (right == 0).then(|| Both::asked(|| a.by_crate(at), || a.by_libopus(at)));
        let same = match &given {
            None => state.is(&self.list) && energies.is(&a.energies),
            Some(both) => {
                let g = both.right();
                let after = energies.inner().to_vec();
                // What stands beside the list is compared as it is, the energies with every NaN alike.
                state.is(&states::list(&g.state, 0, false)) && energies.is(&after) && tame(&after) == g.energies && both.agree()
            }
        };
        if no != right || !same {
            let held = format!("{no}; state {:?}; energies {}", state.inner(), shown_bits(energies.inner()));
            let said = |g: &Given| format!("0; state {:?}; energies {}", states::list(&g.state, 0, false), shown_bits(&g.energies));
            return Err(format!("{} differs\n  port     {held}{}", NAMES[self.name() as usize], expected(&given, right, said)));
        }
        if given.is_some_and(|both| both.crate_panics()) {
            tally.apart(self.name(), Why::CratePanics, || self.shown());
        }
        tally.alike(self.name(), no);
        Ok(no)
    }

    fn simpler(&self) -> Vec<Self> {
        let mut all = vec![];
        if self.asked.end > self.asked.start.saturating_add(1) {
            all.extend(changed(self, &[&|q| q.asked.end -= 1, &|q| q.asked.start += 1]));
        }
        all.extend(zeroed(self, |q| &mut q.asked.energies));
        all.extend(zeroed(self, |q| &mut q.asked.bytes));
        all
    }

    fn shown(&self) -> String {
        let a = &self.asked;
        let numbers = format!("C {} LM {} start {} end {} intra {} left {}", a.c, a.lm, a.start, a.end, a.intra, a.left);
        let lists = format!("fine {:?}; priorities {:?}; bytes {}", a.fine, a.priorities, hex(&a.bytes));
        format!("{numbers}; state {:?}, longer by {}\n  energies {}; {lists}", self.list, self.state, shown_bits(&a.energies))
    }
}

pub fn fixed(run: &mut Run) -> Result<(), String> {
    for a in sequences::requests(&mut run.r) {
        asked(run, plain(a))?;
    }
    Ok(())
}

/// One thing at a limit of its domain or outside it.
fn odd(r: &mut Random, q: &mut Energies) {
    let a = &mut q.asked;
    match r.below(5) {
        0 => match r.below(6) {
            0 => a.c = r.one_of(&[i32::MIN, 0, 1, 2, 3, i32::MAX]),
            1 => a.lm = r.one_of(&[i32::MIN, -1, 0, 3, 4, i32::MAX]),
            2 => a.start = r.one_of(&[-1, 0, a.end.wrapping_sub(1), a.end, 21, i32::MIN]),
            3 => a.end = r.one_of(&[a.start, a.start.wrapping_add(1), 21, 22, i32::MAX]),
            4 => a.intra = r.one_of(&[-1, 0, 1, 2, i32::MAX]),
            _ => a.left = r.one_of(&[i32::MIN, -1, 0, 1, 2, i32::MAX]),
        },
        1 => {
            let at = r.below(42) as usize;
            if at < a.energies.len() {
                a.energies[at] = r.one_of(&[0x7fc0_0000, 0xffc0_0000, 0x7f80_0001, 0x7f80_0000, 0xff80_0000, 0x7f7f_ffff, 0xff7f_ffff]);
            }
        }
        2 => {
            let at = r.below(21) as usize;
            let (list, most) = if r.below(2) == 0 { (&mut a.fine, 8) } else { (&mut a.priorities, 1) };
            if at < list.len() {
                list[at] = r.one_of(&[i32::MIN, -1, 0, most, most + 1, i32::MAX]);
            }
        }
        3 => match r.below(4) {
            0 => a.energies.resize(r.one_of(&[0, 21, 41, 43]), 0),
            1 => a.fine.resize(r.one_of(&[0, 20, 22]), 0),
            2 => a.priorities.resize(r.one_of(&[0, 20, 22]), 0),
            _ => q.state = r.one_of(&[-1, 1, -12]),
        },
        _ => {
            let (place, v) = damage(r, &q.list, a.bytes.len());
            q.list[place as usize] = v;
        }
    }
}

pub fn chance(run: &mut Run, calls: u64) -> Result<(), String> {
    while run.tally.calls < calls {
        let r = &mut run.r;
        let storage = readers::storage(r);
        let coarse = r.below(2) == 0;
        let mut q = plain(sequences::asked(r, coarse, 0));
        q.asked.bytes = readers::packet(r, storage);
        q.list = readers::reader(r, &q.asked.bytes);
        oddly(r, &mut q, odd);
        asked(run, q)?;
    }
    Ok(())
}
