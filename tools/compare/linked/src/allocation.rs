//! Whole bit allocations, read and written: recorded traffic, the domain's limits and all refusals, then at random over the domain, with numbers,
//! entries and lengths one step outside it and damaged states. Both oracles answer.
use crate::both::{expected, Both};
use crate::damage::damage;
use crate::exports_frame as exports;
use crate::guarded::Guarded;
use crate::question::{asked, changed, oddly, zeroed, Question};
use crate::tally::{Name, Tally, Why, NAMES};
use crate::walk::hex;
use crate::Run;
use driver::alloc::{by_crate, by_libopus, Asked, Given, Numbers};
use driver::alloc_sequences as sequences;
use driver::coder::{self, Call};
use driver::random::Random;
use driver::states::{self, List};

/// A call: its request with another state, perhaps, and by how much the lists of the state and of the four numbers are longer than they must be.
#[derive(Clone)]
struct Allocation {
    asked: Asked,
    list: List,
    state: i8,
    shown: i8,
}

const KEPT: i32 = 0x5eed_5eed;

fn plain(asked: Asked) -> Allocation {
    let list = asked.list();
    Allocation { asked, list, state: 0, shown: 0 }
}

/// The four numbers of an answer.
fn four(g: &Given) -> [i32; 4] {
    [g.coded, g.balance, g.intensity, g.dual]
}

impl Allocation {
    fn name(&self) -> Name {
        if self.asked.writes { Name::AllocationWrite } else { Name::AllocationRead }
    }

    /// The same with a new coder over so many of the bytes.
    fn anew(&self, storage: usize) -> Self {
        let mut q = self.clone();
        q.asked.bytes.resize(storage, 0);
        let new = if q.asked.writes { Call::Writer } else { Call::Reader };
        q.list = states::saved_list(&coder::by_crate(&mut q.asked.bytes.clone(), Default::default(), &new).at, 0);
        q
    }
}

impl Question for Allocation {
    fn compared(&self, tally: &mut Tally) -> Result<u32, String> {
        let a = &self.asked;
        let right = if self.state == 0 && self.shown == 0 { a.refusal_of(&self.list) } else { 2 };
        let before = a.lists();
        let mut state = Guarded::new(&self.list, KEPT as i64, self.state);
        let mut bytes = Guarded::new(&a.bytes, 0xa5, 0);
        let mut shown = Guarded::new(&[KEPT; 4], KEPT, self.shown);
        let [mut pulses, mut fine, mut priorities] = before.each_ref().map(|list| Guarded::new(list, KEPT, 0));
        let (l, p, f, q, four_places) = (state.lent(), pulses.lent(), fine.lent(), priorities.lent(), shown.lent());
        let no = match a.writes {
            true => exports::allocation_write(l, bytes.lent(), &a.numbers, &a.offsets, &a.caps, p, f, q, four_places),
            false => exports::allocation_read(l, bytes.lent(), &a.numbers, &a.offsets, &a.caps, p, f, q, four_places),
        };
        let at = states::list_saved(&self.list, a.writes);
        let given = (right == 0).then(|| Both::asked(|| by_crate(a, at), || by_libopus(a, at)));
        let (next, numbers, lists, written) = match given.as_ref().map(Both::right) {
            None => (self.list, [KEPT; 4], &before, &a.bytes),
            Some(g) => (states::list(&g.at, 0, a.writes), four(g), &g.lists, &g.bytes),
        };
        let places = pulses.is(&lists[0]) && fine.is(&lists[1]) && priorities.is(&lists[2]);
        let same = state.is(&next) && shown.is(&numbers) && bytes.is(written) && places;
        if no != right || !same || !given.as_ref().map_or(true, Both::agree) {
            let lists = [pulses.inner(), fine.inner(), priorities.inner()];
            let held = format!("{no}; state {:?}; shown {:?}; lists {lists:?}; bytes {}", state.inner(), shown.inner(), hex(bytes.inner()));
            let said = |g: &Given| {
                let state = states::list(&g.at, 0, a.writes);
                format!("0; state {state:?}; shown {:?}; lists {:?}; bytes {}", four(g), g.lists, hex(&g.bytes))
            };
            return Err(format!("{} differs\n  port     {held}{}", NAMES[self.name() as usize], expected(&given, right, said)));
        }
        if given.is_some_and(|both| both.crate_panics()) {
            tally.apart(self.name(), Why::CratePanics, || self.shown());
        }
        tally.alike(self.name(), no);
        Ok(no)
    }

    fn simpler(&self) -> Vec<Self> {
        let (n, numbers) = (self.asked.bytes.len(), &self.asked.numbers);
        let mut all: Vec<Self> = [0, n / 2, n.saturating_sub(1)].into_iter().filter(|&m| m < n).map(|m| self.anew(m)).collect();
        all.extend(zeroed(self, |q| &mut q.asked.bytes));
        all.extend(zeroed(self, |q| &mut q.asked.offsets));
        all.extend(zeroed(self, |q| &mut q.asked.caps));
        for total in [0, numbers.total / 2, numbers.total - 1].into_iter().filter(|t| (0..numbers.total).contains(t)) {
            all.extend(changed(self, &[&|q| q.asked.numbers.total = total]));
        }
        if (numbers.previous, numbers.bandwidth) != (0, 0) {
            all.extend(changed(self, &[&|q| (q.asked.numbers.previous, q.asked.numbers.bandwidth) = (0, 0)]));
        }
        all
    }

    fn shown(&self) -> String {
        let a = &self.asked;
        let lengths = format!("lists of {:?}, state longer by {}, shown longer by {}", a.room, self.state, self.shown);
        format!("{:?}\n  state {:?}; offsets {:?}; caps {:?}; bytes {}; {lengths}", a.numbers, self.list, a.offsets, a.caps, hex(&a.bytes))
    }
}

pub fn fixed(run: &mut Run) -> Result<(), String> {
    for a in sequences::traffic().into_iter().chain(sequences::refused()) {
        asked(run, plain(a))?;
    }
    Ok(())
}

/// A number at a limit of its domain or outside it.
pub fn odd_numbers(r: &mut Random, n: &mut Numbers) {
    match r.below(9) {
        0 => n.c = r.one_of(&[0, 1, 2, 3, i32::MIN, i32::MAX]),
        1 => n.lm = r.one_of(&[-1, 0, 3, 4, i32::MAX]),
        2 => n.start = r.one_of(&[-1, 0, n.end.wrapping_sub(1), n.end, 21, i32::MIN]),
        3 => n.end = r.one_of(&[n.start, n.start.wrapping_add(1), 21, 22, i32::MAX]),
        4 => n.trim = r.one_of(&[-1, 0, 10, 11]),
        5 => n.total = r.one_of(&[i32::MIN, -1, 0, 81600, 81601, i32::MAX]),
        6 => n.intensity = r.one_of(&[n.start.wrapping_sub(1), n.start, n.end, n.end.wrapping_add(1), i32::MIN, i32::MAX]),
        7 => n.dual = r.one_of(&[-1, 0, 1, 2, i32::MAX]),
        _ => (n.previous, n.bandwidth) = (r.one_of(&[i32::MIN, i32::MAX]), r.one_of(&[i32::MIN, i32::MAX])),
    }
}

/// One thing at a limit of its domain or outside it.
fn odd(r: &mut Random, q: &mut Allocation) {
    match r.below(4) {
        0 => odd_numbers(r, &mut q.asked.numbers),
        1 => {
            let (list, most) = if r.below(2) == 0 { (&mut q.asked.offsets, 81600) } else { (&mut q.asked.caps, 32767) };
            let at = r.below(21) as usize;
            if at < list.len() {
                list[at] = r.one_of(&[-1, 0, most, most + 1, i32::MIN, i32::MAX]);
            }
        }
        2 => {
            let long = r.one_of(&[0, 20, 22]) as usize;
            match r.below(7) {
                0 => q.asked.offsets.resize(long, 0),
                1 => q.asked.caps.resize(long, 100),
                2 => q.state = r.one_of(&[-1, 1, -12]),
                3 => q.shown = r.one_of(&[-1, 1, -4]),
                at => q.asked.room[at as usize - 4] = long,
            }
        }
        _ => {
            let (place, v) = damage(r, &q.list, q.asked.bytes.len());
            q.list[place as usize] = v;
        }
    }
}

pub fn chance(run: &mut Run, calls: u64) -> Result<(), String> {
    while run.tally.calls < calls {
        let r = &mut run.r;
        let list = match r.below(64) {
            0..=23 => sequences::read_any(r),
            24..=39 => sequences::write_any(r),
            40 => sequences::edge_any(r),
            _ => sequences::any_state(r),
        };
        for a in list {
            let mut q = plain(a);
            oddly(&mut run.r, &mut q, odd);
            asked(run, q)?;
        }
    }
    Ok(())
}
