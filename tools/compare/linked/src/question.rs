//! A call that stands for itself: asked of all sides, and made small where they differ.
use crate::shrink::{smallest, Shrinks};
use crate::tally::Tally;
use crate::Run;
use driver::random::Random;

pub trait Question: Clone {
    /// Asks all sides, and gives the refusal, 0 for none; or what differs.
    fn compared(&self, tally: &mut Tally) -> Result<u32, String>;
    /// Questions that are a little simpler.
    fn simpler(&self) -> Vec<Self>;
    /// The call with all that it is lent, for a reader.
    fn shown(&self) -> String;
}

struct Alone<Q>(Q);

impl<Q: Question> Shrinks for Alone<Q> {
    fn simpler(&self) -> Vec<Self> {
        self.0.simpler().into_iter().map(Alone).collect()
    }

    fn differs(&self) -> Option<String> {
        self.0.compared(&mut Tally::new("again")).err()
    }

    fn shown(&self) -> String {
        self.0.shown()
    }
}

pub fn asked<Q: Question>(run: &mut Run, q: Q) -> Result<u32, String> {
    q.compared(&mut run.tally).map_err(|_| smallest(Alone(q)))
}

/// One change after the other, each made to the question as it is.
pub fn changed<Q: Clone>(q: &Q, changes: &[&dyn Fn(&mut Q)]) -> Vec<Q> {
    let with = |change: &&dyn Fn(&mut Q)| {
        let mut q = q.clone();
        change(&mut q);
        q
    };
    changes.iter().map(with).collect()
}

/// The question with each place of a list, of those that are not zero, made zero.
pub fn zeroed<Q: Clone, T: Copy + Default + PartialEq>(q: &Q, list: fn(&mut Q) -> &mut Vec<T>) -> Vec<Q> {
    let mut whole = q.clone();
    let places = list(&mut whole).clone();
    let with = |at: usize| {
        let mut q = q.clone();
        list(&mut q)[at] = T::default();
        q
    };
    (0..places.len()).filter(|&at| places[at] != T::default()).map(with).collect()
}

/// In one question of five, one thing that is odd; in some of them two, so that the order of the refusals shows.
pub fn oddly<Q>(r: &mut Random, q: &mut Q, odd: fn(&mut Random, &mut Q)) {
    for _ in 0..[0, 0, 0, 0, 0, 0, 0, 0, 0, 0, 0, 0, 1, 1, 1, 2][r.below(16) as usize] {
        odd(r, q);
    }
}
