//! A lent list with elements before and after it, so that a write beside the list shows.

const GUARD: usize = 4;

pub struct Guarded<T> {
    all: Vec<T>,
    kept: T,
    /// How many elements are lent.
    lent: usize,
}

impl<T: Copy + PartialEq> Guarded<T> {
    /// A list of which `by` elements more are lent than it has; fewer where that is negative.
    pub fn new(list: &[T], kept: T, by: i8) -> Self {
        let mut all = vec![kept; list.len() + 2 * GUARD];
        all[GUARD..GUARD + list.len()].copy_from_slice(list);
        Guarded { all, kept, lent: (list.len() as i64 + by as i64).max(0) as usize }
    }

    pub fn lent(&mut self) -> &mut [T] {
        &mut self.all[GUARD..GUARD + self.lent]
    }

    pub fn inner(&self) -> &[T] {
        &self.all[GUARD..self.all.len() - GUARD]
    }

    /// The list holds this, and nothing beside it changed.
    pub fn is(&self, list: &[T]) -> bool {
        let beside = self.all[..GUARD].iter().chain(&self.all[self.all.len() - GUARD..]);
        self.inner() == list && beside.into_iter().all(|v| *v == self.kept)
    }
}
