//! What the two oracles give.
use std::panic::{catch_unwind, AssertUnwindSafe};

/// The crate's answer, missing where it panics, and libopus'.
pub struct Both<G> {
    first: Option<G>,
    second: G,
}

impl<G: PartialEq> Both<G> {
    pub fn asked(by_crate: impl FnOnce() -> G, by_libopus: impl FnOnce() -> G) -> Self {
        Both { first: catch_unwind(AssertUnwindSafe(by_crate)).ok(), second: by_libopus() }
    }

    /// What the port must give.
    pub fn right(&self) -> &G {
        self.first.as_ref().unwrap_or(&self.second)
    }

    pub fn crate_panics(&self) -> bool {
        self.first.is_none()
    }

    /// The oracles do not contradict each other.
    pub fn agree(&self) -> bool {
        self.first.as_ref().map_or(true, |first| *first == self.second)
    }

    /// Lines for a reader.
    fn shown(&self, said: impl Fn(&G) -> String) -> String {
        let first = self.first.as_ref().map_or("panics".to_string(), &said);
        format!("\n  crate    {first}\n  libopus  {}", said(&self.second))
    }
}

/// Lines for a reader: what the oracles gave, or the refusal that was expected.
pub fn expected<G: PartialEq>(given: &Option<Both<G>>, no: u32, said: impl Fn(&G) -> String) -> String {
    match given {
        None => format!("\n  expected refusal {no}, and every list as it was"),
        Some(both) => both.shown(said),
    }
}
