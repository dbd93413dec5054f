//! From an input on which something differs to a small one.

/// An input of a kind.
pub trait Shrinks: Sized {
    /// Inputs that are a little simpler, the simplest first.
    fn simpler(&self) -> Vec<Self>;
    /// What differs, where something does.
    fn differs(&self) -> Option<String>;
    /// The input, for a reader.
    fn shown(&self) -> String;
}

/// Simpler inputs are tried for as long as one of them differs too. The text has the input and what differs.
pub fn smallest<Q: Shrinks>(mut q: Q) -> String {
    let Some(mut text) = q.differs() else {
        return format!("a difference that does not come again when its input is repeated\n{}", q.shown());
    };
    while let Some((next, said)) = q.simpler().into_iter().find_map(|s| s.differs().map(|said| (s, said))) {
        (q, text) = (next, said);
    }
    format!("{}\n{text}", q.shown())
}

/// A list with a part of it left out, longer parts first.
pub fn shorter<T: Clone>(list: &[T]) -> Vec<Vec<T>> {
    let mut all = vec![];
    let mut part = list.len() / 2;
    while part > 0 {
        for at in (0..=list.len() - part).rev().step_by(part) {
            all.push([&list[..at], &list[at + part..]].concat());
        }
        part /= 2;
    }
    all
}
