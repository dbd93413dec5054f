//! Records the oracles' answers, and holds a program's answers against them. Each kind of request is a module: it makes request lines
//! from a seed, and it answers a line as the oracles do. What the modules know of typed calls (the oracles' answers, document 01's refusals,
//! random requests) is used by `linked` too.
pub mod alloc;
pub mod alloc_sequences;
pub mod coder;
pub mod coder_sequences;
pub mod energy;
pub mod energy_sequences;
pub mod held;
pub mod held_sequences;
pub mod laplace_sequences;
pub mod listing;
pub mod listing_sequences;
pub mod lookups;
pub mod pulse_sequences;
pub mod random;
pub mod record;
pub mod refusals;
pub mod saved_lines;
pub mod shape;
pub mod shape_sequences;
pub mod states;
pub mod stream;
pub mod stream_sequences;
pub mod trip;
pub mod trip_sequences;
pub mod words;

/// Request lines that stand for themselves: no answer depends on an earlier sequence.
pub type Sequence = Vec<String>;

/// Whoever answers request lines. A line that only prepares a later one has no answer; an answer may have several lines.
pub trait Side {
    fn answer(&mut self, line: &str) -> Option<String>;
}
