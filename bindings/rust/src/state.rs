/// A coder's state: eleven numbers in the Rust crate unopus' order and encoding, and a twelfth that says whether a writer is closed.
///
/// Any numbers may stand in it. A state that breaks its rule is refused by every call, as [`crate::Refusal::Number`], or as
/// [`crate::Refusal::Length`] where its storage is not the count of the bytes.
#[derive(Clone, Copy, Debug, PartialEq, Eq, Hash)]
pub struct State(pub [i64; 12]);

impl State {
    pub const STORAGE: usize = 0;
    pub const END_OFFS: usize = 1;
    pub const END_WINDOW: usize = 2;
    pub const NEND_BITS: usize = 3;
    pub const NBITS_TOTAL: usize = 4;
    pub const OFFS: usize = 5;
    pub const RNG: usize = 6;
    pub const VAL: usize = 7;
    pub const EXT: usize = 8;
    /// A writer's is -1 where it holds no byte.
    pub const REM: usize = 9;
    /// 0; a reader's mark is 1, a writer's -1.
    pub const ERROR: usize = 10;
    /// 1 in a writer that was closed.
    pub const CLOSED: usize = 11;
}
