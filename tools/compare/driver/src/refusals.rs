//! Document 01's order of refusals, which the oracles lack: 2, 1, 3, then the call's own (5 to 11), 12, 4.

/// The number of the refusal, 0 for none. lengths, numbers and lists: what the call's own rule says of them; own: the call's own refusal, 0 for
/// none; open: no close went before a write; room: tell is not above its bound.
pub fn first(lengths: bool, numbers: bool, lists: bool, own: u32, open: bool, room: bool) -> u32 {
    if !lengths {
        2
    } else if !numbers {
        1
    } else if !lists {
        3
    } else if own != 0 {
        own
    } else if !open {
        12
    } else if !room {
        4
    } else {
        0
    }
}
