use crate::record::text;
use crate::{raw, Refusal};

/// How many bytes an answer takes at most.
const ROOM: usize = 1200;

/// The lister's answer to a request line, which is given without its line feed, and its number. A request that is refused is answered too, by an
/// X line.
///
/// ```
/// assert_eq!(gurthapen::list(b"1\t0\t0\t1\t5\t64\t00", 1), "R\t1\t1\t0\t0\t0\nB\t0\t8\t7\t1\n");
/// assert_eq!(gurthapen::list(b"", 2), "X\t2\t1\n");
/// ```
pub fn list(line: &[u8], number: u32) -> String {
    let mut out = [0; ROOM];
    let mut length = [0];
    Refusal::check(raw::list(line, number, &mut out, &mut length)).expect("a buffer that is long enough is not refused");
    text(&out[..length[0]])
}
