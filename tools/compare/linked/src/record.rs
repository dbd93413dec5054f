//! The stream record's calls: fresh, order, frame, save, restore. The coarse decode inside a frame is both oracles'; the record's own rule and its lines are
//! document 01's words, on the oracles' side (driver's record.rs and saved_lines.rs), since no oracle has a record.
use crate::both::{expected, Both};
use crate::exports_frame as exports;
use crate::floats::{shown_bits, tame, KEPT};
use crate::guarded::Guarded;
use crate::question::Question;
use crate::shrink::shorter;
use crate::tally::{Name, Tally, Why, NAMES};
use crate::walk::hex;
use driver::energy::{Asked, Given};
use driver::record::{order, refusal, Record, FRESH};
use driver::saved_lines::{self, line_of, record_of};
use driver::states::{self, List};

/// A call, with all that it is lent; the numbers at the end say by how much lists are longer than they must be.
#[derive(Clone)]
pub enum Recorded {
    Fresh([i8; 2]),
    Order(u64, u64),
    /// A frame of that number: the coarse decode that it asks for, the reader, the record's next number; energies, next, state.
    Frame(u64, Asked, List, u64, [i8; 3]),
    /// The bytes that are lent; energies, the length's list.
    Save(Record, usize, [i8; 2]),
    Restore(Vec<u8>, [i8; 2]),
}

const KEPT_WIDE: u64 = KEPT as u64;

/// What a record holds before a call that gives one.
pub fn before() -> Record {
    (std::array::from_fn(|at| 0x4000_0000 + at as u32), 77)
}

/// A record's lists, lent to a call that changes them.
struct Lent {
    energies: Guarded<u32>,
    next: Guarded<u64>,
}

impl Lent {
    fn new(energies: &[u32], next: u64, by: &[i8]) -> Self {
        Lent { energies: Guarded::new(energies, KEPT, by[0]), next: Guarded::new(&[next], KEPT_WIDE, by[1]) }
    }

    fn holds(&self, energies: &[u32], next: u64) -> bool {
        self.energies.is(energies) && self.next.is(&[next])
    }

    fn shown(&self) -> String {
        format!("next {:?}; energies {}", self.next.inner(), shown_bits(self.energies.inner()))
    }
}

fn difference(name: Name, port: String, right: String) -> Result<u32, String> {
    Err(format!("{} differs\n  port     {port}\n  expected {right}", NAMES[name as usize]))
}

fn fresh(by: &[i8; 2]) -> Result<u32, String> {
    let old = before();
    let mut lent = Lent::new(&old.0, old.1, by);
    let no = exports::record_fresh(lent.energies.lent(), lent.next.lent());
    let right = if *by == [0; 2] { (0, FRESH) } else { (2, old) };
    if no == right.0 && lent.holds(&right.1 .0, right.1 .1) {
        return Ok(no);
    }
    difference(Name::RecordFresh, format!("{no}; {}", lent.shown()), format!("{}; next {}", right.0, right.1 .1))
}

fn frame(tally: &mut Tally, number: u64, a: &Asked, list: &List, next: u64, by: &[i8; 3]) -> Result<u32, String> {
    let right = if *by == [0; 3] { refusal(a, list, next, number) } else { 2 };
    let mut lent = Lent::new(&a.energies, next, &by[..2]);
    let mut state = Guarded::new(list, KEPT as i64, by[2]);
    let (e, n, l) = (lent.energies.lent(), lent.next.lent(), state.lent());
    let no = exports::record_frame(e, n, l, &a.bytes, number, a.c, a.lm, a.start, a.end, a.intra);
    let at = states::list_saved(list, false);
    let given = (right == 0).then(|| Both::asked(|| a.by_crate(at), || a.by_libopus(at)));
    let same = match &given {
        None => state.is(list) && lent.holds(&a.energies, next),
        Some(both) => {
            let g = both.right();
            let after = lent.energies.inner().to_vec();
            state.is(&states::list(&g.state, 0, false)) && lent.holds(&after, next + 1) && tame(&after) == g.energies && both.agree()
        }
    };
    if no != right || !same {
        let said = |g: &Given| format!("0; next {}; state {:?}; energies {}", next + 1, states::list(&g.state, 0, false), shown_bits(&g.energies));
        let held = format!("{no}; {}; state {:?}", lent.shown(), state.inner());
        return Err(format!("{} differs\n  port     {held}{}", NAMES[Name::RecordFrame as usize], expected(&given, right, said)));
    }
    if given.is_some_and(|both| both.crate_panics()) {
        tally.apart(Name::RecordFrame, Why::CratePanics, || format!("number {number}"));
    }
    Ok(no)
}

fn save(record: &Record, room: usize, by: &[i8; 2]) -> Result<u32, String> {
    let expected = if *by == [0; 2] { saved_lines::refusal(record, room) } else { 2 };
    let old: Vec<u8> = (0..room).map(|at| at as u8).collect();
    let mut buf = Guarded::new(&old, 0xa5, 0);
    let mut length = Guarded::new(&[KEPT as usize], KEPT as usize, by[1]);
    let mut energies = Guarded::new(&record.0, KEPT, by[0]);
    let no = exports::record_save(energies.lent(), record.1, buf.lent(), length.lent());
    let (mut right, mut long) = (old, KEPT as usize);
    if expected == 0 {
        let line = line_of(record);
        right[..line.len()].copy_from_slice(line.as_bytes());
        long = line.len();
    }
    if no == expected && buf.is(&right) && length.is(&[long]) {
        return Ok(no);
    }
    let port = format!("{no}; length {:?}; bytes {}", length.inner(), hex(buf.inner()));
    difference(Name::RecordSave, port, format!("{expected}; length {long}; bytes {}", hex(&right)))
}

fn restore(line: &[u8], by: &[i8; 2]) -> Result<u32, String> {
    let old = before();
    let mut lent = Lent::new(&old.0, old.1, by);
    let no = exports::record_restore(line, lent.energies.lent(), lent.next.lent());
    let read = if *by == [0; 2] { record_of(line) } else { Err(2) };
    let (expected, right) = match read {
        Ok(record) => (0, record),
        Err(no) => (no, old),
    };
    if no == expected && lent.holds(&right.0, right.1) {
        return Ok(no);
    }
    let right = format!("{expected}; next {}; energies {}", right.1, shown_bits(&right.0));
    difference(Name::RecordRestore, format!("{no}; {}", lent.shown()), right)
}

impl Recorded {
    fn name(&self) -> Name {
        match self {
            Recorded::Fresh(_) => Name::RecordFresh,
            Recorded::Order(..) => Name::RecordOrder,
            Recorded::Frame(..) => Name::RecordFrame,
            Recorded::Save(..) => Name::RecordSave,
            Recorded::Restore(..) => Name::RecordRestore,
        }
    }

}

impl Question for Recorded {
    fn compared(&self, tally: &mut Tally) -> Result<u32, String> {
        let no = match self {
            Recorded::Fresh(by) => fresh(by)?,
            Recorded::Order(next, number) => {
                let (no, right) = (exports::record_order(*next, *number), order(*next, *number));
                if no != right {
                    return difference(Name::RecordOrder, no.to_string(), right.to_string());
                }
                no
            }
            Recorded::Frame(number, a, list, next, by) => frame(tally, *number, a, list, *next, by)?,
            Recorded::Save(record, room, by) => save(record, *room, by)?,
            Recorded::Restore(line, by) => restore(line, by)?,
        };
        tally.alike(self.name(), no);
        Ok(no)
    }

    fn simpler(&self) -> Vec<Self> {
        match self {
            Recorded::Restore(line, by) => shorter(line).into_iter().map(|line| Recorded::Restore(line, *by)).collect(),
            Recorded::Save((energies, next), room, by) => (0..42)
                .filter(|&at| energies[at] != 0)
                .map(|at| {
                    let mut fewer = *energies;
                    fewer[at] = 0;
                    Recorded::Save((fewer, *next), *room, *by)
                })
                .collect(),
            Recorded::Frame(number, a, list, next, by) => (0..a.energies.len())
                .filter(|&at| a.energies[at] != 0)
                .map(|at| {
                    let mut fewer = a.clone();
                    fewer.energies[at] = 0;
                    Recorded::Frame(*number, fewer, *list, *next, *by)
                })
                .collect(),
            _ => vec![],
        }
    }

    fn shown(&self) -> String {
        match self {
            Recorded::Fresh(by) => format!("fresh; lists longer by {by:?}"),
            Recorded::Order(next, number) => format!("order; next {next}; number {number}"),
            Recorded::Frame(number, a, list, next, by) => {
                let numbers = format!("C {} LM {} start {} end {} intra {}", a.c, a.lm, a.start, a.end, a.intra);
                let record = format!("next {next}; energies {}", shown_bits(&a.energies));
                format!("frame {number}; {numbers}; {record}; state {list:?}; bytes {}; lists longer by {by:?}", hex(&a.bytes))
            }
            Recorded::Save(record, room, by) => format!("save; {}; {room} bytes; lists longer by {by:?}", line_of(record)),
            Recorded::Restore(line, by) => format!("restore; {:?}; lists longer by {by:?}", String::from_utf8_lossy(line)),
        }
    }
}
