//! Sequences of a stream record's requests: recorded coarse decodes as frames on the records that they met; a frame one step outside each of its bounds and
//! with two faults; records with an energy that is not finite, or past the last number; the last numbers; frames one after the other, with repeats
//! and gaps; lines at every limit, lines of 256ths, and every kind of malformed line; random frames and damaged lines, for as long as the
//! program that replays them has room.
use crate::energy::Asked;
use crate::held_sequences::{chosen, LONGEST};
use crate::random::Random;
use crate::record::Record;
use crate::saved_lines::line_of;
use crate::states::State;
use crate::stream::{frame_line, Oracle, WILD};
use crate::{coder, energy_sequences, Sequence, Side};
use oracle::celt::entdec;
use std::collections::BTreeMap;

/// The program reads so many bytes of its input at most.
const ROOM: usize = 65536;

/// A frame number or a next number: small, at its limit, past it, or any.
pub fn number(r: &mut Random) -> u64 {
    let word = r.within(0, u32::MAX) as u64;
    let wide = word << 32 | r.within(0, u32::MAX) as u64;
    r.one_of(&[0, 1, 2, word, 4_294_967_293, 4_294_967_294, 4_294_967_295, 4_294_967_296, u64::MAX, wide])
}

/// A line with some of its bytes or fields changed.
pub fn damaged(r: &mut Random, line: &[u8]) -> Vec<u8> {
    let mut line = line.to_vec();
    for _ in 0..r.within(1, 2) {
        let place = r.below(line.len() as u32) as usize;
        let other = r.one_of(b"0123456789abcdefABF-+ \tEQ\r\n\x00\xff");
        match r.below(6) {
            0 => line.insert(place, other),
            1 if line.len() > 1 => drop(line.remove(place)),
            2 => line.truncate(place.max(1)),
            3 => {
                let mut fields: Vec<Vec<u8>> = line.split(|b| *b == b'\t').map(<[u8]>::to_vec).collect();
                let at = r.below(fields.len() as u32) as usize;
                let texts = ["", "-0", "00", "+1", "-1", "0", "7f800000", "ffc00000", "7f7fffff", "80000000", "32768", "-32769", "4294967296", "1e5"];
                fields[at] = r.one_of(&texts).into();
                line = fields.join(&b'\t');
            }
            _ => line[place] = other,
        }
    }
    line
}

/// A line of 256ths with that next number.
fn quarters_from(r: &mut Random, next: u64) -> String {
    let one = |r: &mut Random| {
        let any = r.within(0, 65535) as i32 - 32768;
        let small = r.below(2048) as i32 - 1024;
        r.one_of(&[any, any, any, 0, -1, 32767, -32768, small])
    };
    let fields: String = (0..42).map(|_| format!("\t{}", one(r))).collect();
    format!("Q\t{next}{fields}")
}

/// A line of 256ths.
pub fn quarters(r: &mut Random) -> String {
    let next = number(r).min(4_294_967_295);
    quarters_from(r, next)
}

// ---- frames

/// A record without energies.
fn blank(next: u64) -> String {
    line_of(&([0; 42], next))
}

/// A frame of 20 bytes that is taken, to be changed.
fn good(r: &mut Random) -> Asked {
    let mut bytes: Vec<u8> = (0..20).map(|_| r.below(256) as u8).collect();
    let state = coder::numbers(&entdec::ec_dec_init(&mut bytes).save());
    Asked { c: 1, lm: 0, start: 0, end: 21, intra: 1, state, bytes, ..energy_sequences::asked(r, true, 0) }
}

/// Recorded frames, each on the record that it met.
fn recorded(r: &mut Random, list: &mut Vec<Sequence>) {
    let mut calls: Vec<Asked> = vec![];
    energy_sequences::traffic(r, &mut calls);
    calls.retain(|a| a.coarse && a.bytes.len() <= LONGEST);
    for (next, a) in chosen(r, &calls, 54).iter().enumerate() {
        let record: Record = (a.energies.clone().try_into().expect("42 energies"), next as u64);
        list.push(vec![line_of(&record), frame_line(next as u32, a)]);
    }
}

/// The bounds of a frame, one by one, and two faults at once.
fn bounds(r: &mut Random, list: &mut Vec<Sequence>) {
    let g = good(r);
    let with = |changes: &[(usize, u32)]| {
        let mut state: State = g.state;
        changes.iter().for_each(|&(at, v)| state[at] = v);
        Asked { state, ..g.clone() }
    };
    let of_bytes = |n: usize| Asked { bytes: vec![7; n], ..g.clone() };
    let (mono, rng) = (Asked { c: 0, ..g.clone() }, g.state[6]);
    let late = with(&[(5, 220)]);
    let frames = [
        (5, g.clone()), (8, g.clone()), (0, g.clone()), (7, mono.clone()), (7, Asked { c: 3, ..g.clone() }), (7, Asked { lm: -1, ..g.clone() }),
        (7, Asked { lm: 4, ..g.clone() }), (7, Asked { start: -1, ..g.clone() }), (7, Asked { start: 21, ..g.clone() }),
        (7, Asked { end: 22, ..g.clone() }), (7, Asked { intra: -1, ..g.clone() }), (7, Asked { intra: 2, ..g.clone() }), (u32::MAX, g.clone()),
        (u32::MAX - 1, g.clone()), (7, of_bytes(19)), (7, of_bytes(21)), (7, of_bytes(0)), (7, with(&[(1, 21)])), (7, with(&[(2, 21)])),
        (7, with(&[(4, 33)])), (7, with(&[(5, 32)])), (7, with(&[(5, 65536)])), (7, with(&[(6, 1 << 23), (7, 0)])), (7, with(&[(6, (1 << 31) + 1)])),
        (7, with(&[(7, rng)])), (7, with(&[(9, 256)])), (7, late.clone()), (7, Asked { c: 0, ..of_bytes(0) }), (5, mono.clone()), (9, mono.clone()),
        (5, late.clone()), (9, late), (7, g.clone()),
    ];
    list.push(std::iter::once(blank(7)).chain(frames.iter().map(|(number, a)| frame_line(*number, a))).collect());
    // An energy that is not finite, and each fault that goes before it or after it.
    for (which, place) in [0, 20, 41].iter().enumerate() {
        let faults = [(7, g.clone()), (5, g.clone()), (7, mono.clone()), (7, of_bytes(0))].map(|(number, a)| frame_line(number, &a));
        list.push([vec![blank(7), format!("X\t{place}\t{which}")], faults.to_vec()].concat());
    }
    // A next number past the last one, and an energy with it.
    list.push(vec![blank(7), "T\t4294967295\t1".into(), frame_line(7, &g), "X\t3\t0".into(), frame_line(7, &g)]);
}

/// The last numbers, and frames one after the other.
fn numbers(r: &mut Random, list: &mut Vec<Sequence>) {
    let g = good(r);
    let last = u32::MAX - 1;
    let frames = [last, 0, last - 1, last, u32::MAX].map(|n| frame_line(n, &g));
    list.push([vec![blank(last as u64)], frames.to_vec()].concat());
    list.push(vec![blank(last as u64 + 1), frame_line(last, &g)]);
    list.push(vec![quarters_from(r, 0), frame_line(0, &g)]);
    // Empty packets: document 01's example of intra, and then frames that go on from it.
    let empty = |intra: i32, c: i32| {
        let state = coder::numbers(&entdec::ec_dec_init(&mut []).save());
        Asked { c, end: 1, intra, state, bytes: vec![], ..g.clone() }
    };
    list.push(std::iter::once("N".to_string()).chain((0..4).map(|n| frame_line(n, &empty((n == 0) as i32, 1)))).collect());
    list.push(vec![blank(0), frame_line(0, &empty(1, 2))]);
    list.push(vec!["N".into(), frame_line(0, &g), frame_line(2, &g), frame_line(1, &g), frame_line(0, &g), frame_line(2, &g)]);
}

// ---- lines

/// A line of 42 fields that all are alike, and some that are not.
fn line_with(letter: &str, next: &str, field: &str, others: &[(usize, &str)]) -> String {
    let mut fields = vec![field; 42];
    others.iter().for_each(|&(at, text)| fields[at] = text);
    format!("{letter}\t{next}\t{}", fields.join("\t"))
}

/// Lines that are no records, and records whose energies are not finite.
fn bad_lines(_: &mut Random, list: &mut Vec<Sequence>) {
    let zero = "00000000";
    let good = line_with("E", "0", zero, &[]);
    let mut lines = vec![String::new(), "E".into(), "E\t0".into(), good.replace('\t', " "), format!(" {good}"), format!("{good} "), format!("{good}\r")];
    lines.extend(["e", "EE", "R", "", "Q"].map(|letter| line_with(letter, "0", zero, &[])));
    lines.extend([good[..good.len() - 9].to_string(), format!("{good}\t{zero}"), format!("{good}\t")]);
    let numbers = ["", "00", "01", "+1", "-1", "-0", "1.0", "0x1", "a", "4294967296", "99999999999999999999", " 1", "1 "];
    lines.extend(numbers.map(|next| line_with("E", next, zero, &[])));
    let words = [
        (0, "0000000A"), (20, "ABCDEF01"), (41, "0000000g"), (5, "0000000"), (5, "000000000"), (5, ""), (5, " 0000000"), (5, "0x000000"),
        (5, "+0000000"), (5, "-1"), (5, "\u{e9}00000"),
    ];
    lines.extend(words.map(|other| line_with("E", "0", zero, &[other])));
    let wild = [(0, "7f800000"), (20, "ff800000"), (21, "7fc00000"), (41, "ffffffff"), (7, "7f800001"), (7, "ff800001")];
    lines.extend(wild.map(|other| line_with("E", "0", zero, &[other])));
    // Malformed and not finite, in either order: malformed goes first.
    lines.push(line_with("E", "0", zero, &[(3, "0000000A"), (40, "7f800000")]));
    lines.push(line_with("E", "0", zero, &[(3, "7f800000"), (40, "0000000A")]));
    lines.push(line_with("E", "4294967296", zero, &[(3, "7f800000")]));
    lines.push(line_with("E", "0", zero, &[(3, "7f800000")])[..good.len() - 9].to_string());
    let wholes = [
        (0, "32768"), (41, "-32769"), (20, "-0"), (3, "+1"), (3, "01"), (3, "00"), (3, ""), (3, "1.5"), (3, "-"), (3, "7f800000"), (3, "99999999999"),
        (3, "-01"), (3, "1\r"),
    ];
    lines.extend(wholes.map(|other| line_with("Q", "0", "0", &[other])));
    let good = line_with("Q", "0", "0", &[]);
    lines.extend([good[..good.len() - 2].to_string(), format!("{good}\t0"), line_with("q", "0", "0", &[])]);
    lines.extend(["4294967296", "-1"].map(|next| line_with("Q", next, "0", &[])));
    list.extend(lines.into_iter().map(|line| vec![line]));
}

/// Lines at their limits, each shown by a frame that is refused, so that the record is saved as it was restored.
fn good_lines(r: &mut Random, list: &mut Vec<Sequence>) {
    let short = frame_line(7, &Asked { bytes: vec![0], ..good(r) });
    let words = ["00000000", "80000000", "00000001", "80000001", "007fffff", "00800000", "7f7fffff", "ff7fffff", "3f800000", "bf800000", "c1100000"];
    let wholes = ["0", "1", "-1", "2", "-2", "3", "255", "256", "-256", "257", "-2304", "32767", "-32768", "-32767", "12345", "-9999"];
    let placed = |texts: &[&'static str]| texts.iter().enumerate().map(|(at, t)| (at, *t)).collect::<Vec<(usize, &str)>>();
    let lines = [
        line_with("E", "4294967295", "00000000", &placed(&words)),
        line_with("Q", "12", "0", &placed(&wholes)),
        line_with("Q", "0", "-5", &[]),
        line_with("Q", "4294967295", "0", &[(3, "1")]),
    ];
    list.extend(lines.map(|line| vec![line, short.clone()]));
}

// ---- at random

/// A few frames one after the other, with repeats, gaps and faults between them.
fn any_frames(r: &mut Random) -> Sequence {
    let mut next = r.one_of(&[0, 0, 5, u32::MAX - 3]);
    let mut lines = vec![if next == 0 { "N".to_string() } else { line_with("Q", &next.to_string(), "0", &[(r.below(42) as usize, "-777")]) }];
    for _ in 0..r.within(2, 6) {
        let most = r.one_of(&[3, 9, 16]);
        let storage = r.within(0, most);
        let mut a = energy_sequences::asked(r, true, storage);
        match r.below(12) {
            0 => a.state[5] = 8 * storage + r.within(60, 66),
            1 => a.state[r.below(11) as usize] = r.one_of(&[0, 1, 31, 256, 1 << 23, u32::MAX]),
            2 => *[&mut a.c, &mut a.lm, &mut a.start, &mut a.end, &mut a.intra][r.below(5) as usize] = r.one_of(&[-1, 0, 4, 22, i32::MAX, i32::MIN]),
            3 => lines.push(format!("X\t{}\t{}", r.below(42), r.below(WILD.len() as u32))),
            4 => lines.push(format!("T\t{}\t{}", next, r.one_of(&[0, 1, u32::MAX]))),
            _ => (),
        }
        let any = r.within(0, u32::MAX);
        lines.push(frame_line(r.one_of(&[next, next, next, next, next.wrapping_sub(1), next.wrapping_add(1), any]), &a));
        next = next.saturating_add(1);
    }
    lines
}

/// A damaged line, where it is text of one line and none of the other requests.
fn any_line(r: &mut Random) -> Option<Sequence> {
    let whole = if r.below(3) == 0 { line_of(&(energy_sequences::energies(r).try_into().expect("42 energies"), number(r))) } else { quarters(r) };
    let line = String::from_utf8(damaged(r, whole.as_bytes())).ok()?;
    let plain = !line.contains('\n') && !line.starts_with(['F', 'N', 'T', 'X']);
    plain.then(|| vec![line, frame_line(7, &Asked { bytes: vec![0], ..good(r) })])
}

fn size(sequence: &Sequence) -> usize {
    sequence.iter().map(|line| line.len() + 1).sum()
}

pub fn all(r: &mut Random) -> Vec<Sequence> {
    let mut list = vec![];
    for family in [recorded, bounds, numbers, bad_lines, good_lines] {
        family(r, &mut list);
    }
    let mut left = ROOM.checked_sub(list.iter().map(size).sum()).expect("the program reads more");
    loop {
        let next = if r.below(4) == 0 { any_line(r) } else { Some(any_frames(r)) };
        let Some(next) = next else { continue };
        let Some(less) = left.checked_sub(size(&next)) else { return list };
        left = less;
        list.push(next);
    }
}

/// What the sequences reach, for the reader of the record.
pub fn figures(sequences: &[Sequence]) -> Vec<String> {
    let (mut frames, mut lines) = (BTreeMap::<String, u32>::new(), BTreeMap::<String, u32>::new());
    for sequence in sequences {
        let mut o = Oracle::new();
        for answer in sequence.iter().filter_map(|line| o.answer(line)) {
            for line in answer.lines() {
                let fields: Vec<&str> = line.split('\t').collect();
                match fields[0] {
                    "F" => *frames.entry(fields[1..4].join(" ")).or_default() += 1,
                    "E" => *lines.entry("saved".to_string()).or_default() += 1,
                    "S" => *lines.entry(format!("save refused as {}", fields[1])).or_default() += 1,
                    _ if fields[1] == "0" => *lines.entry("restored".to_string()).or_default() += 1,
                    _ => *lines.entry(format!("restore refused as {}", fields[1])).or_default() += 1,
                }
            }
        }
    }
    let shown = |list: &BTreeMap<String, u32>| list.iter().map(|(what, n)| format!("{what}: {n}")).collect::<Vec<String>>().join(", ");
    vec![format!("frames, by the numbers of the three tries: {}", shown(&frames)), format!("lines: {}", shown(&lines))]
}
