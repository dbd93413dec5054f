//! A round trip ends as the writer's calls do, made one after the other: the first refusal, the error mark of close, or agreement.

mod common;

use common::Random;
use gurthapen::{raw, round_trip, Allocation, Call, Frame, Outcome, Refusal, Symbol, Wishes, Writer};

const TABLES: [&[u8]; 5] = [&[2, 1, 0], &[255, 128, 5, 0], &[0], &[], &[1, 2, 0]];

/// Mostly good, some at a border or past it.
fn some_symbol(random: &mut Random) -> Symbol<'static> {
    let odd = random.below(60) == 0;
    match random.below(5) {
        0 => Symbol::Bit {
            value: random.below(2) == 1,
            logp: if odd { random.below(17) } else { 1 + random.below(15) } as u32,
        },
        1 => {
            let table = if odd {
                random.one_of(&TABLES)
            } else {
                TABLES[random.below(2) as usize]
            };
            let ftb = if odd { random.below(10) } else { 8 } as u32;
            Symbol::Table {
                value: random.below(table.len() as u64 + u64::from(odd)) as u32,
                table,
                ftb,
            }
        }
        2 => {
            let ft = if odd {
                random.below(3) as u32
            } else {
                (random.next() as u32 >> random.below(31)).max(2)
            };
            Symbol::Uniform {
                value: random.below(u64::from(ft) + u64::from(odd)) as u32,
                ft,
            }
        }
        3 => {
            let n = if odd {
                random.one_of(&[0, 25, 26, 32])
            } else {
                1 + random.below(25) as u32
            };
            Symbol::Raw {
                value: random.below(1 << n.min(31)) as u32,
                n,
            }
        }
        _ => {
            let value = if odd {
                random.one_of(&[-32_769, -32_768, 32_767, 32_768, i32::MIN, i32::MAX])
            } else {
                random.below(41) as i32 - 20
            };
            Symbol::Laplace {
                value,
                fs: if odd { 128 } else { 72 << 7 },
                decay: 127 << 6,
            }
        }
    }
}

fn some_frame(random: &mut Random) -> (Frame, Wishes) {
    let start = random.below(21) as i32;
    let end = start + 1 + random.below(21 - start as u64) as i32;
    let mut frame = Frame {
        channels: 1 + random.below(2) as i32,
        lm: random.below(4) as i32,
        start,
        end,
        trim: random.below(11) as i32,
        total: random.below(9_000) as i32 - 100,
        ..Default::default()
    };
    for j in 0..21 {
        frame.offsets[j] = if random.below(5) == 0 { random.below(600) as i32 } else { 0 };
        frame.caps[j] = random.below(5_000) as i32;
    }
    let wishes = Wishes {
        intensity: start + random.below((end - start) as u64 + 1) as i32,
        dual: random.below(2) as i32,
        previous: random.below(22) as i32,
        bandwidth: random.below(22) as i32,
    };
    match random.below(40) {
        0 => frame.total = 81_601,
        1 => frame.caps[20] = -1,
        2 => frame.end = 22,
        _ => {}
    }
    (frame, wishes)
}

/// The writer's calls, one after the other.
fn written(bytes: &[u8], symbols: &[Symbol<'_>], frame: &Frame, wishes: &Wishes) -> Outcome {
    let mut bytes = bytes.to_vec();
    let mut w = match Writer::new(&mut bytes) {
        Ok(w) => w,
        Err(why) => return Outcome::Refused(Call::New, why),
    };
    for (at, symbol) in symbols.iter().enumerate() {
        let answer = match *symbol {
            Symbol::Bit { value, logp } => w.bit_logp(value, logp),
            Symbol::Table { value, table, ftb } => w.icdf(value, table, ftb),
            Symbol::Uniform { value, ft } => w.uint(value, ft),
            Symbol::Raw { value, n } => w.bits(value, n),
            Symbol::Laplace { value, fs, decay } => w.laplace(value, fs, decay).map(drop),
        };
        if let Err(why) = answer {
            return Outcome::Refused(Call::Symbol(at), why);
        }
    }
    if let Err(why) = w.allocation(frame, wishes, &mut Allocation::default()) {
        return Outcome::Refused(Call::Allocation, why);
    }
    match w.close() {
        Err(why) => Outcome::Refused(Call::Close, why),
        Ok(()) if w.error() => Outcome::NotClosed,
        Ok(()) => Outcome::Agreed,
    }
}

#[test]
fn as_the_writer_says() {
    let mut random = Random(3);
    let mut ends = [0; 5];
    for _ in 0..5_000 {
        let storage = match random.below(20) {
            0 => 1_274 + random.below(3),
            1..=4 => random.below(4),
            _ => random.below(120),
        };
        let bytes = vec![random.next() as u8; storage as usize];
        let symbols: Vec<Symbol> = (0..random.below(30)).map(|_| some_symbol(&mut random)).collect();
        let (frame, wishes) = some_frame(&mut random);
        let outcome = round_trip(&bytes, &symbols, &frame, &wishes);
        assert_eq!(
            outcome,
            written(&bytes, &symbols, &frame, &wishes),
            "{bytes:?} {symbols:?} {frame:?} {wishes:?}"
        );
        match outcome {
            Outcome::Agreed => ends[0] += 1,
            Outcome::NotClosed => ends[1] += 1,
            Outcome::Refused(Call::New, _) => ends[2] += 1,
            Outcome::Refused(Call::Symbol(_), _) => ends[3] += 1,
            Outcome::Refused(Call::Allocation, _) => ends[4] += 1,
            other => panic!("{other:?}"),
        }
    }
    assert!(ends.iter().all(|&n| n > 50), "{ends:?}");
}

/// The first refusal is given, with its place.
#[test]
fn refusals() {
    let (frame, wishes) = (
        Frame {
            channels: 2,
            lm: 3,
            end: 21,
            total: 900,
            caps: [4_000; 21],
            ..Default::default()
        },
        Wishes::default(),
    );
    let good = Symbol::Raw { value: 1, n: 2 };
    let bad = Symbol::Table {
        value: 0,
        table: &[],
        ftb: 2,
    };
    let rising = Symbol::Table {
        value: 0,
        table: &[1, 1, 0],
        ftb: 2,
    };
    let ends = |bytes: &[u8], symbols: &[Symbol]| round_trip(bytes, symbols, &frame, &wishes);
    assert_eq!(ends(&[0; 1276], &[bad]), Outcome::Refused(Call::New, Refusal::Number));
    assert_eq!(
        ends(&[0; 40], &[good, bad, rising]),
        Outcome::Refused(Call::Symbol(1), Refusal::Length)
    );
    assert_eq!(
        ends(&[0; 40], &[good, good, rising]),
        Outcome::Refused(Call::Symbol(2), Refusal::Entry)
    );
    assert_eq!(ends(&[], &[good; 100]), Outcome::Refused(Call::Symbol(16), Refusal::PastEnd));
    assert_eq!(ends(&[], &[]), Outcome::NotClosed);
    assert_eq!(ends(&[0; 40], &[good; 3]), Outcome::Agreed);
    let stereo = Wishes { intensity: 22, ..wishes };
    assert_eq!(
        round_trip(&[0; 40], &[good], &frame, &stereo),
        Outcome::Refused(Call::Allocation, Refusal::Number)
    );
}

/// An outcome that has not four numbers is 2, before everything else, and nothing is written; offsets and caps of other lengths are in the outcome.
#[test]
fn lengths() {
    let call = |offsets: &[i32], caps: &[i32], outcome: &mut [u64]| {
        raw::round_trip(
            &[7; 9],
            &[0, 1, 3, 0, 0],
            &[],
            1,
            0,
            0,
            21,
            5,
            100,
            0,
            0,
            0,
            0,
            offsets,
            caps,
            outcome,
        )
    };
    for n in [0, 1, 3, 5, 1000] {
        let mut outcome = vec![77; n];
        assert_eq!(call(&[-1; 3], &[], &mut outcome), 2);
        assert_eq!(outcome, vec![77; n]);
    }
    let mut outcome = [77; 4];
    for n in [0, 20, 22] {
        assert_eq!(call(&vec![0; n], &[0; 21], &mut outcome), 0);
        assert_eq!(outcome, [2, 2, 0, 2]);
        assert_eq!(call(&[0; 21], &vec![0; n], &mut outcome), 0);
        assert_eq!(outcome, [2, 2, 0, 2]);
    }
    assert_eq!(call(&[0; 21], &[100; 21], &mut outcome), 0);
    assert_eq!(outcome, [0; 4]);
}

/// What is no list of symbols is refused, the length before a kind or a table, and the outcome stays; numbers that a kind has no use for are not looked at.
#[test]
fn no_symbols() {
    let call = |symbols: &[u32], caps: &[i32]| {
        let mut outcome = [77; 4];
        let tables = [7, 2, 1, 0];
        let answer = raw::round_trip(
            &[7; 9],
            symbols,
            &tables,
            1,
            0,
            0,
            21,
            5,
            100,
            0,
            0,
            0,
            0,
            &[0; 21],
            caps,
            &mut outcome,
        );
        (answer, outcome)
    };
    let kept = |no| (no, [77; 4]);
    let (caps, any) = ([100; 21], u32::MAX);
    assert_eq!(call(&[], &caps), (0, [0; 4]));
    assert_eq!(call(&[0, 1, 3, any, any, 2, 6, 7, any, any, 1, 0, 2, 1, 3], &caps), (0, [0; 4]));
    for n in [1, 2, 3, 4, 6, 9, 11] {
        assert_eq!(call(&vec![0; n], &caps), kept(2));
        assert_eq!(call(&vec![9; n], &[]), kept(2));
    }
    for kind in [5, 6, 1 << 31, any] {
        assert_eq!(call(&[kind, 0, 0, 0, 0], &caps), kept(1));
        assert_eq!(call(&[0, 2, 3, 0, 0, kind, 0, 0, 0, 0], &[]), kept(1));
    }
    for (first, entries) in [(4, 1), (0, 5), (2, 3), (5, 0), (any, 1), (1, any), (any, any)] {
        assert_eq!(call(&[1, 0, 2, first, entries], &caps), kept(1));
    }
    // none at the end of tables is there, but too short for its call
    assert_eq!(call(&[1, 0, 2, 4, 0], &caps), (0, [2, 1, 0, 2]));
}
