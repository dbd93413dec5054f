//! What was written is read back, with states that are taken out and handed in again at every symbol.

mod common;

use common::Random;
use gurthapen::{Allocation, Frame, Reader, Wishes, Writer};

#[derive(Clone, Debug)]
enum Symbol {
    Bit(bool, u32),
    Table(u32, Vec<u8>, u32),
    Uint(u32, u32),
    Bits(u32, u32),
    Laplace(i32),
    Pulses(Box<[i32; 176]>, u32, u32),
}

const FS: u32 = 72 << 7;
const DECAY: u32 = 127 << 6;

fn some_symbol(random: &mut Random) -> Symbol {
    match random.below(6) {
        0 => Symbol::Bit(random.below(2) == 1, 1 + random.below(15) as u32),
        1 => {
            let ftb = 1 + random.below(8) as u32;
            let mut table = vec![];
            let mut last = random.below(1 << ftb);
            while last > 0 {
                table.push(last as u8);
                last = random.below(last);
            }
            table.push(0);
            Symbol::Table(random.below(table.len() as u64) as u32, table, ftb)
        }
        2 => {
            let ft = ((2 + random.below(u64::from(u32::MAX) - 1)) as u32 >> random.below(31)).max(2);
            Symbol::Uint(random.below(u64::from(ft)) as u32, ft)
        }
        3 => {
            let n = 1 + random.below(25) as u32;
            Symbol::Bits(random.below(1 << n) as u32, n)
        }
        4 => Symbol::Laplace(random.below(41) as i32 - 20),
        _ => {
            let (n, k) = random.one_of(&[(2, 128), (3, 7), (8, 4), (176, 2), (14, 14)]);
            let mut y = [0; 176];
            for _ in 0..k {
                let place = random.below(u64::from(n)) as usize;
                y[place] += if y[place] < 0 || y[place] == 0 && random.below(2) == 0 {
                    -1
                } else {
                    1
                };
            }
            Symbol::Pulses(Box::new(y), n, k)
        }
    }
}

#[test]
fn symbols() {
    let mut random = Random(1);
    let mut whole = 0;
    for _ in 0..3_000 {
        let mut bytes = vec![random.next() as u8; random.below(120) as usize];
        let mut written = vec![];
        let mut state = Writer::new(&mut bytes).unwrap().state();
        for _ in 0..random.below(40) {
            let mut w = Writer::from_state(&mut bytes, state);
            let mut symbol = some_symbol(&mut random);
            let answer = match &mut symbol {
                Symbol::Bit(bit, logp) => w.bit_logp(*bit, *logp),
                Symbol::Table(s, table, ftb) => w.icdf(*s, table, *ftb),
                Symbol::Uint(v, ft) => w.uint(*v, *ft),
                Symbol::Bits(v, n) => w.bits(*v, *n),
                Symbol::Laplace(v) => w.laplace(*v, FS, DECAY).map(|counted| *v = counted),
                Symbol::Pulses(y, n, k) => w.pulses(y, *n, *k),
            };
            state = w.state();
            if answer.is_err() {
                break;
            }
            written.push((symbol, w.tell_frac().unwrap()));
        }
        let mut w = Writer::from_state(&mut bytes, state);
        w.close().unwrap();
        if w.error() {
            continue;
        }
        whole += 1;
        let mut state = Reader::new(&bytes).unwrap().state();
        for (symbol, tell) in written {
            let mut r = Reader::from_state(&bytes, state);
            match &symbol {
                Symbol::Bit(bit, logp) => assert_eq!(r.bit_logp(*logp), Ok(*bit)),
                Symbol::Table(s, table, ftb) => assert_eq!(r.icdf(table, *ftb), Ok(*s)),
                Symbol::Uint(v, ft) => assert_eq!(r.uint(*ft), Ok(*v)),
                Symbol::Bits(v, n) => assert_eq!(r.bits(*n), Ok(*v)),
                Symbol::Laplace(v) => assert_eq!(r.laplace(FS, DECAY), Ok(*v)),
                Symbol::Pulses(y, n, k) => {
                    let mut z = [0; 176];
                    assert_eq!(r.pulses(&mut z, *n, *k), Ok(y.iter().map(|v| (v * v) as u32).sum()));
                    assert_eq!(z, **y);
                }
            }
            assert_eq!(r.tell_frac(), Ok(tell), "{symbol:?}");
            assert!(!r.error());
            state = r.state();
        }
    }
    assert!(whole > 1000, "{whole}");
}

#[test]
fn allocations() {
    let mut random = Random(2);
    for _ in 0..2_000 {
        let start = random.below(21) as i32;
        let end = start + 1 + random.below(21 - start as u64) as i32;
        let mut frame = Frame {
            channels: 1 + random.below(2) as i32,
            lm: random.below(4) as i32,
            start,
            end,
            trim: random.below(11) as i32,
            total: random.below(9_000) as i32 - 100,
            ..Default::default()
        };
        for j in 0..21 {
            frame.offsets[j] = if random.below(5) == 0 { random.below(600) as i32 } else { 0 };
            frame.caps[j] = random.below(5_000) as i32;
        }
        let wishes = Wishes {
            intensity: start + random.below((end - start) as u64 + 1) as i32,
            dual: random.below(2) as i32,
            previous: random.below(22) as i32,
            bandwidth: random.below(22) as i32,
        };
        let mut bytes = [0; 1275];
        let mut w = Writer::new(&mut bytes).unwrap();
        let mut wrote = Allocation::default();
        w.allocation(&frame, &wishes, &mut wrote).unwrap();
        let tell = w.tell_frac();
        w.close().unwrap();
        let mut r = Reader::new(&bytes).unwrap();
        let mut read = Allocation::default();
        r.allocation(&frame, &mut read).unwrap();
        assert_eq!(wrote, read, "{frame:?} {wishes:?}");
        assert_eq!(tell, r.tell_frac());
    }
}
