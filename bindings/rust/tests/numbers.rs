//! Numbers at the borders of the domain and far outside it.

use gurthapen::{Allocation, Coarse, Frame, LastBits, Reader, Record, Refusal, Shape, Wishes, Writer};

const MAX: u32 = u32::MAX;

#[test]
fn reads() {
    let packet = [0x35; 30];
    let fresh = Reader::new(&packet).unwrap();
    let mut r = fresh.clone();
    for logp in [0, 16, 17, 1 << 31, MAX] {
        assert_eq!(r.bit_logp(logp), Err(Refusal::Number));
    }
    for ftb in [0, 9, 32, MAX] {
        assert_eq!(r.icdf(&[1, 0], ftb), Err(Refusal::Number));
    }
    for (table, ftb) in [(&[0u8, 0][..], 1), (&[1, 1], 2), (&[1], 2), (&[2, 0], 1), (&[255, 0, 1], 8)] {
        assert_eq!(r.icdf(table, ftb), Err(Refusal::Entry));
    }
    assert_eq!(r.icdf(&[], MAX), Err(Refusal::Length));
    for ft in [0, 1] {
        assert_eq!(r.uint(ft), Err(Refusal::Number));
    }
    for n in [0, 26, 32, MAX] {
        assert_eq!(r.bits(n), Err(Refusal::Number));
    }
    for (fs, decay) in [(0, 0), (MAX, MAX), (72 << 7, 0), (128, 64), ((72 << 7) + 1, 127 << 6)] {
        assert_eq!(r.laplace(fs, decay), Err(Refusal::Number));
    }
    let mut y = [3; 176];
    for (n, k, no) in [
        (0, 1, Refusal::Number),
        (1, 1, Refusal::Number),
        (177, 1, Refusal::Number),
        (MAX, 1, Refusal::Number),
        (2, 0, Refusal::Number),
        (2, 129, Refusal::Number),
        (2, MAX, Refusal::Number),
        (6, 96, Refusal::Count),
        (176, 128, Refusal::Count),
    ] {
        assert_eq!(r.pulses(&mut y, n, k), Err(no));
    }
    assert_eq!(y, [3; 176]);
    assert_eq!(r, fresh);
    assert!(r.uint(MAX).is_ok());
    assert!(r.bits(25).is_ok());
}

#[test]
fn writes() {
    let mut bytes = [0x35; 30];
    let mut w = Writer::new(&mut bytes).unwrap();
    let before = w.state();
    for (symbol, no) in [(2, Refusal::Number), (MAX, Refusal::Number)] {
        assert_eq!(w.icdf(symbol, &[1, 0], 1), Err(no));
    }
    for (fl, ft) in [(0, 0), (0, 1), (2, 2), (MAX, MAX)] {
        assert_eq!(w.uint(fl, ft), Err(Refusal::Number));
    }
    for (v, n) in [(0, 0), (2, 1), (1 << 25, 25), (0, 26), (MAX, MAX)] {
        assert_eq!(w.bits(v, n), Err(Refusal::Number));
    }
    for value in [-32_769, 32_768, i32::MIN, i32::MAX] {
        assert_eq!(w.laplace(value, 72 << 7, 127 << 6), Err(Refusal::Number));
    }
    let mut y = [0; 176];
    assert_eq!(w.pulses(&y, 2, 1), Err(Refusal::Sum));
    y[0] = i32::MIN;
    y[1] = i32::MIN;
    assert_eq!(w.pulses(&y, 2, 1), Err(Refusal::Sum));
    y[..2].copy_from_slice(&[i32::MAX, i32::MAX]);
    assert_eq!(w.pulses(&y, 2, 128), Err(Refusal::Sum));
    assert_eq!(w.pulses(&y, 6, 96), Err(Refusal::Count));
    assert_eq!(w.state(), before);
    assert_eq!(w.bytes(), [0x35; 30]);
    assert_eq!(w.uint(MAX - 1, MAX), Ok(()));
    assert_eq!(w.bits((1 << 25) - 1, 25), Ok(()));
}

#[test]
fn allocations() {
    let good = Frame {
        channels: 2,
        lm: 3,
        start: 0,
        end: 21,
        trim: 5,
        total: 4000,
        offsets: [0; 21],
        caps: [3000; 21],
    };
    let packet = [0xb1; 60];
    let fresh = Reader::new(&packet).unwrap();
    let mut into = Allocation {
        coded: -1,
        ..Default::default()
    };
    let before = into;
    let mut numbers = vec![];
    for far in [i32::MIN, -1, i32::MAX] {
        numbers.push(Frame { channels: far, ..good });
        numbers.push(Frame { lm: far, ..good });
        numbers.push(Frame { start: far, ..good });
        numbers.push(Frame { end: far, ..good });
        numbers.push(Frame { trim: far, ..good });
    }
    numbers.extend([
        Frame { channels: 0, ..good },
        Frame { channels: 3, ..good },
        Frame { lm: 4, ..good },
        Frame { start: 21, ..good },
        Frame { start: 5, end: 5, ..good },
        Frame { end: 22, ..good },
        Frame { trim: 11, ..good },
        Frame { total: 81_601, ..good },
        Frame { total: i32::MAX, ..good },
    ]);
    for frame in &numbers {
        let mut r = fresh.clone();
        assert_eq!(r.allocation(frame, &mut into), Err(Refusal::Number), "{frame:?}");
        assert_eq!((&r, into), (&fresh, before));
    }
    for (i, offset, cap) in [(0, -1, 0), (20, 81_601, 0), (20, 0, -1), (0, 0, 32_768), (7, i32::MIN, i32::MAX)] {
        let mut frame = good;
        frame.end = 3;
        frame.offsets[i] = offset;
        frame.caps[i] = cap;
        let mut r = fresh.clone();
        assert_eq!(r.allocation(&frame, &mut into), Err(Refusal::Entry), "{frame:?}");
        assert_eq!((&r, into), (&fresh, before));
    }
    for (intensity, dual, takes) in [
        (0, 0, true),
        (21, 1, true),
        (22, 0, false),
        (-1, 0, false),
        (0, 2, false),
        (0, -1, false),
        (i32::MAX, 0, false),
    ] {
        for (previous, bandwidth) in [(i32::MIN, i32::MAX), (0, 20), (i32::MAX, i32::MIN)] {
            let mut bytes = [9; 60];
            let mut w = Writer::new(&mut bytes).unwrap();
            let wishes = Wishes {
                intensity,
                dual,
                previous,
                bandwidth,
            };
            let answer = w.allocation(&good, &wishes, &mut into.clone());
            assert_eq!(answer, if takes { Ok(()) } else { Err(Refusal::Number) }, "{wishes:?}");
            // with one channel they are not looked at
            let mut w = Writer::new(&mut bytes).unwrap();
            assert_eq!(w.allocation(&Frame { channels: 1, ..good }, &wishes, &mut into.clone()), Ok(()));
        }
    }
    for total in [i32::MIN, -1, 0, 81_600] {
        let mut r = fresh.clone();
        assert_eq!(r.allocation(&Frame { total, ..good }, &mut into.clone()), Ok(()));
    }
}

/// Document 01's figures: C, total, then pulses, fine bits, priority and balance of band 0.
#[test]
fn figures() {
    for (channels, total, pulses, fine, priority, balance) in
        [(1, 71, 8, 7, 0, 7), (1, 100, 8, 8, 0, 28), (1, -5, 0, 0, 1, 0), (2, 7, 7, 0, 1, 0)]
    {
        let mut frame = Frame {
            channels,
            lm: 0,
            start: 0,
            end: 1,
            trim: 5,
            total,
            ..Default::default()
        };
        frame.caps[0] = (224 + 64) * channels / 4;
        let mut into = Allocation::default();
        Reader::new(&[0; 8]).unwrap().allocation(&frame, &mut into).unwrap();
        assert_eq!(
            (into.pulses[0], into.fine[0], into.priorities[0], into.balance),
            (pulses, fine, priority, balance)
        );
    }
    for (i, pulses) in [(7, 7), (8, 8), (23, 30), (40, 128)] {
        assert_eq!(gurthapen::get_pulses(i), Ok(pulses));
    }
}

#[test]
fn energies() {
    let packet = [0x6d; 30];
    let fresh = Reader::new(&packet).unwrap();
    let good = Coarse {
        channels: 2,
        lm: 2,
        start: 3,
        end: 19,
        intra: false,
    };
    let mut wrong = vec![];
    for far in [i32::MIN, -1, i32::MAX] {
        wrong.push(Coarse { channels: far, ..good });
        wrong.push(Coarse { lm: far, ..good });
        wrong.push(Coarse { start: far, ..good });
        wrong.push(Coarse { end: far, ..good });
    }
    wrong.extend([
        Coarse { channels: 0, ..good },
        Coarse { channels: 3, ..good },
        Coarse { lm: 4, ..good },
        Coarse { start: 19, ..good },
        Coarse { end: 22, ..good },
        Coarse { end: 3, ..good },
    ]);
    let mut energies = [0.5; 42];
    for coarse in &wrong {
        let mut r = fresh.clone();
        let mut record = Record::fresh();
        assert_eq!(r.coarse(&mut energies, coarse), Err(Refusal::Number), "{coarse:?}");
        assert_eq!(record.frame(&mut r, 0, coarse), Err(Refusal::Number), "{coarse:?}");
        assert_eq!(record.frame(&mut r, 1, coarse), Err(Refusal::Number), "{coarse:?}");
        let last = LastBits {
            channels: coarse.channels,
            start: coarse.start,
            end: coarse.end,
            ..Default::default()
        };
        let lm_alone = coarse.lm != good.lm;
        assert_eq!(
            r.finalise(&mut energies, &last),
            if lm_alone { Ok(()) } else { Err(Refusal::Number) },
            "{last:?}"
        );
        assert_eq!((&r, energies, record), (&fresh, [0.5; 42], Record::fresh()));
    }
    for (place, fine, priority) in [(0, 9, 0), (20, -1, 0), (20, 0, 2), (0, 0, -1), (7, i32::MIN, i32::MAX)] {
        let mut last = LastBits {
            channels: 1,
            start: 3,
            end: 4,
            left: i32::MAX,
            ..Default::default()
        };
        last.fine[place] = fine;
        last.priorities[place] = priority;
        let mut r = fresh.clone();
        assert_eq!(r.finalise(&mut energies, &last), Err(Refusal::Entry), "{last:?}");
        assert_eq!((&r, energies), (&fresh, [0.5; 42]));
    }
    for place in [0, 3, 20, 21, 41] {
        for wild in [f32::NAN, f32::INFINITY, f32::NEG_INFINITY] {
            let mut energies = [0.5; 42];
            energies[place] = wild;
            let before = energies.map(f32::to_bits);
            let mut r = fresh.clone();
            let last = LastBits {
                channels: 1,
                start: 3,
                end: 4,
                ..Default::default()
            };
            assert_eq!(r.coarse(&mut energies, &Coarse { channels: 1, ..good }), Err(Refusal::Entry));
            assert_eq!(r.finalise(&mut energies, &last), Err(Refusal::Entry));
            let mut record = Record::from_parts(energies, 5);
            for number in [4, 5, 6] {
                assert_eq!(record.frame(&mut r, number, &good), Err(Refusal::Entry));
            }
            assert_eq!(record.save(), Err(Refusal::Entry));
            assert_eq!((energies.map(f32::to_bits), r), (before, fresh.clone()));
        }
    }
}

#[test]
fn shapes() {
    let packet = [0x6d; 30];
    let fresh = Reader::new(&packet).unwrap();
    let good = Shape {
        k: 4,
        spread: 0,
        b: 4,
        gain: -1.0,
    };
    let mut into = [0.25; 16];
    let mut wrong = vec![];
    for far in [i32::MIN, -1, i32::MAX] {
        wrong.push((Shape { k: far, ..good }, Refusal::Number));
        wrong.push((Shape { spread: far, ..good }, Refusal::Number));
        wrong.push((Shape { b: far, ..good }, Refusal::Number));
    }
    wrong.extend([
        (Shape { k: 0, ..good }, Refusal::Number),
        (Shape { k: 129, ..good }, Refusal::Number),
        (Shape { spread: 4, ..good }, Refusal::Number),
        (Shape { b: 0, ..good }, Refusal::Number),
        (Shape { b: 3, ..good }, Refusal::Number),
        (Shape { b: 17, ..good }, Refusal::Number),
        (Shape { gain: f32::NAN, ..good }, Refusal::Entry),
        (
            Shape {
                gain: 1.0 + f32::EPSILON,
                ..good
            },
            Refusal::Entry,
        ),
        (Shape { gain: f32::MIN, ..good }, Refusal::Entry),
        (
            Shape {
                gain: f32::NEG_INFINITY,
                ..good
            },
            Refusal::Entry,
        ),
        (Shape { k: 128, ..good }, Refusal::Count),
        (Shape { k: 128, spread: 1, ..good }, Refusal::Count),
        (Shape { spread: 1, ..good }, Refusal::Rotation),
        (Shape { k: 7, spread: 3, ..good }, Refusal::Rotation),
    ]);
    for (shape, no) in wrong {
        let mut r = fresh.clone();
        assert_eq!(r.shape(&mut into, &shape), Err(no), "{shape:?}");
        assert_eq!((&r, into), (&fresh, [0.25; 16]));
    }
    for places in [0, 1, 177, 1000] {
        assert_eq!(
            fresh.clone().shape(&mut vec![0.0; places], &Shape { b: 1, ..good }),
            Err(Refusal::Number)
        );
    }
    for (places, k, b) in [(2, 128, 2), (176, 1, 16), (176, 3, 11), (16, 8, 16), (109, 5, 1)] {
        let mut into = vec![9.0; places];
        let spread = if 2 * k < places as i32 { 0 } else { 3 };
        let mask = fresh.clone().shape(&mut into, &Shape { k, spread, b, gain: 1.0 }).unwrap();
        assert!(mask > 0 && mask < 1 << b);
        let energy: f64 = into.iter().map(|&x| f64::from(x) * f64::from(x)).sum();
        assert!((energy - 1.0).abs() < 1e-5, "{energy}");
    }
}

/// Document 01's figures of energies: a last bit with 7 fine bits adds 1/512, and an empty packet with intra gives -1 in band 0.
#[test]
fn energy_figures() {
    let mut last = LastBits {
        channels: 1,
        start: 0,
        end: 1,
        left: 1,
        ..Default::default()
    };
    last.fine[0] = 7;
    let mut energies = [0.0; 42];
    Reader::new(&[1]).unwrap().finalise(&mut energies, &last).unwrap();
    assert_eq!((energies[0], &energies[1..]), (1.0 / 512.0, &[0.0; 41][..]));
    let coarse = Coarse {
        channels: 1,
        lm: 0,
        start: 0,
        end: 1,
        intra: true,
    };
    let mut energies = [0.0; 42];
    Reader::new(&[]).unwrap().coarse(&mut energies, &coarse).unwrap();
    assert_eq!((energies[0], &energies[1..]), (-1.0, &[0.0; 41][..]));
}
