//! Streams of frames on a record: each number once, in order; a saved record comes back bit for bit; any line is answered by document 01's rule.

mod common;

use common::Random;
use gurthapen::{Coarse, Reader, Record, Refusal};

fn some_packet(random: &mut Random) -> Vec<u8> {
    let n = random.one_of(&[0, 1, 2, 3, 10, 60]);
    (0..n).map(|_| random.next() as u8).collect()
}

fn some_coarse(random: &mut Random) -> Coarse {
    let start = random.below(21) as i32;
    Coarse {
        channels: 1 + random.below(2) as i32,
        lm: random.below(4) as i32,
        start,
        end: start + 1 + random.below(21 - start as u64) as i32,
        intra: random.below(2) == 1,
    }
}

fn bits(record: &Record) -> ([u32; 42], u64) {
    (record.energies().map(f32::to_bits), record.next())
}

#[test]
fn streams() {
    let mut random = Random(3);
    for _ in 0..500 {
        let first = random.one_of(&[0, 1, 77, 4_294_967_285]);
        let mut record = Record::from_parts([0.0; 42], first);
        let mut applied = vec![];
        for _ in 0..40 {
            let packet = some_packet(&mut random);
            let coarse = some_coarse(&mut random);
            let number = (record.next() + random.one_of(&[0, 0, 0, 1, 2, 1000])).saturating_sub(random.below(3));
            let fresh = Reader::new(&packet).unwrap();
            let mut reader = fresh.clone();
            let before = record.clone();
            match record.frame(&mut reader, number, &coarse) {
                Ok(()) => {
                    assert_eq!((number, record.next()), (before.next(), number + 1));
                    // one coarse decode, of the energies of the record
                    let (mut energies, mut alone) = (*before.energies(), fresh);
                    alone.coarse(&mut energies, &coarse).unwrap();
                    assert_eq!(bits(&record).0, energies.map(f32::to_bits));
                    assert_eq!(reader, alone);
                    // only its own bands and channels
                    for (place, (was, is)) in before.energies().iter().zip(record.energies()).enumerate() {
                        let (channel, band) = (place as i32 / 21, place as i32 % 21);
                        if channel >= coarse.channels || band < coarse.start || band >= coarse.end {
                            assert_eq!(was.to_bits(), is.to_bits());
                        }
                    }
                    applied.push(number);
                }
                Err(no) => {
                    let want = if number > 4_294_967_294 {
                        Refusal::Number
                    } else if number < before.next() {
                        Refusal::BelowNext
                    } else {
                        Refusal::AboveNext
                    };
                    assert_eq!(no, want, "{number} where {} is next", before.next());
                    assert_eq!(before.order(number), Err(no));
                    assert_eq!((bits(&record), reader), (bits(&before), fresh));
                }
            }
            if random.below(8) == 0 {
                let restored = Record::restore(record.save().unwrap().as_bytes()).unwrap();
                assert_eq!(bits(&restored), bits(&record));
                record = restored;
            }
        }
        assert!(applied.iter().copied().eq(first..record.next()), "each number once, in order");
    }
}

/// A number that was applied after the save is accepted once more, and gives the same.
#[test]
fn restored_answers_as_saved() {
    let mut random = Random(4);
    let mut record = Record::fresh();
    for number in 0..200 {
        let line = record.save().unwrap();
        let packet = some_packet(&mut random);
        let coarse = some_coarse(&mut random);
        let mut back = Record::restore(line.as_bytes()).unwrap();
        record.frame(&mut Reader::new(&packet).unwrap(), number, &coarse).unwrap();
        back.frame(&mut Reader::new(&packet).unwrap(), number, &coarse).unwrap();
        assert_eq!(bits(&back), bits(&record));
    }
}

/// Every kind of finite f32 there is: both zeros, subnormals, the greatest.
#[test]
fn any_finite_energies() {
    let mut random = Random(5);
    for _ in 0..5_000 {
        let mut energies = [0.0; 42];
        for e in &mut energies {
            let any = random.next() as u32 & 0xff7f_ffff;
            *e = f32::from_bits(random.one_of(&[0, 0x8000_0000, 1, 0x7f7f_ffff, 0xff7f_ffff, any]));
        }
        let any = random.below(1 << 32);
        let next = random.one_of(&[0, 1, 4_294_967_295, any]);
        let record = Record::from_parts(energies, next);
        let line = record.save().unwrap();
        let fields: Vec<String> = energies.iter().map(|e| format!("{:08x}", e.to_bits())).collect();
        assert_eq!(line, format!("E\t{next}\t{}", fields.join("\t")));
        assert_eq!(bits(&Record::restore(line.as_bytes()).unwrap()), bits(&record));
    }
}

/// Decimal without plus or leading zero, and a minus only before a nonzero figure.
fn decimal(field: &str) -> Option<i128> {
    let digits = field.strip_prefix('-').unwrap_or(field);
    let plain = !digits.is_empty() && digits.len() < 30 && digits.bytes().all(|b| b.is_ascii_digit());
    let short = digits == "0" && field == "0" || !digits.starts_with('0');
    if plain && short {
        field.parse().ok()
    } else {
        None
    }
}

/// Document 01's rule of a saved line: the next number and the bits of the energies, or the refusal.
fn rule(line: &[u8]) -> Result<(Vec<u32>, u64), Refusal> {
    let fields: Vec<&str> = line.split(|&b| b == b'\t').map(|f| std::str::from_utf8(f).unwrap_or("?")).collect();
    if fields.len() != 44 || fields[0] != "E" && fields[0] != "Q" {
        return Err(Refusal::Number);
    }
    let next = match decimal(fields[1]) {
        Some(n) if (0..=4_294_967_295).contains(&n) => n as u64,
        _ => return Err(Refusal::Number),
    };
    let mut energies = vec![];
    for field in &fields[2..] {
        let lower_hex = |b: u8| b.is_ascii_digit() || (b'a'..=b'f').contains(&b);
        energies.push(if fields[0] == "E" {
            if field.len() != 8 || !field.bytes().all(lower_hex) {
                return Err(Refusal::Number);
            }
            u32::from_str_radix(field, 16).unwrap()
        } else {
            match decimal(field) {
                Some(n) if (-32_768..=32_767).contains(&n) => (n as f32 / 256.0).to_bits(),
                _ => return Err(Refusal::Number),
            }
        });
    }
    if energies.iter().any(|&b| !f32::from_bits(b).is_finite()) {
        return Err(Refusal::Entry);
    }
    Ok((energies, next))
}

fn some_line(random: &mut Random) -> Vec<u8> {
    let quarter = random.below(4) == 0;
    let mut line = if random.below(2) == 0 {
        let mut line = format!("E\t{}", random.one_of(&[0u64, 7, 4_294_967_295, 4_294_967_296]));
        for _ in 0..42 {
            let wild = if quarter && random.below(40) == 0 { 0x7f80_0000 } else { 0 };
            line += &format!("\t{:08x}", random.next() as u32 & 0xff7f_ffff | wild);
        }
        line
    } else {
        let mut line = format!("Q\t{}", random.below(1 << 32));
        for _ in 0..42 {
            let far = if quarter {
                random.one_of(&[-32_769, 32_768, -32_768, 32_767])
            } else {
                0
            };
            let n = if far != 0 && random.below(40) == 0 {
                far
            } else {
                random.below(65_536) as i64 - 32_768
            };
            line += &format!("\t{n}");
        }
        line
    }
    .into_bytes();
    for _ in 0..random.one_of(&[0, 0, 1, 1, 2]) {
        let at = random.below(line.len() as u64) as usize;
        match random.below(4) {
            0 => line[at] = random.one_of(b"0123456789abcdefABCDEFEQ-+ \t\n\0\xff"),
            1 => drop(line.remove(at)),
            2 => line.insert(at, random.one_of(b"00f-\t")),
            _ => line.truncate(at + 1),
        }
    }
    line
}

#[test]
fn any_lines() {
    let mut random = Random(6);
    let mut seen = [0; 3];
    for _ in 0..30_000 {
        let line = some_line(&mut random);
        let mut energies = [7.5; 42];
        let mut next = [u64::MAX];
        let answer = gurthapen::raw::record_restore(&line, &mut energies, &mut next);
        match rule(&line) {
            Ok((want, number)) => {
                seen[0] += 1;
                assert_eq!((answer, next), (0, [number]), "{}", String::from_utf8_lossy(&line));
                assert_eq!(energies.map(f32::to_bits)[..], want[..]);
            }
            Err(no) => {
                seen[if no == Refusal::Number { 1 } else { 2 }] += 1;
                assert_eq!(
                    (answer, next, energies),
                    (no.number(), [u64::MAX], [7.5; 42]),
                    "{}",
                    String::from_utf8_lossy(&line)
                );
            }
        }
    }
    assert!(seen.iter().all(|&n| n > 500), "{seen:?}");
}
