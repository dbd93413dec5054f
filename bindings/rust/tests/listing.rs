//! The lister's answers: document 01's example, the form of every answer, and lines that are none.

mod common;

use common::Random;

#[test]
fn example() {
    assert_eq!(gurthapen::list(b"1\t0\t0\t1\t5\t64\t00", 1), "R\t1\t1\t0\t0\t0\nB\t0\t8\t7\t1\n");
    // an empty trim means 5, an empty total 64 times the packet's bytes
    assert_eq!(gurthapen::list(b"1\t0\t0\t1\t\t\t00", 1), "R\t1\t1\t0\t0\t0\nB\t0\t8\t7\t1\n");
    assert_eq!(
        gurthapen::list(b"1\t0\t0\t1\t5\t71\t00", u32::MAX),
        "R\t4294967295\t1\t7\t0\t0\nB\t0\t8\t7\t0\n"
    );
}

#[test]
fn refused() {
    for line in [
        &b""[..],
        b"\n",
        b"1\t0\t0\t1\t5\t64",
        b"1\t0\t0\t1\t5\t64\t0",
        b"1\t0\t0\t1\t5\t64\t0g",
        b"1\t0\t0\t1\t5\t64\tAB",
        b"1\t0\t0\t1\t5\t64\t00\t",
        b"1\t0\t0\t1\t5\t64\t00\n",
        b"1\t0\t0\t1\t5\t64\t00\r",
        b"01\t0\t0\t1\t5\t64\t00",
        b"+1\t0\t0\t1\t5\t64\t00",
        b"1\t-0\t0\t1\t5\t64\t00",
        b"\t0\t0\t1\t5\t64\t00",
        b"0\t0\t0\t1\t5\t64\t00",
        b"3\t0\t0\t1\t5\t64\t00",
        b"1\t4\t0\t1\t5\t64\t00",
        b"1\t-1\t0\t1\t5\t64\t00",
        b"1\t0\t1\t1\t5\t64\t00",
        b"1\t0\t0\t22\t5\t64\t00",
        b"1\t0\t0\t1\t11\t64\t00",
        b"1\t0\t0\t1\t5\t81601\t00",
        b"1\t0\t0\t1\t5\t99999999999\t00",
        b"\xff\xfe\0",
    ] {
        assert_eq!(gurthapen::list(line, 9), "X\t9\t1\n", "{}", String::from_utf8_lossy(line));
    }
    let hex = |bytes: usize| format!("1\t0\t0\t1\t5\t71\t{}", "00".repeat(bytes));
    assert_eq!(gurthapen::list(hex(1275).as_bytes(), 9), "R\t9\t1\t7\t0\t0\nB\t0\t8\t7\t0\n");
    assert_eq!(gurthapen::list(hex(1276).as_bytes(), 9), "X\t9\t1\n");
    assert_eq!(gurthapen::list(&[b'0'; 2601], 9), "X\t9\t1\n");
    assert_eq!(gurthapen::list(&[b'\t'; 100_000], 9), "X\t9\t1\n");
}

/// An answer has an R line of five numbers and a B line of four for each band.
#[test]
fn form() {
    let mut random = Random(7);
    for number in 0..3_000 {
        let start = random.below(21) as i32;
        let end = start + 1 + random.below(21 - start as u64) as i32;
        let packet: Vec<u8> = (0..random.below(60)).map(|_| random.next() as u8).collect();
        let hex: String = packet.iter().map(|b| format!("{b:02x}")).collect();
        let (c, lm, trim) = (1 + random.below(2), random.below(4), random.below(11));
        let total = random.below(4_000) as i32 - 50;
        let line = format!("{c}\t{lm}\t{start}\t{end}\t{trim}\t{total}\t{hex}");
        let answer = gurthapen::list(line.as_bytes(), number);
        let lines: Vec<&str> = answer.lines().collect();
        assert!(
            answer.ends_with('\n') && lines.len() == 1 + (end - start) as usize,
            "{line} gave {answer}"
        );
        let fields: Vec<Vec<&str>> = lines.iter().map(|l| l.split('\t').collect()).collect();
        assert_eq!((fields[0][0], fields[0][1], fields[0].len()), ("R", number.to_string().as_str(), 6));
        for (k, field) in fields[1..].iter().enumerate() {
            assert_eq!((field[0], field[1], field.len()), ("B", (start + k as i32).to_string().as_str(), 5));
            let numbers: Vec<i32> = field[2..].iter().map(|f| f.parse().unwrap()).collect();
            assert!(
                numbers[0] >= 0 && (0..=8).contains(&numbers[1]) && (0..=1).contains(&numbers[2]),
                "{line} gave {answer}"
            );
        }
    }
}
