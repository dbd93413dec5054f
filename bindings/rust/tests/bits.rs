//! Floats that a call leaves alone, bit for bit: every list of floats after refusals that come before and after it is read, whatever NaNs stand in it,
//! and the places outside the call's bands and channels after calls that are answered. The proofs have one NaN; that its bits stay is seen here.

use gurthapen::raw;

const N: usize = 16;
const K: i32 = 4;

/// NaNs, quiet and signalling, of both signs, with bits of their own; a minus zero; the infinities.
const ODD: [u32; 13] = [
    0x7fc0_0000,
    0xffc0_0000,
    0x7f80_0001,
    0xff80_0001,
    0x7fa5_a5a5,
    0xffa5_a5a5,
    0x7fe5_a5a5,
    0xffe5_a5a5,
    0x7fff_ffff,
    0xffff_ffff,
    0x8000_0000,
    0x7f80_0000,
    0xff80_0000,
];

/// Finite floats that a computation would easily change: minus zero, subnormals, the greatest.
const FINITE: [u32; 9] = [
    0x8000_0000,
    0x0000_0000,
    0x0000_0001,
    0x8000_0001,
    0x007f_ffff,
    0x807f_ffff,
    0x7f7f_ffff,
    0xff7f_ffff,
    0x3f80_0001,
];

const FINE: [i32; 21] = [0; 21];
const PRIORITIES: [i32; 21] = [0; 21];
const BYTES: [u8; 40] = [0; 40];

/// A list of such floats, from any of them on.
fn some(n: usize, from: &[u32], first: usize) -> Vec<f32> {
    (0..n).map(|i| f32::from_bits(from[(first + i) % from.len()])).collect()
}

fn bits(list: &[f32]) -> Vec<u32> {
    list.iter().map(|x| x.to_bits()).collect()
}

fn reader() -> [i64; 12] {
    let mut state = [0; 12];
    assert_eq!(raw::dec_new(&mut state, &BYTES), 0);
    state
}

/// A reader whose bits are all used, and more: 4.
fn past_the_end() -> [i64; 12] {
    let mut state = reader();
    state[4] = 8 * BYTES.len() as i64 + 32 + 33;
    state
}

/// A line of 42 energies, the last of them this field.
fn line(last: &str) -> Vec<u8> {
    format!("E\t5{}\t{last}", "\t3f800000".repeat(41)).into_bytes()
}

/// NaNs throughout: refused for the lengths, for a number, and for the entries themselves.
#[test]
fn energies_that_are_refused() {
    for first in 0..ODD.len() {
        let mut e = some(42, &ODD, first);
        let before = bits(&e);
        let mut d = reader();
        let mut next = [5];
        let mut buf = [7; 390];
        let mut length = [99];
        let short = &BYTES[1..];

        assert_eq!(raw::unquant_coarse_energy(&mut d, short, &mut e, 2, 1, 2, 19, 0), 2);
        assert_eq!(raw::unquant_coarse_energy(&mut d, &BYTES, &mut e, 2, 4, 2, 19, 0), 1);
        assert_eq!(raw::unquant_coarse_energy(&mut d, &BYTES, &mut e, 2, 1, 2, 19, 0), 3);
        assert_eq!(
            raw::unquant_energy_finalise(&mut d, &BYTES, &mut e, 2, 2, 19, &FINE[1..], &PRIORITIES, 3),
            2
        );
        assert_eq!(
            raw::unquant_energy_finalise(&mut d, &BYTES, &mut e, 3, 2, 19, &FINE, &PRIORITIES, 3),
            1
        );
        assert_eq!(
            raw::unquant_energy_finalise(&mut d, &BYTES, &mut e, 2, 2, 19, &FINE, &PRIORITIES, 3),
            3
        );
        assert_eq!(raw::record_frame(&mut e, &mut next, &mut d, short, 5, 2, 1, 2, 19, 0), 2);
        assert_eq!(
            raw::record_frame(&mut e, &mut next, &mut d, &BYTES, 4_294_967_295, 2, 1, 2, 19, 0),
            1
        );
        assert_eq!(raw::record_frame(&mut e, &mut next, &mut d, &BYTES, 5, 2, 1, 2, 19, 0), 3);
        assert_eq!(raw::record_frame(&mut e, &mut next, &mut d, &BYTES, 4, 2, 1, 2, 19, 0), 3);
        assert_eq!(raw::record_save(&e, 5, &mut buf[1..], &mut length), 2);
        assert_eq!(raw::record_save(&e, 4_294_967_296, &mut buf, &mut length), 1);
        assert_eq!(raw::record_save(&e, 5, &mut buf, &mut length), 3);
        assert_eq!(raw::record_fresh(&mut e, &mut []), 2);
        assert_eq!(raw::record_restore(&line("3f800000"), &mut e, &mut []), 2);
        assert_eq!(raw::record_restore(&line("3f80000g"), &mut e, &mut next), 1);
        assert_eq!(raw::record_restore(&line("7fc00000"), &mut e, &mut next), 3);
        assert_eq!(bits(&e), before);
        assert_eq!((d, next, length, buf), (reader(), [5], [99], [7; 390]));

        // another length of the list of floats itself
        for n in [0, 41, 43] {
            let mut e = some(n, &ODD, first);
            let before = bits(&e);
            assert_eq!(raw::unquant_coarse_energy(&mut d, &BYTES, &mut e, 2, 1, 2, 19, 0), 2);
            assert_eq!(
                raw::unquant_energy_finalise(&mut d, &BYTES, &mut e, 2, 2, 19, &FINE, &PRIORITIES, 3),
                2
            );
            assert_eq!(raw::record_frame(&mut e, &mut next, &mut d, &BYTES, 5, 2, 1, 2, 19, 0), 2);
            assert_eq!(raw::record_save(&e, 5, &mut buf, &mut length), 2);
            assert_eq!(raw::record_restore(&line("3f800000"), &mut e, &mut next), 2);
            assert_eq!(raw::record_fresh(&mut e, &mut next), 2);
            assert_eq!(bits(&e), before);
        }
    }
}

/// A shape is never read: every refusal of the call leaves it.
#[test]
fn shapes_that_are_refused() {
    for first in 0..ODD.len() {
        let mut x = some(N, &ODD, first);
        let before = bits(&x);
        let mut d = reader();
        let mut mask = [77];
        let n = N as i32;
        assert_eq!(raw::alg_unquant(&mut d, &BYTES, &mut x, n + 1, K, 0, 4, 0.5, &mut mask), 2);
        assert_eq!(raw::alg_unquant(&mut d, &BYTES[1..], &mut x, n, K, 0, 4, 0.5, &mut mask), 2);
        assert_eq!(raw::alg_unquant(&mut d, &BYTES, &mut x, n, K, 4, 4, 0.5, &mut mask), 1);
        for gain in ODD.iter().filter(|&&gain| gain != 0x8000_0000) {
            assert_eq!(
                raw::alg_unquant(&mut d, &BYTES, &mut x, n, K, 0, 4, f32::from_bits(*gain), &mut mask),
                3
            );
        }
        assert_eq!(raw::alg_unquant(&mut d, &BYTES, &mut x, n, 128, 0, 4, 0.5, &mut mask), 7);
        assert_eq!(raw::alg_unquant(&mut d, &BYTES, &mut x, n, K, 1, 4, 0.5, &mut mask), 9);
        assert_eq!(raw::alg_unquant(&mut past_the_end(), &BYTES, &mut x, n, K, 0, 4, 0.5, &mut mask), 4);
        assert_eq!((bits(&x), mask, d), (before, [77], reader()));
    }
}

/// Finite floats: refused after the list was read whole, and then answered, with the places of the others as they were.
#[test]
fn finite_floats() {
    for first in 0..FINITE.len() {
        let mut e = some(42, &FINITE, first);
        let before = bits(&e);
        let mut past = past_the_end();
        let mut next = [5];
        assert_eq!(raw::unquant_coarse_energy(&mut past, &BYTES, &mut e, 2, 1, 2, 19, 0), 4);
        assert_eq!(
            raw::unquant_energy_finalise(&mut past, &BYTES, &mut e, 2, 2, 19, &FINE, &PRIORITIES, 3),
            4
        );
        assert_eq!(raw::record_frame(&mut e, &mut next, &mut past, &BYTES, 5, 2, 1, 2, 19, 0), 4);
        assert_eq!(raw::record_frame(&mut e, &mut next, &mut reader(), &BYTES, 4, 2, 1, 2, 19, 0), 10);
        assert_eq!(raw::record_frame(&mut e, &mut next, &mut reader(), &BYTES, 6, 2, 1, 2, 19, 0), 11);
        assert_eq!((bits(&e), past, next), (before.clone(), past_the_end(), [5]));

        for c in 1..=2 {
            let mut coarse = e.clone();
            let mut last = e.clone();
            let mut record = e.clone();
            assert_eq!(raw::unquant_coarse_energy(&mut reader(), &BYTES, &mut coarse, c, 1, 2, 19, 0), 0);
            assert_eq!(
                raw::unquant_energy_finalise(&mut reader(), &BYTES, &mut last, c, 2, 19, &FINE, &PRIORITIES, 100),
                0
            );
            assert_eq!(
                raw::record_frame(&mut record, &mut [5], &mut reader(), &BYTES, 5, c, 1, 2, 19, 0),
                0
            );
            for place in (0..42).filter(|&i| i / 21 >= c as usize || i % 21 < 2 || i % 21 >= 19) {
                for list in [&coarse, &last, &record] {
                    assert_eq!(list[place].to_bits(), before[place], "place {place}");
                }
            }
        }
    }
}
