//! States with any numbers in them: the answer is document 01's, and a refusal changes nothing.

mod common;

use common::{close_refusal, read_refusal, reader_ok, some_state, write_refusal, writer_ok, Random};
use gurthapen::raw;

const ROUNDS: usize = 60_000;

#[test]
fn readers() {
    let mut random = Random(0x9e37_79b9_7f4a_7c15);
    let mut seen = [0; 13];
    for _ in 0..ROUNDS {
        let packet = vec![random.next() as u8; random.one_of(&[0, 1, 2, 7, 40])];
        let state = some_state(&mut random, packet.len());
        let mut tell = [99];
        assert_eq!(raw::dec_tell(&state, &mut tell), if reader_ok(&state) { 0 } else { 1 }, "{state:?}");
        assert_eq!(raw::dec_tell_frac(&state, &mut tell) == 0, reader_ok(&state));
        let want = read_refusal(&state, packet.len());
        seen[want as usize] += 1;
        for call in 0..10 {
            let (mut s, mut value, mut z, mut y) = (state, [99], [98], [97; 176]);
            let (mut energies, mut shape, mut next) = ([1.5; 42], [2.5; 9], [96]);
            let answer = match call {
                0 => raw::dec_bit_logp(&mut s, &packet, 1, &mut value),
                1 => raw::dec_icdf(&mut s, &packet, &[200, 3, 0], 8, &mut value),
                2 => raw::dec_uint(&mut s, &packet, 1_000_000, &mut value),
                3 => raw::dec_bits(&mut s, &packet, 25, &mut value),
                4 => raw::laplace_decode(&mut s, &packet, 72 << 7, 127 << 6, &mut z),
                5 => raw::decode_pulses(&mut s, &packet, &mut y, 9, 7, &mut value),
                6 => raw::unquant_coarse_energy(&mut s, &packet, &mut energies, 2, 3, 0, 21, 0),
                7 => raw::unquant_energy_finalise(&mut s, &packet, &mut energies, 2, 0, 21, &[3; 21], &[1; 21], 30),
                8 => raw::alg_unquant(&mut s, &packet, &mut shape, 9, 7, 2, 3, -1.0, &mut value),
                _ => raw::record_frame(&mut energies, &mut next, &mut s, &packet, 96, 1, 0, 0, 21, 1),
            };
            assert_eq!(answer, want, "call {call} on {state:?}");
            if answer == 0 {
                assert!(reader_ok(&s) || s[4] > 65_535, "{state:?} became {s:?}");
                assert!(s[10] == 0 || s[10] == 1);
                assert_eq!(s[11], 0);
                assert!(energies.iter().all(|e| e.is_finite()) && shape.iter().all(|x| x.abs() <= 2.5));
                assert_eq!(next, [if call == 9 { 97 } else { 96 }]);
            } else {
                assert_eq!((s, value, z, y), (state, [99], [98], [97; 176]));
                assert_eq!((energies, shape, next), ([1.5; 42], [2.5; 9], [96]));
            }
        }
    }
    assert!([0, 1, 2, 4].iter().all(|&n| seen[n] > 300), "{seen:?}");
}

#[test]
fn writers() {
    let mut random = Random(0x2545_f491_4f6c_dd1d);
    let mut seen = [0; 13];
    for _ in 0..ROUNDS {
        let bytes = vec![random.next() as u8; random.one_of(&[0, 1, 2, 7, 40])];
        let state = some_state(&mut random, bytes.len());
        let mut tell = [99];
        assert_eq!(raw::enc_tell(&state, &mut tell), if writer_ok(&state) { 0 } else { 1 }, "{state:?}");
        assert_eq!(raw::enc_tell_frac(&state, &mut tell) == 0, writer_ok(&state));
        let write = write_refusal(&state, bytes.len());
        let close = close_refusal(&state, bytes.len());
        seen[write as usize] += 1;
        for call in 0..7 {
            let (mut s, mut b, mut z) = (state, bytes.clone(), [98]);
            let mut y = [0; 176];
            y[4] = -7;
            let answer = match call {
                0 => raw::enc_bit_logp(&mut s, &mut b, 1, 1),
                1 => raw::enc_icdf(&mut s, &mut b, 2, &[200, 3, 0], 8),
                2 => raw::enc_uint(&mut s, &mut b, 999_999, 1_000_000),
                3 => raw::enc_bits(&mut s, &mut b, 1 << 24, 25),
                4 => raw::laplace_encode(&mut s, &mut b, -9, 72 << 7, 127 << 6, &mut z),
                5 => raw::encode_pulses(&mut s, &mut b, &y, 9, 7),
                _ => raw::enc_close(&mut s, &mut b),
            };
            assert_eq!(answer, if call == 6 { close } else { write }, "call {call} on {state:?}");
            if answer == 0 {
                assert!(s[10] == 0 || s[10] == -1);
                assert_eq!(
                    s[10] != 0,
                    s[10] != 0 || state[10] != 0,
                    "a mark is never lost: {state:?} became {s:?}"
                );
                assert_eq!(s[11], i64::from(call == 6));
            } else {
                assert_eq!((s, b, z), (state, bytes.clone(), [98]));
            }
        }
    }
    assert!([0, 1, 2, 4, 12].iter().all(|&n| seen[n] > 300), "{seen:?}");
}
