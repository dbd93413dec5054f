//! A wrong length is 2, before everything else, and nothing is written.

use gurthapen::raw;

const NOT_TWELVE: [usize; 6] = [0, 1, 11, 13, 24, 1000];
const NOT_ONE: [usize; 4] = [0, 2, 12, 1000];

/// Calls with a state of every wrong length, and numbers that are wrong too.
fn wrong_states(call: impl Fn(&mut [i64]) -> u32) {
    for n in NOT_TWELVE {
        let mut state = vec![-5; n];
        assert_eq!(call(&mut state), 2, "a state of {n}");
        assert_eq!(state, vec![-5; n]);
    }
}

fn wrong_values<T: Copy + PartialEq + std::fmt::Debug>(like: T, call: impl Fn(&mut [T]) -> u32) {
    for n in NOT_ONE {
        let mut value = vec![like; n];
        assert_eq!(call(&mut value), 2, "a list of {n} for one value");
        assert_eq!(value, vec![like; n]);
    }
}

#[test]
fn states() {
    let mut bytes = [7; 9];
    let mut v = [77];
    let mut z = [78];
    let mut y = [79; 176];
    wrong_states(|s| raw::dec_new(s, &bytes));
    wrong_states(|s| raw::dec_bit_logp(s, &bytes, 0, &mut [0]));
    wrong_states(|s| raw::dec_icdf(s, &bytes, &[], 9, &mut [0]));
    wrong_states(|s| raw::dec_uint(s, &bytes, 0, &mut [0]));
    wrong_states(|s| raw::dec_bits(s, &bytes, 99, &mut [0]));
    wrong_states(|s| raw::dec_tell(s, &mut [0]));
    wrong_states(|s| raw::dec_tell_frac(s, &mut [0]));
    wrong_states(|s| raw::enc_new(s, &bytes));
    wrong_states(|s| raw::enc_tell(s, &mut [0]));
    wrong_states(|s| raw::enc_tell_frac(s, &mut [0]));
    wrong_states(|s| raw::laplace_decode(s, &bytes, 1, 1, &mut [0]));
    for n in NOT_TWELVE {
        let mut s = vec![-5; n];
        assert_eq!(raw::enc_bit_logp(&mut s, &mut bytes, 2, 0), 2);
        assert_eq!(raw::enc_icdf(&mut s, &mut bytes, 9, &[0], 9), 2);
        assert_eq!(raw::enc_uint(&mut s, &mut bytes, 5, 5), 2);
        assert_eq!(raw::enc_bits(&mut s, &mut bytes, 9, 1), 2);
        assert_eq!(raw::enc_close(&mut s, &mut bytes), 2);
        assert_eq!(raw::laplace_encode(&mut s, &mut bytes, i32::MIN, 0, 0, &mut z), 2);
        assert_eq!(raw::encode_pulses(&mut s, &mut bytes, &y, 3, 1), 2);
        assert_eq!(raw::decode_pulses(&mut s, &bytes, &mut y, 3, 1, &mut v), 2);
        assert_eq!(raw::unquant_coarse_energy(&mut s, &bytes, &mut [f32::NAN; 42], 9, 9, 9, 9, 9), 2);
        assert_eq!(
            raw::unquant_energy_finalise(&mut s, &bytes, &mut [f32::NAN; 42], 9, 9, 9, &[9; 21], &[9; 21], 9),
            2
        );
        assert_eq!(
            raw::alg_unquant(&mut s, &bytes, &mut [f32::NAN; 9], 9, 0, 9, 0, f32::NAN, &mut v),
            2
        );
        assert_eq!(
            raw::record_frame(&mut [f32::NAN; 42], &mut [u64::MAX], &mut s, &bytes, u64::MAX, 9, 9, 9, 9, 9),
            2
        );
        assert_eq!(s, vec![-5; n]);
    }
    assert_eq!((bytes, v, z, y), ([7; 9], [77], [78], [79; 176]));
}

#[test]
fn values() {
    let bytes = [7; 9];
    let mut state = [0; 12];
    assert_eq!(raw::dec_new(&mut state, &bytes), 0);
    wrong_values(1u32, |v| raw::dec_bit_logp(&mut state.clone(), &bytes, 1, v));
    wrong_values(1u32, |v| raw::dec_icdf(&mut state.clone(), &bytes, &[1, 0], 1, v));
    wrong_values(1u32, |v| raw::dec_uint(&mut state.clone(), &bytes, 9, v));
    wrong_values(1u32, |v| raw::dec_bits(&mut state.clone(), &bytes, 9, v));
    wrong_values(1u32, |v| raw::dec_tell(&state, v));
    wrong_values(1u32, |v| raw::dec_tell_frac(&state, v));
    wrong_values(1u32, |v| raw::enc_tell(&state, v));
    wrong_values(1u32, |v| raw::enc_tell_frac(&state, v));
    wrong_values(1i32, |v| raw::laplace_decode(&mut state.clone(), &bytes, 72 << 7, 127 << 6, v));
    wrong_values(1u32, |v| raw::decode_pulses(&mut state.clone(), &bytes, &mut [0; 176], 3, 1, v));
    wrong_values(1u32, |v| {
        raw::alg_unquant(&mut state.clone(), &bytes, &mut [0.0; 3], 3, 1, 0, 1, 1.0, v)
    });
    wrong_values(1u64, |v| raw::record_fresh(&mut [0.0; 42], v));
    wrong_values(1u64, |v| {
        raw::record_frame(&mut [0.0; 42], v, &mut state.clone(), &bytes, 0, 1, 0, 0, 21, 0)
    });
    wrong_values(1u64, |v| raw::record_restore(b"", &mut [0.0; 42], v));
    wrong_values(1usize, |v| raw::record_save(&[0.0; 42], 0, &mut [0; 390], v));
    wrong_values(1usize, |v| raw::list(b"", 0, &mut [0; 1200], v));
    wrong_values(1u32, |v| raw::get_pulses(99, v));
    wrong_values(1u32, |v| raw::bits2pulses(99, 99, 99, v));
    wrong_values(1u32, |v| raw::pulses2bits(99, 99, 99, v));
    assert_eq!(raw::enc_new(&mut state, &bytes), 0);
    wrong_values(1i32, |v| {
        raw::laplace_encode(&mut state.clone(), &mut bytes.clone(), 0, 72 << 7, 127 << 6, v)
    });
}

/// The lists of a pulse vector and of an allocation.
#[test]
fn lists() {
    let mut bytes = [7; 9];
    let mut d = [0; 12];
    let mut w = [0; 12];
    assert_eq!(raw::dec_new(&mut d, &bytes), 0);
    assert_eq!(raw::enc_new(&mut w, &bytes), 0);
    for n in [0, 3, 175, 177] {
        let mut y = vec![0; n];
        assert_eq!(raw::decode_pulses(&mut d, &bytes, &mut y, 3, 1, &mut [0]), 2);
        assert_eq!(raw::encode_pulses(&mut w, &mut bytes, &y, 3, 1), 2);
    }
    for wrong in 0..6 {
        for n in [0, 1, 20, 22, 42] {
            let size = |i| if i == wrong { n } else { [21, 21, 21, 21, 21, 4][i] };
            let lists: Vec<Vec<i32>> = (0..6).map(|i| vec![-1; size(i)]).collect();
            let [offsets, caps, mut pulses, mut fine, mut priorities, mut shown]: [Vec<i32>; 6] = lists.clone().try_into().unwrap();
            let (d0, w0, b0) = (d, w, bytes);
            assert_eq!(
                raw::compute_allocation_read(
                    &mut d,
                    &bytes,
                    9,
                    9,
                    9,
                    9,
                    99,
                    i32::MAX,
                    &offsets,
                    &caps,
                    &mut pulses,
                    &mut fine,
                    &mut priorities,
                    &mut shown
                ),
                2
            );
            assert_eq!(
                raw::compute_allocation_write(
                    &mut w,
                    &mut bytes,
                    9,
                    9,
                    9,
                    9,
                    99,
                    i32::MAX,
                    -1,
                    -1,
                    -1,
                    -1,
                    &offsets,
                    &caps,
                    &mut pulses,
                    &mut fine,
                    &mut priorities,
                    &mut shown
                ),
                2
            );
            assert_eq!(lists, [offsets, caps, pulses, fine, priorities, shown]);
            assert_eq!((d0, w0, b0), (d, w, bytes));
        }
    }
}

/// The lists of energies, shapes, records and lines, with numbers that are wrong too. A list of floats stays bit for bit, NaNs too.
#[test]
fn energies_and_lines() {
    let bytes = [7; 9];
    let wild = f32::from_bits(0x7fa5_a5a5);
    let mut state = [0; 12];
    assert_eq!(raw::dec_new(&mut state, &bytes), 0);
    let before = state;
    for n in [0, 1, 21, 41, 43, 84] {
        let mut e = vec![wild; n];
        let mut next = [u64::MAX];
        let mut length = [usize::MAX];
        let mut buf = [7; 390];
        assert_eq!(raw::unquant_coarse_energy(&mut state, &bytes, &mut e, 9, 9, 9, 9, 9), 2);
        assert_eq!(
            raw::unquant_energy_finalise(&mut state, &bytes, &mut e, 9, 9, 9, &[9; 21], &[9; 21], 9),
            2
        );
        assert_eq!(raw::record_fresh(&mut e, &mut next), 2);
        assert_eq!(raw::record_frame(&mut e, &mut next, &mut state, &bytes, u64::MAX, 9, 9, 9, 9, 9), 2);
        assert_eq!(raw::record_save(&e, u64::MAX, &mut buf, &mut length), 2);
        assert_eq!(raw::record_restore(b"no line", &mut e, &mut next), 2);
        assert!(e.iter().all(|x| x.to_bits() == wild.to_bits()));
        assert_eq!((state, next, length, buf), (before, [u64::MAX], [usize::MAX], [7; 390]));
    }
    for n in [0, 1, 20, 22, 42] {
        let mut e = [wild; 42];
        let wrong = vec![9; n];
        assert_eq!(
            raw::unquant_energy_finalise(&mut state, &bytes, &mut e, 9, 9, 9, &wrong, &[9; 21], 9),
            2
        );
        assert_eq!(
            raw::unquant_energy_finalise(&mut state, &bytes, &mut e, 9, 9, 9, &[9; 21], &wrong, 9),
            2
        );
        assert!(e.iter().all(|x| x.to_bits() == wild.to_bits()));
    }
    for (places, n) in [(0, 1), (1, 0), (8, 9), (9, 8), (9, -9), (0, i32::MIN), (9, i32::MAX)] {
        let mut shape = vec![wild; places];
        let mut mask = [7];
        assert_eq!(raw::alg_unquant(&mut state, &bytes, &mut shape, n, 0, 9, 0, f32::NAN, &mut mask), 2);
        assert!(mask == [7] && shape.iter().all(|x| x.to_bits() == wild.to_bits()));
    }
    for n in [0, 1, 389] {
        let mut buf = vec![7; n];
        assert_eq!(raw::record_save(&[0.0; 42], 0, &mut buf, &mut [0]), 2);
        assert_eq!(buf, vec![7; n]);
    }
    for n in [0, 1, 1199] {
        let mut out = vec![7; n];
        assert_eq!(raw::list(b"", 0, &mut out, &mut [0]), 2);
        assert_eq!(out, vec![7; n]);
    }
    assert_eq!(state, before);
}

/// The bytes' count against the storage, and the greatest storage.
#[test]
fn bytes() {
    let packet = [0; 1276];
    let mut state = [0; 12];
    for n in [0, 1, 2, 3, 4, 1275] {
        assert_eq!(raw::dec_new(&mut state, &packet[..n]), 0);
        for other in [0, 1, 2, 3, 4, 1275, 1276] {
            if other != n {
                assert_eq!(raw::dec_bits(&mut state, &packet[..other], 1, &mut [0]), 2);
            }
        }
    }
    let before = state;
    assert_eq!(raw::dec_new(&mut state, &packet), 1);
    assert_eq!(raw::enc_new(&mut state, &packet), 1);
    assert_eq!(state, before);
}
