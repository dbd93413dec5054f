//! The lookups of the pulse cache. libopus has them in a header alone, so that its archive has none.
use crate::job::{mix, part, Job};
use crate::ours;
use crate::random::Random;
use oracle::celt::{modes, rate};
use std::hint::black_box;

const CALLS: usize = 2000;

/// One round over all inputs, by one side.
fn over<K: 'static>(list: Vec<K>, look: impl Fn(&K) -> i32 + 'static) -> impl FnMut(bool) -> u64 {
    move |_| list.iter().fold(0, |sum, k| mix(sum, look(k) as i64))
}

fn job<K: Clone + 'static>(
    name: &'static str,
    list: Vec<K>,
    callees: [&'static str; 2],
    by_us: impl Fn(&K) -> i32 + 'static,
    by_crate: impl Fn(&K) -> i32 + 'static,
) -> Job {
    let calls = list.len();
    let parts = [part(callees[0], over(list.clone(), by_us)), part(callees[1], over(list, by_crate)), None];
    Job { name, inputs: "generated", frame: false, calls, parts }
}

pub fn jobs(r: &mut Random) -> Vec<Job> {
    // The mode is the crate's constant, and every band and LM asked has a row.
    let mode = unsafe { modes::opus_custom_mode_create(48000, 960, &mut 0) };
    let rows: Vec<(i32, i32)> = (-1..=3).flat_map(|lm| (0..21).map(move |band| (band, lm))).collect();
    let rows: Vec<(i32, i32)> = rows.into_iter().filter(|&(band, lm)| ours::pulses2bits_if(band, lm, 0).is_some()).collect();
    let most = |(band, lm)| (0..=40).rev().find(|&i| ours::pulses2bits_if(band, lm, i).is_some()).expect("an index") as u32;
    let any = |r: &mut Random| rows[r.below(rows.len() as u32) as usize];
    let indices: Vec<i32> = (0..CALLS).map(|_| r.within(0, 40) as i32).collect();
    let costs = (0..CALLS).map(|_| (any(r), r.within(0, 400) as i32)).collect();
    let count = |r: &mut Random| {
        let row = any(r);
        (row, r.within(0, most(row)) as i32)
    };
    let counts = (0..CALLS).map(|_| count(r)).collect();
    let get_pulses = black_box(rate::get_pulses as unsafe fn(i32) -> i32);
    let bits2pulses = black_box(rate::bits2pulses as unsafe fn(*const modes::OpusCustomMode, i32, i32, i32) -> i32);
    let pulses2bits = black_box(rate::pulses2bits as unsafe fn(*const modes::OpusCustomMode, i32, i32, i32) -> i32);
    vec![
        job(
            "get_pulses", indices, ["gurthapen_get_pulses", "oracle::celt::rate::get_pulses"],
            |&i| ours::get_pulses(i) as i32,
            move |&i| unsafe { get_pulses(i) },
        ),
        job(
            "bits2pulses", costs, ["gurthapen_bits2pulses", "oracle::celt::rate::bits2pulses"],
            |&((band, lm), bits)| ours::bits2pulses(band, lm, bits) as i32,
            move |&((band, lm), bits)| unsafe { bits2pulses(mode, band, lm, bits) },
        ),
        job(
            "pulses2bits", counts, ["gurthapen_pulses2bits", "oracle::celt::rate::pulses2bits"],
            |&((band, lm), pulses)| ours::pulses2bits(band, lm, pulses) as i32,
            move |&((band, lm), pulses)| unsafe { pulses2bits(mode, band, lm, pulses) },
        ),
    ]
}
