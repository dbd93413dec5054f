//! Whole allocations, read and written, each question from its own state.
use crate::job::{crate_coder, crate_state, libopus_coder, libopus_state, mix_bytes, mix_list, mix_state, part, Job};
use crate::ours::{self, Lists, State};
use crate::traffic::Question;
use oracle::celt::{modes, rate};
use oracle::libopus;

/// What a call gave, summed.
fn summed(sum: u64, whole: bool, shown: &[i32; 4], lists: &Lists, state: &State, q: &Question) -> u64 {
    let sum = mix_list(sum, shown);
    if !whole {
        return sum;
    }
    let bands = q.numbers[2] as usize..q.numbers[3] as usize;
    let sum = lists.iter().fold(sum, |sum, list| mix_list(sum, &list[bands.clone()]));
    mix_bytes(mix_state(sum, state), &q.bytes)
}

fn by_us(q: &mut Question, lists: &mut Lists) -> Result<([i32; 4], State), u32> {
    let mut state = q.state;
    let shown = match q.writes {
        true => ours::allocation_write(&mut state, &mut q.bytes, &q.numbers, &q.offsets, &q.caps, lists)?,
        false => ours::allocation_read(&mut state, &q.bytes, &q.numbers, &q.offsets, &q.caps, lists)?,
    };
    Ok((shown, state))
}

fn job(name: &'static str, inputs: &'static str, callee: &'static str, list: Vec<Question>) -> Job {
    let calls = list.len();
    let [mut ours_, mut crate_, mut libopus_] = [list.clone(), list.clone(), list];
    let parts = [
        part(callee, move |whole| {
            let mut sum = 0;
            let mut lists = [[0; 21]; 3];
            for q in &mut ours_ {
                let (shown, state) = by_us(q, &mut lists).unwrap_or_else(|no| panic!("an allocation is refused as {no}"));
                sum = summed(sum, whole, &shown, &lists, &state, q);
            }
            sum
        }),
        part("oracle::celt::rate::clt_compute_allocation", move |whole| {
            // The mode is the crate's constant; every list has 21 entries, and start and end are bands of the mode.
            let mode = unsafe { modes::opus_custom_mode_create(48000, 960, &mut 0) };
            let mut sum = 0;
            let mut lists = [[0; 21]; 3];
            for q in &mut crate_ {
                let [c, lm, start, end, trim, total, mut intensity, mut dual, previous, bandwidth] = q.numbers;
                let mut balance = 0;
                let [pulses, fine, priorities] = &mut lists;
                let mut coder = crate_coder(&mut q.bytes, &q.state);
                let coded = unsafe {
                    rate::clt_compute_allocation(
                        mode, start, end, q.offsets.as_ptr(), q.caps.as_ptr(), trim, &mut intensity, &mut dual, total, &mut balance,
                        pulses.as_mut_ptr(), fine.as_mut_ptr(), priorities.as_mut_ptr(), c, lm, &mut coder, q.writes as i32, previous, bandwidth,
                    )
                };
                let state = crate_state(&coder);
                sum = summed(sum, whole, &[coded, balance, intensity, dual], &lists, &state, q);
            }
            sum
        }),
        part("clt_compute_allocation", move |whole| {
            // As above; the bytes outlive the calls.
            let mode = unsafe { libopus::opus_custom_mode_create(48000, 960, &mut 0) };
            let mut sum = 0;
            let mut lists = [[0; 21]; 3];
            for q in &mut libopus_ {
                let [c, lm, start, end, trim, total, mut intensity, mut dual, previous, bandwidth] = q.numbers;
                let mut balance = 0;
                let [pulses, fine, priorities] = &mut lists;
                let mut coder = libopus_coder(&mut q.bytes, &q.state);
                let coded = unsafe {
                    libopus::clt_compute_allocation(
                        mode, start, end, q.offsets.as_ptr(), q.caps.as_ptr(), trim, &mut intensity, &mut dual, total, &mut balance,
                        pulses.as_mut_ptr(), fine.as_mut_ptr(), priorities.as_mut_ptr(), c, lm, &mut coder, q.writes as i32, previous, bandwidth,
                    )
                };
                let state = libopus_state(&coder);
                sum = summed(sum, whole, &[coded, balance, intensity, dual], &lists, &state, q);
            }
            sum
        }),
    ];
    Job { name, inputs, frame: true, calls, parts }
}

/// The questions that are not refused.
fn kept(list: Vec<Question>, writes: bool) -> Vec<Question> {
    list.into_iter().filter(|q| q.writes == writes && by_us(&mut q.clone(), &mut [[0; 21]; 3]).is_ok()).collect()
}

pub fn jobs(recorded: Vec<Question>, any: Vec<Question>) -> Vec<Job> {
    let (read, write) = ("gurthapen_compute_allocation_read", "gurthapen_compute_allocation_write");
    vec![
        job("allocation, read", "recorded", read, kept(recorded.clone(), false)),
        job("allocation, write", "recorded", write, kept(recorded, true)),
        job("allocation, read", "generated", read, kept(any.clone(), false)),
        job("allocation, write", "generated", write, kept(any, true)),
    ]
}
