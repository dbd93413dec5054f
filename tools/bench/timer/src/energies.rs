//! Energies: coarse decodings and last bits of frames, and the stream record's frame, which is a coarse decoding. Each call begins with its own state and
//! its own energies, which it changes in place.
use crate::job::{crate_coder, crate_state, libopus_coder, libopus_state, mix, mix_floats, mix_state, part, Job, Part};
use crate::ours::{self, State};
use crate::random::Random;
use crate::traffic::Energies;
use oracle::celt::entcode::ec_ctx;
use oracle::celt::modes::{self, OpusCustomMode};
use oracle::celt::quant_bands;
use oracle::libopus;
use std::hint::black_box;

/// The generated calls of a job.
const CALLS: usize = 200;

/// A side's part: every call once, each on a copy of its energies. `call` gives the state after it.
fn side(callee: &'static str, list: &[Energies], call: impl Fn(&mut Energies, &mut [f32; 42]) -> State + 'static) -> Option<Part> {
    let mut list = list.to_vec();
    part(callee, move |whole| {
        let mut sum = 0;
        for e in &mut list {
            let mut energies = e.energies;
            let state = call(e, &mut energies);
            sum = mix(sum, energies[e.start as usize].to_bits() as i64);
            if whole {
                sum = mix_floats(mix_state(sum, &state), &energies);
            }
        }
        sum
    })
}

type CoarseCall = unsafe fn(*const OpusCustomMode, i32, i32, *mut f32, i32, &mut ec_ctx, i32, i32);
type LastCall = unsafe fn(*const OpusCustomMode, i32, i32, *mut f32, *mut i32, *mut i32, i32, &mut ec_ctx, i32);

// Of the oracles below: the modes are their constants; there are 42 energies and 21 entries of a list; start and end are bands of the mode; libopus'
// coder does not outlive the bytes.

/// A frame's coarse energies.
fn coarse(inputs: &'static str, list: &[Energies]) -> Job {
    let mode = unsafe { modes::opus_custom_mode_create(48000, 960, &mut 0) };
    let second = unsafe { libopus::opus_custom_mode_create(48000, 960, &mut 0) };
    let decode = black_box(quant_bands::unquant_coarse_energy as CoarseCall);
    let parts = [
        side("gurthapen_unquant_coarse_energy", list, |e, energies| {
            let mut state = e.state;
            ours::coarse(&mut state, e, energies);
            state
        }),
        side("oracle::celt::quant_bands::unquant_coarse_energy", list, move |e, energies| {
            let mut c = crate_coder(&mut e.bytes, &e.state);
            unsafe { decode(mode, e.start, e.end, energies.as_mut_ptr(), e.intra, &mut c, e.c, e.lm) };
            crate_state(&c)
        }),
        side("unquant_coarse_energy", list, move |e, energies| {
            let mut c = libopus_coder(&mut e.bytes, &e.state);
            unsafe { libopus::unquant_coarse_energy(second, e.start, e.end, energies.as_mut_ptr(), e.intra, &mut c, e.c, e.lm) };
            libopus_state(&c)
        }),
    ];
    Job { name: "coarse energies", inputs, frame: true, calls: list.len(), parts }
}

/// The same as the next frame of a stream record, which the others do not have.
fn record(inputs: &'static str, list: &[Energies]) -> Job {
    let ours_ = side("gurthapen_record_frame", list, |e, energies| {
        let mut state = e.state;
        let mut next = 7;
        ours::record_frame(&mut state, e, energies, &mut next);
        state
    });
    Job { name: "record's frame", inputs, frame: true, calls: list.len(), parts: [ours_, None, None] }
}

/// The bits that a frame has left over.
fn last_bits(inputs: &'static str, list: &[Energies]) -> Job {
    let mode = unsafe { modes::opus_custom_mode_create(48000, 960, &mut 0) };
    let second = unsafe { libopus::opus_custom_mode_create(48000, 960, &mut 0) };
    let finalise = black_box(quant_bands::unquant_energy_finalise as LastCall);
    let parts = [
        side("gurthapen_unquant_energy_finalise", list, |e, energies| {
            let mut state = e.state;
            ours::finalise(&mut state, e, energies);
            state
        }),
        side("oracle::celt::quant_bands::unquant_energy_finalise", list, move |e, energies| {
            let mut c = crate_coder(&mut e.bytes, &e.state);
            let (fine, priorities) = (e.fine.as_mut_ptr(), e.priorities.as_mut_ptr());
            unsafe { finalise(mode, e.start, e.end, energies.as_mut_ptr(), fine, priorities, e.left, &mut c, e.c) };
            crate_state(&c)
        }),
        side("unquant_energy_finalise", list, move |e, energies| {
            let mut c = libopus_coder(&mut e.bytes, &e.state);
            let (fine, priorities) = (e.fine.as_mut_ptr(), e.priorities.as_mut_ptr());
            unsafe { libopus::unquant_energy_finalise(second, e.start, e.end, energies.as_mut_ptr(), fine, priorities, e.left, &mut c, e.c) };
            libopus_state(&c)
        }),
    ];
    Job { name: "last bits", inputs, frame: true, calls: list.len(), parts }
}

/// A call over a new reader of 10 to 160 random bytes. One in eight has the bands from 17 on, as frames with a low band elsewhere have.
fn any(r: &mut Random) -> Energies {
    let length = r.within(10, 160);
    let bytes: Vec<u8> = (0..length).map(|_| r.below(256) as u8).collect();
    Energies {
        c: r.within(1, 2) as i32,
        start: if r.below(8) == 0 { 17 } else { 0 },
        end: 21,
        lm: r.below(4) as i32,
        intra: r.below(2) as i32,
        left: r.below(43) as i32,
        fine: std::array::from_fn(|_| r.below(9) as i32),
        priorities: std::array::from_fn(|_| r.below(2) as i32),
        energies: std::array::from_fn(|_| r.below(25000) as f32 / 1000.0 - 10.0),
        state: ours::dec_new(&bytes),
        bytes,
    }
}

pub fn jobs(r: &mut Random, frames: Vec<Energies>, last: Vec<Energies>) -> Vec<Job> {
    let generated: Vec<Energies> = (0..CALLS).map(|_| any(r)).collect();
    let mut list = vec![];
    if !frames.is_empty() {
        list.extend([coarse("recorded", &frames), record("recorded", &frames), last_bits("recorded", &last)]);
    }
    list.extend([coarse("generated", &generated), last_bits("generated", &generated)]);
    list
}
