//! Shapes of bands, recorded, each from its own state: those that need no rotation. The crate's files have no decode_pulses, so that libopus' own reads
//! the vector on the crate's side.
use crate::job::{crate_coder, crate_state, libopus_coder, libopus_state, mix, mix_floats, mix_state, part, Job, Part};
use crate::ours::{self, State};
use crate::traffic::Shape;
use oracle::celt::entcode::ec_ctx;
use oracle::celt::{cwrs, vq};
use oracle::libopus;
use std::hint::black_box;

/// A side's part: every shape once, into the same places. `call` gives the collapse mask and the state after it.
fn side(callee: &'static str, list: &[Shape], call: impl Fn(&mut Shape, &mut [f32]) -> (u32, State) + 'static) -> Option<Part> {
    let mut list = list.to_vec();
    let mut room = [0.0; 176];
    part(callee, move |whole| {
        let mut sum = 0;
        for s in &mut list {
            let places = &mut room[..s.n as usize];
            let (mask, state) = call(s, places);
            sum = mix(sum, mask as i64);
            if whole {
                sum = mix_floats(mix_state(sum, &state), places);
            }
        }
        sum
    })
}

/// Is the shape answered, and its count in the oracles' tables?
fn kept(s: &Shape) -> bool {
    cwrs::has_count(s.n, s.k) && ours::shape(&mut s.state.clone(), s, &mut vec![0.0; s.n as usize]).is_ok()
}

pub fn jobs(recorded: Vec<Shape>) -> Vec<Job> {
    let list: Vec<Shape> = recorded.into_iter().filter(kept).collect();
    if list.is_empty() {
        return vec![];
    }
    let unquant = black_box(vq::alg_unquant as unsafe fn(*mut f32, i32, i32, i32, i32, &mut ec_ctx, f32) -> u32);
    // Of the oracles: there are n places, the tables have the count, and libopus' coder does not outlive the bytes.
    let parts = [
        side("gurthapen_alg_unquant", &list, |s, places| {
            let mut state = s.state;
            let mask = ours::shape(&mut state, s, places).unwrap_or_else(|no| panic!("a shape is refused as {no}"));
            (mask, state)
        }),
        side("oracle::celt::vq::alg_unquant", &list, move |s, places| {
            let mut c = crate_coder(&mut s.bytes, &s.state);
            let mask = unsafe { unquant(places.as_mut_ptr(), s.n as i32, s.k as i32, s.spread, s.b, &mut c, s.gain) };
            (mask, crate_state(&c))
        }),
        side("alg_unquant", &list, |s, places| {
            let mut c = libopus_coder(&mut s.bytes, &s.state);
            let mask = unsafe { libopus::alg_unquant(places.as_mut_ptr(), s.n as i32, s.k as i32, s.spread, s.b, &mut c, s.gain) };
            (mask, libopus_state(&c))
        }),
    ];
    vec![Job { name: "shape", inputs: "recorded", frame: true, calls: list.len(), parts }]
}
