//! Measures the port, the crate and libopus on the same inputs, in one process.
//!
//!     timer ROOT list            the jobs: their number, name, inputs, kind, calls of a round and callees
//!     timer ROOT time ROUNDS     after it, for each side the median nanoseconds of a call; without a round, a dash
//!     timer ROOT count NUMBER    one round of each side of one job, for a profiler
mod allocation;
mod energies;
mod job;
mod listing;
mod lookups;
mod ours;
mod pulses;
mod shapes;
mod symbols;
mod traffic;
#[path = "../../driver/src/random.rs"]
mod random;

use job::{Job, Round, SIDES};
use std::time::Instant;

/// The seed of the generated inputs.
const SEED: u64 = 6716;

/// The table of jobs. A new kind of call is a module with a function that makes its jobs, and a line here.
fn jobs(root: &str) -> Vec<Job> {
    let r = &mut random::Random::new(SEED);
    let recorded = traffic::allocations(root);
    let any = traffic::any_allocations(root, recorded.len());
    let mut list = symbols::jobs(r, &traffic::coarse(root));
    list.extend(pulses::jobs(r, &traffic::shapes(root)));
    list.extend(lookups::jobs(r));
    list.extend(allocation::jobs(recorded, any));
    list.extend(energies::jobs(r, traffic::coarse(root), traffic::last_bits(root)));
    list.extend(shapes::jobs(traffic::shapes(root)));
    list.extend(listing::jobs(traffic::request_lines(root)));
    let empty: Vec<&str> = list.iter().filter(|job| job.calls == 0).map(|job| job.name).collect();
    assert!(empty.is_empty(), "without inputs: {}", empty.join("; "));
    list
}

/// A round under a name that a profiler can be told to begin and end at.
#[no_mangle]
#[inline(never)]
pub extern "C" fn measured(round: &mut Round) -> u64 {
    round(false)
}

/// All sides must give the same, bytes and lists too.
fn agree(job: &mut Job) {
    let sums: Vec<u64> = job.parts.iter_mut().flatten().map(|p| (p.round)(true)).collect();
    assert!(sums.windows(2).all(|w| w[0] == w[1]), "{}, {}: the sides differ", job.name, job.inputs);
}

fn median(list: &mut [f64]) -> f64 {
    list.sort_by(f64::total_cmp);
    list[list.len() / 2]
}

/// The median nanoseconds of a call, of each side. The sides take turns, and who begins goes round.
fn time(job: &mut Job, rounds: usize) -> [Option<f64>; 3] {
    let mut spent: [Vec<f64>; 3] = Default::default();
    for round in 0..rounds {
        for turn in 0..3 {
            let at = (round + turn) % 3;
            if let Some(part) = &mut job.parts[at] {
                let start = Instant::now();
                std::hint::black_box(measured(&mut part.round));
                spent[at].push(start.elapsed().as_nanos() as f64 / job.calls as f64);
            }
        }
    }
    spent.map(|mut list| (!list.is_empty()).then(|| median(&mut list)))
}

fn shown(at: usize, job: &Job) -> String {
    let kind = if job.frame { "frame" } else { "single" };
    let callees: Vec<&str> = job.parts.iter().map(|p| p.as_ref().map_or("-", |p| p.callee)).collect();
    format!("{at}\t{}\t{}\t{kind}\t{}\t{}", job.name, job.inputs, job.calls, callees.join("\t"))
}

fn main() {
    let words: Vec<String> = std::env::args().skip(1).collect();
    let words: Vec<&str> = words.iter().map(String::as_str).collect();
    let number = |w: &str| w.parse::<usize>().unwrap_or_else(|_| panic!("'{w}' is no number"));
    match words[..] {
        [root, "list"] => jobs(root).iter().enumerate().for_each(|(at, job)| println!("{}", shown(at, job))),
        [root, "time", rounds] => {
            for (at, job) in jobs(root).iter_mut().enumerate() {
                agree(job);
                let ns = time(job, number(rounds)).map(|t| t.map_or("-".to_string(), |t| format!("{t:.2}")));
                println!("{}\t{}", shown(at, job), ns.join("\t"));
            }
        }
        [root, "count", at] => {
            let mut list = jobs(root);
            for part in list[number(at)].parts.iter_mut().flatten() {
                std::hint::black_box(measured(&mut part.round));
            }
        }
        _ => panic!("timer ROOT list | time ROUNDS | count NUMBER; the sides are {}", SIDES.join(", ")),
    }
}
