//! libgurthapen.a beside the crate and libopus, in one process: every call is answered by all, and every result, byte, number of a state and refusal is
//! compared.
//!
//!     linked KIND SEED CALLS    KIND is a kind or all; CALLS is how many are made at random, beside those that are always made
mod allocation;
mod both;
mod coder;
mod damage;
#[cfg(has_energies)]
mod energies;
mod exports;
mod exports_frame;
mod floats;
mod guarded;
#[cfg(has_listing)]
mod listing;
mod lookups;
mod pulses;
mod question;
#[cfg(any(has_energies, has_shapes, has_record))]
mod readers;
#[cfg(has_record)]
mod record;
#[cfg(has_record)]
mod record_chance;
#[cfg(has_shapes)]
mod shapes;
mod shrink;
mod small;
mod steps;
mod tally;
#[cfg(has_trip)]
mod trip;
mod walk;

use driver::random::Random;
use steps::Steps;
use tally::{grouped, Tally};
use walk::{Differs, Walk};

/// A kind's run: where its chance comes from, and its counts.
pub struct Run {
    pub r: Random,
    pub tally: Tally,
}

/// What differs, with its smallest input.
type Found = String;

/// A kind of call.
struct Kind {
    name: &'static str,
    /// Its share of the random calls where all kinds run: calls that take long have a small one.
    share: u64,
    /// What is always run: all of what is small, limits, recorded traffic.
    fixed: fn(&mut Run) -> Result<(), Found>,
    /// At random, until the tally has so many calls.
    chance: fn(&mut Run, u64) -> Result<(), Found>,
}

/// Runs steps of a walk; where something differs, its steps are made few.
fn walked(run: &mut Run, body: impl FnOnce(&mut Run, &mut Walk) -> Result<(), Differs>) -> Result<(), Found> {
    let mut w = Walk::new();
    body(run, &mut w).map_err(|_| shrink::smallest(Steps(w.log)))
}

/// Sequences of a walk until there are so many calls.
fn walks(run: &mut Run, calls: u64, sequence: fn(&mut Run, &mut Walk) -> Result<(), Differs>) -> Result<(), Found> {
    walked(run, |run, w| {
        while run.tally.calls < calls {
            sequence(run, w)?;
        }
        Ok(())
    })
}

const KINDS: &[Kind] = &[
    Kind {
        name: "small",
        share: 0,
        fixed: |run| walked(run, small::written).and_then(|_| walked(run, small::read)),
        chance: |_, _| Ok(()),
    },
    Kind { name: "coder", share: 915, fixed: |_| Ok(()), chance: |run, calls| walks(run, calls, coder::sequence) },
    Kind { name: "pulses", share: 10, fixed: |run| walked(run, pulses::every), chance: |run, calls| walks(run, calls, pulses::sequence) },
    Kind { name: "lookups", share: 20, fixed: lookups::every, chance: lookups::chance },
    Kind { name: "allocation", share: 10, fixed: allocation::fixed, chance: allocation::chance },
    #[cfg(has_energies)]
    Kind { name: "energies", share: 20, fixed: energies::fixed, chance: energies::chance },
    #[cfg(has_shapes)]
    Kind { name: "shapes", share: 5, fixed: shapes::fixed, chance: shapes::chance },
    #[cfg(has_record)]
    Kind { name: "record", share: 10, fixed: record_chance::fixed, chance: record_chance::chance },
    #[cfg(has_listing)]
    Kind { name: "listing", share: 5, fixed: listing::fixed, chance: listing::chance },
    #[cfg(has_trip)]
    Kind { name: "trip", share: 5, fixed: trip::fixed, chance: trip::chance },
];

/// The kinds whose calls the archive lacks (build.rs looks).
const LACKED: &[&str] = &[
    #[cfg(not(has_energies))]
    "energies",
    #[cfg(not(has_shapes))]
    "shapes",
    #[cfg(not(has_record))]
    "record",
    #[cfg(not(has_listing))]
    "listing",
    #[cfg(not(has_trip))]
    "trip",
];

fn fail(text: &str) -> ! {
    eprintln!("linked: {text}");
    std::process::exit(1)
}

/// One kind, from its own random numbers, so that it runs alone as it does among all.
fn compared(at: usize, seed: u64, calls: u64) -> (Tally, Option<Found>) {
    let kind = &KINDS[at];
    let own = kind.name.bytes().fold(seed, |sum, b| sum.wrapping_mul(0x100_0000_01b3) ^ b as u64);
    let mut run = Run { r: Random::new(own), tally: Tally::new(kind.name) };
    let found = (kind.fixed)(&mut run).and_then(|_| {
        run.tally.goal = run.tally.calls + calls;
        let goal = run.tally.goal;
        (kind.chance)(&mut run, goal)
    });
    (run.tally, found.err())
}

fn main() {
    let words: Vec<String> = std::env::args().skip(1).collect();
    let [name, seed, calls] = &words[..] else { fail("linked KIND SEED CALLS") };
    let number = |text: &str| text.parse::<u64>().unwrap_or_else(|_| fail(&format!("'{text}' is no number")));
    let (seed, calls) = (number(seed), number(calls));
    let names: Vec<&str> = KINDS.iter().map(|k| k.name).collect();
    if name == "kinds" {
        return println!("all {}", names.join(" "));
    }
    let asked: Vec<usize> = (0..KINDS.len()).filter(|&at| name == "all" || name == names[at]).collect();
    if LACKED.contains(&name.as_str()) {
        fail(&format!("libgurthapen.a lacks the calls of '{name}'"));
    }
    if asked.is_empty() {
        fail(&format!("no kind '{name}'; the kinds are: all {}", names.join(" ")));
    }
    // A panic of the crate is caught, call by call, and counted; its message would only be in the way.
    let told = std::panic::take_hook();
    std::panic::set_hook(Box::new(move |info| {
        if !info.location().is_some_and(|at| at.file().starts_with("oracle/")) {
            told(info);
        }
    }));
    println!("seed {seed}");
    if name == "all" {
        LACKED.iter().for_each(|kind| println!("{kind}: left out, since libgurthapen.a lacks its calls"));
    }
    let (mut all, mut differences) = (0, 0);
    let shares: u64 = KINDS.iter().map(|k| k.share).sum();
    for at in asked {
        let share = if name == "all" { calls * KINDS[at].share / shares } else { calls };
        let (tally, found) = compared(at, seed, share);
        tally.lines().iter().for_each(|line| println!("{line}"));
        all += tally.calls;
        if let Some(text) = found {
            println!("{}: DIFFERENCE\n{text}", KINDS[at].name);
            differences += 1;
        }
    }
    println!("{} calls, {}", grouped(all), if differences == 0 { "no difference".to_string() } else { format!("{differences} kinds differ") });
    if differences > 0 {
        std::process::exit(1);
    }
}
