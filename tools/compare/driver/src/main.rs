//! The program: --record, --answer and --compare of request lines, for each kind that the library has.
use driver::*;
use std::io::{Read, Write};
use std::process::{Command, Stdio};

/// A kind of request: what --record, --answer and --compare need to know of it.
struct Kind {
    name: &'static str,
    /// The program that answers it, which may answer other kinds too.
    program: &'static str,
    sequences: fn(&mut random::Random) -> Vec<Sequence>,
    oracle: fn() -> Box<dyn Side>,
    figures: fn(&[Sequence]) -> Vec<String>,
    /// The recorded input ends without a line feed.
    open_end: bool,
}

const KINDS: [Kind; 10] = [
    Kind {
        name: "coder",
        program: "replay_coder",
        sequences: coder_sequences::all,
        oracle: || Box::new(coder::Oracle::new()),
        figures: coder_sequences::figures,
        open_end: false,
    },
    Kind {
        name: "words",
        program: "replay_coder",
        sequences: |r| [laplace_sequences::all(r), pulse_sequences::all(r)].concat(),
        oracle: || Box::new(words::Oracle::new()),
        figures: |list| [laplace_sequences::figures(list), pulse_sequences::figures(list)].concat(),
        open_end: false,
    },
    Kind {
        name: "lookups",
        program: "replay_calls",
        sequences: lookups::all,
        oracle: || Box::new(lookups::Oracle),
        figures: lookups::figures,
        open_end: false,
    },
    Kind {
        name: "alloc",
        program: "replay_calls",
        sequences: alloc_sequences::all,
        oracle: || Box::new(alloc::Oracle),
        figures: alloc_sequences::figures,
        open_end: false,
    },
    Kind {
        name: "listing",
        program: "lister",
        sequences: listing_sequences::all,
        oracle: || Box::new(listing::Oracle(0)),
        figures: listing_sequences::figures,
        open_end: true,
    },
    Kind {
        name: "energy",
        program: "replay_calls",
        sequences: energy_sequences::all,
        oracle: || Box::new(energy::Oracle),
        figures: energy_sequences::figures,
        open_end: false,
    },
    Kind {
        name: "shape",
        program: "replay_calls",
        sequences: shape_sequences::all,
        oracle: || Box::new(shape::Oracle),
        figures: shape_sequences::figures,
        open_end: false,
    },
    Kind {
        name: "held",
        program: "replay_held",
        sequences: held_sequences::all,
        oracle: || Box::new(held::Oracle),
        figures: held_sequences::figures,
        open_end: false,
    },
    Kind {
        name: "trip",
        program: "replay_trip",
        sequences: trip_sequences::all,
        oracle: || Box::new(trip::Oracle),
        figures: trip_sequences::figures,
        open_end: false,
    },
    Kind {
        name: "stream",
        program: "replay_stream",
        sequences: stream_sequences::all,
        oracle: || Box::new(stream::Oracle::new()),
        figures: stream_sequences::figures,
        open_end: false,
    },
];

/// The seed of every record.
const SEED: u64 = 6716;

fn fail(text: &str) -> ! {
    eprintln!("compare: {text}");
    std::process::exit(1)
}

fn answers(kind: &Kind, lines: &[String]) -> Vec<String> {
    let mut side = (kind.oracle)();
    let said: Vec<String> = lines.iter().filter_map(|line| side.answer(line)).collect();
    said.iter().flat_map(|text| text.lines()).map(str::to_string).collect()
}

fn joined(lines: &[String]) -> String {
    lines.iter().map(|line| format!("{line}\n")).collect()
}

/// Writes stdin and stdout of a kind's program: the requests of each kind that it answers, one kind after the other, each from the seed.
fn record(kind: &Kind, folder: &str) {
    let (mut asked, mut said) = (String::new(), String::new());
    for kind in KINDS.iter().filter(|k| k.program == kind.program) {
        let sequences = (kind.sequences)(&mut random::Random::new(SEED));
        let lines = sequences.concat();
        let answered = answers(kind, &lines);
        asked += &joined(&lines);
        if kind.open_end {
            asked.pop();
        }
        said += &joined(&answered);
        eprintln!("{}: seed {SEED}, {} sequences, {} requests, {} answers", kind.name, sequences.len(), lines.len(), answered.len());
        for line in (kind.figures)(&sequences) {
            eprintln!("{line}");
        }
    }
    for (name, text) in [("stdin", asked), ("stdout", said)] {
        let path = format!("{folder}/{name}");
        std::fs::write(&path, &text).unwrap_or_else(|e| fail(&format!("{path}: {e}")));
        eprintln!("{path}: {} lines, {} bytes", text.lines().count(), text.len());
    }
}

fn answer(kind: &Kind) {
    let mut text = String::new();
    std::io::stdin().read_to_string(&mut text).unwrap_or_else(|e| fail(&format!("standard input: {e}")));
    // A line feed alone ends a line, as in the programs.
    let lines: Vec<String> = text.split_terminator('\n').map(str::to_string).collect();
    print!("{}", joined(&answers(kind, &lines)));
}

/// What a program writes on these lines.
fn run(program: &str, lines: &[String]) -> Vec<String> {
    let mut child = Command::new(program)
        .stdin(Stdio::piped())
        .stdout(Stdio::piped())
        .spawn()
        .unwrap_or_else(|e| fail(&format!("{program}: {e}")));
    let mut into = child.stdin.take().expect("a pipe");
    let text = joined(lines);
    let feeding = std::thread::spawn(move || into.write_all(text.as_bytes()));
    let mut said = String::new();
    child.stdout.take().expect("a pipe").read_to_string(&mut said).unwrap_or_else(|e| fail(&format!("{program}: {e}")));
    let _ = feeding.join();
    let _ = child.wait();
    said.lines().map(str::to_string).collect()
}

/// The requests of the sequence up to the first answer that differs, and both answers.
fn shown(kind: &Kind, sequence: &Sequence, said: &[String]) -> Option<String> {
    let mut side = (kind.oracle)();
    let mut place = 0;
    for (at, line) in sequence.iter().enumerate() {
        let Some(answer) = side.answer(line) else { continue };
        for right in answer.lines() {
            let other = said.get(place).map_or("(nothing)", |s| s.as_str());
            if right != other {
                return Some(format!("{}oracle:  {right}\nprogram: {other}", joined(&sequence[..=at])));
            }
            place += 1;
        }
    }
    (place < said.len()).then(|| format!("{}the program wrote more: {}", joined(sequence), said[place]))
}

fn compare(kind: &Kind, program: &str, seed: u64, rounds: u64) {
    let (mut sequences, mut lines) = (0, 0);
    for round in 0..rounds {
        let list = (kind.sequences)(&mut random::Random::new(seed + round));
        let all = list.concat();
        let right = answers(kind, &all);
        sequences += list.len();
        lines += right.len();
        if run(program, &all) == right {
            continue;
        }
        // The sequences run one by one, the shortest first, so that the smallest input is shown.
        let mut list = list;
        list.sort_by_key(|sequence| (sequence.len(), sequence.iter().map(String::len).sum::<usize>()));
        for sequence in &list {
            if let Some(text) = shown(kind, sequence, &run(program, sequence)) {
                print!("{text}\n");
                fail(&format!("seed {} differs", seed + round));
            }
        }
        fail(&format!("seed {} differs, though each sequence alone agrees", seed + round));
    }
    println!("{}: seeds {seed} to {}, {sequences} sequences, {lines} answers: all agree", kind.name, seed + rounds - 1);
}

fn main() {
    let words: Vec<String> = std::env::args().skip(1).collect();
    let words: Vec<&str> = words.iter().map(String::as_str).collect();
    let (Some(action), Some(name)) = (words.first(), words.get(1)) else { fail("driver ACTION KIND ..") };
    let Some(kind) = KINDS.iter().find(|k| k.name == *name) else {
        let names: Vec<&str> = KINDS.iter().map(|k| k.name).collect();
        fail(&format!("no kind '{name}'; the kinds are: {}", names.join(" ")))
    };
    let number = |text: &str| text.parse::<u64>().unwrap_or_else(|_| fail(&format!("'{text}' is no number")));
    match (*action, &words[2..]) {
        ("record", [folder]) => record(kind, folder),
        ("answer", []) => answer(kind),
        ("compare", [program, seed, rounds]) => compare(kind, program, number(seed), number(rounds)),
        _ => fail("driver record KIND FOLDER | answer KIND | compare KIND PROGRAM SEED ROUNDS"),
    }
}
