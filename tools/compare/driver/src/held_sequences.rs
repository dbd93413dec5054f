//! Requests of calls in two forms: reads of the range coder and of Laplace values, each taken out of a sequence that coder_sequences.rs or
//! laplace_sequences.rs makes, with the reader and the packet that it meets there, handed-in states among them; recorded allocations and coarse energies, and
//! these as frames of a record too, with the next number, its neighbours, and a packet that is not the reader's; allocations and coarse energies by
//! chance, at the domain's limits and past them; frames and records at the last numbers.
use crate::coder::{self, Call};
use crate::held::Asked;
use crate::random::Random;
use crate::{alloc, alloc_sequences, coder_sequences, energy, energy_sequences, laplace_sequences, Sequence, Side};
use oracle::celt::entdec;
use std::collections::BTreeMap;

/// Longer packets are left out, so that the lines stay short; two fixed requests have the longest.
pub const LONGEST: usize = 200;

/// At most so many of the list, at random, in its order.
pub fn chosen<T: Clone>(r: &mut Random, list: &[T], most: usize) -> Vec<T> {
    let mut places: Vec<usize> = (0..list.len()).collect();
    while places.len() > most {
        places.remove(r.below(places.len() as u32) as usize);
    }
    places.iter().map(|&at| list[at].clone()).collect()
}

/// What an answer is: the letter where it is taken, and else the letter and the number of the refusal.
fn outcome(a: &Asked) -> String {
    let answer = a.answer();
    let words: Vec<&str> = answer.split(' ').collect();
    let code = if matches!(words[0], "X" | "E" | "F") { words[1] } else { "0" };
    if code == "0" { a.letter.to_string() } else { format!("{} refused as {code}", a.letter) }
}

/// Of those that are taken so many, and of each refusal so many.
fn of_each(r: &mut Random, list: Vec<Asked>, taken: usize, refused: usize) -> Vec<Asked> {
    let mut kinds = BTreeMap::<String, Vec<Asked>>::new();
    for a in list {
        kinds.entry(outcome(&a)).or_default().push(a);
    }
    kinds.iter().flat_map(|(kind, list)| chosen(r, list, if kind.len() == 1 { taken } else { refused })).collect()
}

// ---- reads

/// The new readers and the reads of a sequence, each with the reader and the packet that it meets.
fn reads_of(sequence: &Sequence) -> Vec<Asked> {
    let mut o = coder::Oracle::new();
    let (mut pair, mut list) = ((0, 0), vec![]);
    for line in sequence {
        let (letter, numbers) = line.split_once(' ').unwrap_or((line, ""));
        let n: Vec<i64> = numbers.split_whitespace().map(|w| w.parse().expect("a number")).collect();
        let (state, bytes) = (coder::numbers(&o.at), o.bytes.clone());
        match letter {
            "P" => pair = (n[0] as u32, n[1] as u32),
            "L" => drop(o.call(letter, Call::PutLaplace(n[0] as i32, pair.0, pair.1))),
            "l" => {
                list.push(Asked::new('l', &[pair.0 as i64, pair.1 as i64], state, bytes, &[]));
                o.call(letter, Call::GetLaplace(pair.0, pair.1));
            }
            _ => {
                let table: Vec<i64> = o.table.iter().map(|&e| e as i64).collect();
                match letter {
                    "O" => list.push(Asked::new('O', &[], [0; 11], bytes, &[])),
                    "b" | "u" | "r" => list.push(Asked::new(letter.chars().next().expect("a letter"), &n, state, bytes, &[])),
                    "i" if table.len() <= 42 => list.push(Asked::new('i', &[o.ftb as i64, table.len() as i64], state, bytes, &table)),
                    _ => (),
                }
                o.answer(line);
            }
        }
    }
    list
}

/// Reads of both kinds of sequences; of each kind of read so many that are taken, and so many of each refusal.
fn reads(r: &mut Random, list: &mut Vec<Asked>) {
    let sequences = [coder_sequences::all(r), laplace_sequences::all(r)].concat();
    let found: Vec<Asked> = sequences.iter().flat_map(reads_of).filter(|a| a.bytes.len() <= LONGEST).collect();
    let (opened, read): (Vec<Asked>, Vec<Asked>) = found.into_iter().partition(|a| a.letter == 'O');
    list.extend(chosen(r, &opened, 120));
    let (spent, others): (Vec<Asked>, Vec<Asked>) = read.into_iter().partition(|a| outcome(a).ends_with("as 4"));
    list.extend(of_each(r, others, 60, 8));
    list.extend(of_each(r, spent, 0, 36));
}

/// New readers and reads of the longest packet and of one that is longer.
fn longest(r: &mut Random, list: &mut Vec<Asked>) {
    for storage in [1275, 1276] {
        let mut bytes = vec![r.below(10) as u8; storage];
        let mut state = coder::numbers(&entdec::ec_dec_init(&mut bytes[..1275]).save());
        state[0] = storage as u32;
        list.push(Asked::new('O', &[], [0; 11], bytes.clone(), &[]));
        list.push(Asked::new('r', &[25], state, bytes, &[]));
    }
}

// ---- allocations

fn allocations(r: &mut Random, list: &mut Vec<Asked>) {
    let fits = |a: &alloc::Asked| !a.writes && a.bytes.len() <= LONGEST && a.room == [21; 3] && [a.offsets.len(), a.caps.len()] == [21; 2];
    let asked = |list: Vec<alloc::Asked>| list.iter().filter(|a| fits(a)).map(Asked::allocation).collect::<Vec<Asked>>();
    let recorded = asked(alloc_sequences::traffic());
    list.extend(chosen(r, &recorded, 32));
    let any: Vec<alloc::Asked> = (0..12).flat_map(|_| [alloc_sequences::read_any(r), alloc_sequences::any_state(r)].concat()).collect();
    list.extend(asked(any));
    list.extend(of_each(r, asked(alloc_sequences::refused()), 8, 8));
}

// ---- energies and frames

/// Recorded energies, which are frames too: with the record's next number, the one before it, the one after it; and a packet that lacks a byte.
fn recorded(r: &mut Random, list: &mut Vec<Asked>) {
    let mut calls: Vec<energy::Asked> = vec![];
    energy_sequences::traffic(r, &mut calls);
    calls.retain(|a| a.coarse && a.bytes.len() <= LONGEST);
    for (k, a) in chosen(r, &calls, 28).iter().enumerate() {
        let k = k as u32;
        let short = energy::Asked { bytes: a.bytes[1..].to_vec(), ..a.clone() };
        list.extend([Asked::coarse(a), Asked::coarse(&short), Asked::frame(a, k, k), Asked::frame(&short, k, k), Asked::frame(a, k + 1, k)]);
        if k > 0 {
            list.push(Asked::frame(a, k - 1, k));
        }
    }
}

/// Random coarse decodes, taken and refused, and those of them that are frames.
fn chance(r: &mut Random, list: &mut Vec<Asked>) {
    let mut calls = energy_sequences::requests(r);
    calls.retain(|a| a.coarse && a.energies.len() == 42 && a.bytes.len() <= LONGEST);
    let coarse: Vec<Asked> = calls.iter().map(Asked::coarse).collect();
    list.extend(of_each(r, coarse, 8, 5));
    let frames: Vec<Asked> = calls.iter().map(|a| {
        let next = r.below(1000) + 1;
        let number = r.one_of(&[next, next, next, next, next - 1, next + 1]);
        Asked::frame(a, number, next)
    }).collect();
    list.extend(of_each(r, frames, 8, 4));
}

/// Frames and records at the last numbers.
fn last_numbers(r: &mut Random, list: &mut Vec<Asked>) {
    let a = energy_sequences::asked(r, true, 3);
    let last = u32::MAX;
    for (number, next) in [(last - 1, last - 1), (last, last), (last - 1, last), (last, last - 1), (last, 0), (0, last), (0, 0)] {
        list.push(Asked::frame(&a, number, next));
    }
}

pub fn all(r: &mut Random) -> Vec<Sequence> {
    let mut list = vec![];
    for family in [reads, longest, allocations, recorded, chance, last_numbers] {
        family(r, &mut list);
    }
    list.iter().map(|a| vec![a.line()]).collect()
}

/// What the requests reach, for the reader of the record.
pub fn figures(sequences: &[Sequence]) -> Vec<String> {
    let mut kinds = BTreeMap::<String, u32>::new();
    for line in sequences.iter().flatten() {
        *kinds.entry(outcome(&Asked::of(line))).or_default() += 1;
    }
    let shown: Vec<String> = kinds.iter().map(|(kind, n)| format!("{kind}: {n}")).collect();
    vec![format!("asked in two forms: {}", shown.join(", "))]
}
