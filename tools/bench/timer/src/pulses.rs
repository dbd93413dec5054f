//! Pulse words: vectors of n places and k pulses. The crate's files have neither call, so that libopus alone stands beside the port.
use crate::job::{libopus_coder, libopus_state, mix, mix_bytes, mix_list, mix_state, part, Job};
use crate::ours::{self, State};
use crate::random::Random;
use crate::traffic::Shape;
use oracle::celt::cwrs;
use oracle::libopus;

/// A vector's place in a packet, and the vector.
#[derive(Clone)]
struct Word {
    n: u32,
    k: u32,
    state: State,
    y: [i32; 176],
}

/// A packet, the words that are read from it, each from its own state, and a new writer's state over its bytes.
#[derive(Clone)]
struct Packet {
    bytes: Vec<u8>,
    words: Vec<Word>,
    empty: State,
}

/// V(n, k), where it is below 2^32.
fn count(n: usize, k: usize) -> Option<u32> {
    let mut row = vec![0u64; k + 1];
    row[0] = 1;
    for _ in 0..n {
        let before = row.clone();
        for j in 1..=k {
            row[j] = (before[j] + row[j - 1] + before[j - 1]).min(1 << 40);
        }
    }
    u32::try_from(row[k]).ok()
}

/// The words of a packet from that state on.
fn read_all(bytes: &[u8], state: State, pairs: &[(u32, u32)]) -> Packet {
    let mut room = bytes.to_vec();
    let mut at = state;
    let mut words = vec![];
    for &(n, k) in pairs {
        let before = at;
        let mut y = [0; 176];
        let mut c = libopus_coder(&mut room, &at);
        // The vector has room for 176 numbers, and the tables have V(n, k).
        unsafe { libopus::decode_pulses(y.as_mut_ptr(), n as i32, k as i32, &mut c) };
        at = libopus_state(&c);
        words.push(Word { n, k, state: before, y });
    }
    Packet { bytes: bytes.to_vec(), words, empty: ours::enc_new(bytes) }
}

fn jobs_of(inputs: &'static str, packets: &[Packet]) -> Vec<Job> {
    let calls = packets.iter().map(|p| p.words.len()).sum();
    let (ours_, mut libopus_) = (packets.to_vec(), packets.to_vec());
    let mut y = [0; 176];
    let mut z = [0; 176];
    let reads = [
        part("gurthapen_decode_pulses", move |whole| {
            let mut sum = 0;
            for p in &ours_ {
                for w in &p.words {
                    let mut state = w.state;
                    sum = mix(sum, ours::decode_pulses(&mut state, &p.bytes, &mut y, w.n, w.k) as i64);
                    if whole {
                        sum = mix_list(mix_state(sum, &state), &y[..w.n as usize]);
                    }
                }
            }
            sum
        }),
        None,
        part("decode_pulses", move |whole| {
            let mut sum = 0;
            for p in &mut libopus_ {
                for w in &p.words {
                    let mut c = libopus_coder(&mut p.bytes, &w.state);
                    sum = mix(sum, unsafe { libopus::decode_pulses(z.as_mut_ptr(), w.n as i32, w.k as i32, &mut c) } as i64);
                    if whole {
                        sum = mix_list(mix_state(sum, &libopus_state(&c)), &z[..w.n as usize]);
                    }
                }
            }
            sum
        }),
    ];
    // Each packet's words one after the other into a new packet of its length.
    let (mut ours_, mut libopus_) = (packets.to_vec(), packets.to_vec());
    let writes = [
        part("gurthapen_encode_pulses", move |whole| {
            let mut sum = 0;
            for p in &mut ours_ {
                let mut state = p.empty;
                for w in &p.words {
                    ours::encode_pulses(&mut state, &mut p.bytes, &w.y, w.n, w.k);
                }
                sum = mix_state(sum, &state);
                sum = if whole { mix_bytes(sum, &p.bytes) } else { sum };
            }
            sum
        }),
        None,
        part("encode_pulses", move |whole| {
            let mut sum = 0;
            for p in &mut libopus_ {
                let mut c = libopus_coder(&mut p.bytes, &p.empty);
                for w in &p.words {
                    unsafe { libopus::encode_pulses(w.y.as_ptr(), w.n as i32, w.k as i32, &mut c) };
                }
                sum = mix_state(sum, &libopus_state(&c));
                sum = if whole { mix_bytes(sum, &p.bytes) } else { sum };
            }
            sum
        }),
    ];
    vec![
        Job { name: "pulse word, read", inputs, frame: false, calls, parts: reads },
        Job { name: "pulse word, write", inputs, frame: false, calls, parts: writes },
    ]
}

pub fn jobs(r: &mut Random, shapes: &[Shape]) -> Vec<Job> {
    let known: Vec<(u32, u32)> = (2..=176)
        .flat_map(|n| (1..=128).map(move |k| (n, k)))
        .filter(|&(n, k)| cwrs::has_count(n, k) && count(n as usize, k as usize).is_some())
        .collect();
    let recorded: Vec<Packet> = shapes.iter().filter(|s| known.contains(&(s.n, s.k))).map(|s| read_all(&s.bytes, s.state, &[(s.n, s.k)])).collect();
    let any: Vec<Packet> = (0..4)
        .map(|_| {
            let bytes: Vec<u8> = (0..1275).map(|_| r.below(256) as u8).collect();
            let pairs: Vec<(u32, u32)> = (0..100).map(|_| known[r.below(known.len() as u32) as usize]).collect();
            read_all(&bytes, ours::dec_new(&bytes), &pairs)
        })
        .collect();
    let mut list = jobs_of("recorded", &recorded);
    list.extend(jobs_of("generated", &any));
    list
}
