//! Symbols of the range coder and Laplace values. The packets are random bytes or recorded; what the crate reads from them, symbol after symbol,
//! is read again by each side, and written by each side into a new packet of that length. So values have the shares that their models give them.
use crate::job::{crate_coder, crate_state, libopus_coder, libopus_state, mix, mix_bytes, mix_state, part, Job};
use crate::ours::{self, State};
use crate::random::Random;
use crate::traffic;
use oracle::celt::entcode::{ec_ctx, ec_tell};
use oracle::celt::{entdec, entenc, laplace, quant_bands};
use oracle::libopus::{self, EcCtx};
use std::hint::black_box;

/// A packet, the reader's state before, and what is read from it one after the other: a symbol's kind, and its value.
#[derive(Clone)]
struct Packet<K> {
    bytes: Vec<u8>,
    state: State,
    symbols: Vec<(K, i32)>,
}

/// Reads symbols as long as the packet has bits, at most `most`.
fn read_all<K>(bytes: Vec<u8>, state: State, most: usize, mut kind: impl FnMut(usize) -> Option<K>, read: impl Fn(&mut ec_ctx, &K) -> i32) -> Packet<K> {
    let mut room = bytes.clone();
    let mut symbols = vec![];
    let mut c = crate_coder(&mut room, &state);
    while symbols.len() < most && ec_tell(&c) + 40 < 8 * bytes.len() as i32 {
        let Some(k) = kind(symbols.len()) else { break };
        let value = read(&mut c, &k);
        symbols.push((k, value));
    }
    Packet { bytes, state, symbols }
}

/// Four packets of 1275 random bytes, and at most 400 symbols of each.
fn generated<K>(r: &mut Random, kind: impl Fn(&mut Random) -> K, read: impl Fn(&mut ec_ctx, &K) -> i32) -> Vec<Packet<K>> {
    let mut list = vec![];
    for _ in 0..4 {
        let bytes: Vec<u8> = (0..1275).map(|_| r.below(256) as u8).collect();
        let state = ours::dec_new(&bytes);
        list.push(read_all(bytes, state, 400, |_| Some(kind(r)), &read));
    }
    list
}

fn calls<K>(packets: &[Packet<K>]) -> usize {
    packets.iter().map(|p| p.symbols.len()).sum()
}

/// The job of reading what the packets hold.
fn reading<K: Clone + 'static>(
    name: &'static str,
    inputs: &'static str,
    packets: &[Packet<K>],
    callees: [&'static str; 3],
    by_us: impl Fn(&mut State, &[u8], &K) -> i32 + 'static,
    by_crate: impl Fn(&mut ec_ctx, &K) -> i32 + 'static,
    by_libopus: impl Fn(&mut EcCtx, &K) -> i32 + 'static,
) -> Job {
    let [ours_, crate_, libopus_] = [packets.to_vec(), packets.to_vec(), packets.to_vec()];
    let mut crate_ = crate_;
    let mut libopus_ = libopus_;
    let parts = [
        part(callees[0], move |_| {
            let mut sum = 0;
            for p in &ours_ {
                let mut state = p.state;
                for (k, _) in &p.symbols {
                    sum = mix(sum, by_us(&mut state, &p.bytes, k) as i64);
                }
                sum = mix_state(sum, &state);
            }
            sum
        }),
        part(callees[1], move |_| {
            let mut sum = 0;
            for p in &mut crate_ {
                let mut c = crate_coder(&mut p.bytes, &p.state);
                for (k, _) in &p.symbols {
                    sum = mix(sum, by_crate(&mut c, k) as i64);
                }
                sum = mix_state(sum, &crate_state(&c));
            }
            sum
        }),
        part(callees[2], move |_| {
            let mut sum = 0;
            for p in &mut libopus_ {
                let mut c = libopus_coder(&mut p.bytes, &p.state);
                for (k, _) in &p.symbols {
                    sum = mix(sum, by_libopus(&mut c, k) as i64);
                }
                sum = mix_state(sum, &libopus_state(&c));
            }
            sum
        }),
    ];
    Job { name, inputs, frame: false, calls: calls(packets), parts }
}

/// The job of writing what the packets hold.
fn writing<K: Clone + 'static>(
    name: &'static str,
    inputs: &'static str,
    packets: &[Packet<K>],
    callees: [&'static str; 3],
    by_us: impl Fn(&mut State, &mut [u8], &K, i32) + 'static,
    by_crate: impl Fn(&mut ec_ctx, &K, i32) + 'static,
    by_libopus: impl Fn(&mut EcCtx, &K, i32) + 'static,
) -> Job {
    let start = |packets: &[Packet<K>]| -> Vec<Packet<K>> {
        packets.iter().map(|p| Packet { bytes: vec![0; p.bytes.len()], state: ours::enc_new(&p.bytes), symbols: p.symbols.clone() }).collect()
    };
    let [mut ours_, mut crate_, mut libopus_] = [start(packets), start(packets), start(packets)];
    let parts = [
        part(callees[0], move |whole| {
            let mut sum = 0;
            for p in &mut ours_ {
                let mut state = p.state;
                for (k, v) in &p.symbols {
                    by_us(&mut state, &mut p.bytes, k, *v);
                }
                sum = mix_state(sum, &state);
                sum = if whole { mix_bytes(sum, &p.bytes) } else { sum };
            }
            sum
        }),
        part(callees[1], move |whole| {
            let mut sum = 0;
            for p in &mut crate_ {
                let mut c = crate_coder(&mut p.bytes, &p.state);
                for (k, v) in &p.symbols {
                    by_crate(&mut c, k, *v);
                }
                sum = mix_state(sum, &crate_state(&c));
                sum = if whole { mix_bytes(sum, &p.bytes) } else { sum };
            }
            sum
        }),
        part(callees[2], move |whole| {
            let mut sum = 0;
            for p in &mut libopus_ {
                let mut c = libopus_coder(&mut p.bytes, &p.state);
                for (k, v) in &p.symbols {
                    by_libopus(&mut c, k, *v);
                }
                sum = mix_state(sum, &libopus_state(&c));
                sum = if whole { mix_bytes(sum, &p.bytes) } else { sum };
            }
            sum
        }),
    ];
    Job { name, inputs, frame: false, calls: calls(packets), parts }
}

/// Log probabilities about as often as CELT's frames use them: 1 for flags and each further boost of a band, 15 for silence.
const LOGPS: [u32; 10] = [1, 1, 1, 2, 3, 3, 4, 5, 6, 15];

/// Bits that are 1 in one of 2^logp places.
fn bits(r: &mut Random) -> Vec<Job> {
    let packets = generated(r, |r| r.one_of(&LOGPS), |c, &logp| entdec::ec_dec_bit_logp(c, logp));
    let read = black_box(entdec::ec_dec_bit_logp as fn(&mut ec_ctx, u32) -> i32);
    let write = black_box(entenc::ec_enc_bit_logp as fn(&mut ec_ctx, i32, u32));
    vec![
        reading(
            "bit, read", "generated", &packets, ["gurthapen_dec_bit_logp", "oracle::celt::entdec::ec_dec_bit_logp", "ec_dec_bit_logp"],
            |state, s, &logp| ours::dec_bit_logp(state, s, logp) as i32,
            move |c, &logp| read(c, logp),
            |c, &logp| unsafe { libopus::ec_dec_bit_logp(c, logp) },
        ),
        writing(
            "bit, write", "generated", &packets, ["gurthapen_enc_bit_logp", "oracle::celt::entenc::ec_enc_bit_logp", "ec_enc_bit_logp"],
            |state, buf, &logp, v| ours::enc_bit_logp(state, buf, v as u32, logp),
            move |c, &logp, v| write(c, v, logp),
            |c, &logp, v| unsafe { libopus::ec_enc_bit_logp(c, v, logp) },
        ),
    ]
}

/// Tables that CELT's frames use, with the binary digits of their sum: small energies, tapsets, spreading, trims.
const TABLES: [(&[u8], u32); 4] = [
    (&[2, 1, 0], 2),
    (&[2, 1, 0], 2),
    (&[25, 23, 2, 0], 5),
    (&[126, 124, 119, 109, 87, 41, 19, 9, 4, 2, 0], 7),
];

/// Symbols of tables.
fn tables(r: &mut Random) -> Vec<Job> {
    let packets = generated(r, |r| TABLES[r.below(4) as usize], |c, (t, ftb)| entdec::ec_dec_icdf(c, t, *ftb));
    let read = black_box(entdec::ec_dec_icdf as fn(&mut ec_ctx, &[u8], u32) -> i32);
    let write = black_box(entenc::ec_enc_icdf as fn(&mut ec_ctx, i32, &[u8], u32));
    vec![
        reading(
            "table symbol, read", "generated", &packets, ["gurthapen_dec_icdf", "oracle::celt::entdec::ec_dec_icdf", "ec_dec_icdf"],
            |state, s, (t, ftb)| ours::dec_icdf(state, s, t, *ftb) as i32,
            move |c, (t, ftb)| read(c, t, *ftb),
            |c, (t, ftb)| unsafe { libopus::ec_dec_icdf(c, t.as_ptr(), *ftb) },
        ),
        writing(
            "table symbol, write", "generated", &packets, ["gurthapen_enc_icdf", "oracle::celt::entenc::ec_enc_icdf", "ec_enc_icdf"],
            |state, buf, (t, ftb), v| ours::enc_icdf(state, buf, v as u32, t, *ftb),
            move |c, (t, ftb), v| write(c, v, t, *ftb),
            |c, (t, ftb), v| unsafe { libopus::ec_enc_icdf(c, v, t.as_ptr(), *ftb) },
        ),
    ]
}

/// Uniform integers, below a limit of 2 to 32 binary digits.
fn uniform(r: &mut Random) -> Vec<Job> {
    let limit = |r: &mut Random| {
        let digits = r.within(2, 32);
        r.within(2, u32::MAX >> (32 - digits)).max(2)
    };
    let packets = generated(r, limit, |c, &ft| entdec::ec_dec_uint(c, ft) as i32);
    let read = black_box(entdec::ec_dec_uint as fn(&mut ec_ctx, u32) -> u32);
    let write = black_box(entenc::ec_enc_uint as fn(&mut ec_ctx, u32, u32));
    vec![
        reading(
            "uniform integer, read", "generated", &packets, ["gurthapen_dec_uint", "oracle::celt::entdec::ec_dec_uint", "ec_dec_uint"],
            |state, s, &ft| ours::dec_uint(state, s, ft) as i32,
            move |c, &ft| read(c, ft) as i32,
            |c, &ft| unsafe { libopus::ec_dec_uint(c, ft) as i32 },
        ),
        writing(
            "uniform integer, write", "generated", &packets, ["gurthapen_enc_uint", "oracle::celt::entenc::ec_enc_uint", "ec_enc_uint"],
            |state, buf, &ft, v| ours::enc_uint(state, buf, v as u32, ft),
            move |c, &ft, v| write(c, v as u32, ft),
            |c, &ft, v| unsafe { libopus::ec_enc_uint(c, v as u32, ft) },
        ),
    ]
}

/// Raw bits, 1 to 25 of them.
fn raw(r: &mut Random) -> Vec<Job> {
    let packets = generated(r, |r| r.within(1, 25), |c, &n| entdec::ec_dec_bits(c, n) as i32);
    let read = black_box(entdec::ec_dec_bits as fn(&mut ec_ctx, u32) -> u32);
    let write = black_box(entenc::ec_enc_bits as fn(&mut ec_ctx, u32, u32));
    vec![
        reading(
            "raw bits, read", "generated", &packets, ["gurthapen_dec_bits", "oracle::celt::entdec::ec_dec_bits", "ec_dec_bits"],
            |state, s, &n| ours::dec_bits(state, s, n) as i32,
            move |c, &n| read(c, n) as i32,
            |c, &n| unsafe { libopus::ec_dec_bits(c, n) as i32 },
        ),
        writing(
            "raw bits, write", "generated", &packets, ["gurthapen_enc_bits", "oracle::celt::entenc::ec_enc_bits", "ec_enc_bits"],
            |state, buf, &n, v| ours::enc_bits(state, buf, v as u32, n),
            move |c, &n, v| write(c, v as u32, n),
            |c, &n, v| unsafe { libopus::ec_enc_bits(c, v as u32, n) },
        ),
    ]
}

/// A share of zero and a decay.
type Pair = (u32, u32);

fn read_laplace(c: &mut ec_ctx, pair: &Pair) -> i32 {
    // The crate calls this unsafe. It reads and writes nothing but the coder.
    unsafe { laplace::ec_laplace_decode(c, pair.0, pair.1 as i32) }
}

/// The Laplace values at the start of recorded coarse energies: as long as 15 bits are left for each.
fn recorded_values(lines: &[traffic::Energies]) -> Vec<Packet<Pair>> {
    let pairs = quant_bands::model_pairs();
    let packet = |e: &traffic::Energies| {
        let [c, lm, start, end, intra] = [e.c, e.lm, e.start, e.end, e.intra].map(|v| v as usize);
        let most = c * (end - start);
        let pair = |at: usize| Some(pairs[(lm * 2 + intra) * 21 + start + at / c]);
        read_all(e.bytes.clone(), e.state, most, pair, read_laplace)
    };
    lines.iter().map(packet).filter(|p| !p.symbols.is_empty()).collect()
}

/// Laplace values with pairs of the coarse-energy model.
fn laplace_jobs(inputs: &'static str, packets: &[Packet<Pair>]) -> Vec<Job> {
    let read = black_box(laplace::ec_laplace_decode as unsafe fn(&mut ec_ctx, u32, i32) -> i32);
    let write = black_box(laplace::ec_laplace_encode as unsafe fn(&mut ec_ctx, *mut i32, u32, i32));
    vec![
        reading(
            "Laplace value, read", inputs, packets,
            ["gurthapen_laplace_decode", "oracle::celt::laplace::ec_laplace_decode", "ec_laplace_decode"],
            |state, s, &(fs, decay)| ours::laplace_decode(state, s, fs, decay),
            move |c, &(fs, decay)| unsafe { read(c, fs, decay as i32) },
            |c, &(fs, decay)| unsafe { libopus::ec_laplace_decode(c, fs, decay as i32) },
        ),
        writing(
            "Laplace value, write", inputs, packets,
            ["gurthapen_laplace_encode", "oracle::celt::laplace::ec_laplace_encode", "ec_laplace_encode"],
            |state, buf, &(fs, decay), v| {
                ours::laplace_encode(state, buf, v, fs, decay);
            },
            move |c, &(fs, decay), v| {
                let mut counts = v;
                unsafe { write(c, &mut counts, fs, decay as i32) }
            },
            |c, &(fs, decay), v| {
                let mut counts = v;
                unsafe { libopus::ec_laplace_encode(c, &mut counts, fs, decay as i32) }
            },
        ),
    ]
}

pub fn jobs(r: &mut Random, energies: &[traffic::Energies]) -> Vec<Job> {
    let mut list = [bits(r), tables(r), uniform(r), raw(r)].into_iter().flatten().collect::<Vec<_>>();
    let pairs = quant_bands::model_pairs();
    list.extend(laplace_jobs("generated", &generated(r, |r| pairs[r.below(168) as usize], read_laplace)));
    if !energies.is_empty() {
        list.extend(laplace_jobs("recorded", &recorded_values(energies)));
    }
    list
}
