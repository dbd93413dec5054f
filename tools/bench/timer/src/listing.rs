//! Lines of the lister: a request line in, the lines of its answer out. Neither the crate nor libopus has a lister. On the crate's side its allocation
//! stands inside document 01's rule of the lister in plain Rust, for lines that are well formed and not refused; nothing is checked there.
use crate::job::{mix, mix_bytes, part, Job};
use crate::ours;
use oracle::celt::{entdec, modes, rate};
use oracle::libopus;
use std::io::Write;

/// No answer takes more bytes, and so many must be lent.
const ROOM: usize = 1200;

/// The answer's bytes; the caps are libopus' own, since the crate's files have none.
#[inline(never)]
fn by_crate(line: &str, number: u32, out: &mut Vec<u8>) {
    let mut fields = line.split('\t');
    let mut field = || fields.next().expect("seven fields");
    let [c, lm, start, end] = std::array::from_fn(|_| field().parse::<i32>().expect("a number"));
    let (trim, total, hex) = (field(), field(), field().as_bytes());
    let digit = |b: u8| if b <= b'9' { b - b'0' } else { b - b'a' + 10 };
    let mut bytes: Vec<u8> = hex.chunks(2).map(|d| digit(d[0]) * 16 + digit(d[1])).collect();
    let trim = if trim.is_empty() { 5 } else { trim.parse().expect("a number") };
    let total = if total.is_empty() { 64 * bytes.len() as i32 } else { total.parse().expect("a number") };
    let (offsets, mut caps) = ([0; 21], [0; 21]);
    let [mut pulses, mut fine, mut priorities] = [[0; 21]; 3];
    let [mut intensity, mut dual, mut balance] = [0; 3];
    let mut coder = entdec::ec_dec_init(&mut bytes);
    // The modes are the oracles' constants; every list has 21 entries, and start and end are bands of the mode.
    let coded = unsafe {
        libopus::init_caps(libopus::opus_custom_mode_create(48000, 960, &mut 0), caps.as_mut_ptr(), lm, c);
        let mode = modes::opus_custom_mode_create(48000, 960, &mut 0);
        rate::clt_compute_allocation(
            mode, start, end, offsets.as_ptr(), caps.as_ptr(), trim, &mut intensity, &mut dual, total, &mut balance,
            pulses.as_mut_ptr(), fine.as_mut_ptr(), priorities.as_mut_ptr(), c, lm, &mut coder, 0, 0, 0,
        )
    };
    out.clear();
    let written = writeln!(out, "R\t{number}\t{coded}\t{balance}\t{intensity}\t{dual}");
    let bands = (start as usize..end as usize).map(|j| writeln!(out, "B\t{j}\t{}\t{}\t{}", pulses[j], fine[j], priorities[j]));
    bands.fold(written, |all, one| all.and(one)).expect("a list takes any bytes");
}

pub fn jobs(lines: Vec<(u32, String)>) -> Vec<Job> {
    let mut room = [0; ROOM];
    let mut answered = |line: &str, number: u32| {
        let length = ours::list(line.as_bytes(), number, &mut room);
        length > 0 && room[0] == b'R'
    };
    let list: Vec<(u32, String)> = lines.into_iter().filter(|(number, line)| answered(line, *number)).collect();
    if list.is_empty() {
        return vec![];
    }
    let (calls, ours_, crate_) = (list.len(), list.clone(), list);
    let parts = [
        part("gurthapen_list", move |whole| {
            let mut sum = 0;
            for (number, line) in &ours_ {
                let length = ours::list(line.as_bytes(), *number, &mut room);
                sum = mix(sum, length as i64);
                sum = if whole { mix_bytes(sum, &room[..length]) } else { sum };
            }
            sum
        }),
        part("timer::listing::by_crate", move |whole| {
            let mut sum = 0;
            let mut out = Vec::with_capacity(ROOM);
            for (number, line) in &crate_ {
                by_crate(line, *number, &mut out);
                sum = mix(sum, out.len() as i64);
                sum = if whole { mix_bytes(sum, &out) } else { sum };
            }
            sum
        }),
        None,
    ];
    vec![Job { name: "lister's line", inputs: "both", frame: true, calls, parts }]
}
