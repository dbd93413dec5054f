//! Requests of the lister: document 01's example first; random requests over the whole domain, with trim and total given or left out; recorded
//! packets; the domain's limits; every kind of malformed line; and good lines with one byte changed.
use crate::listing::listing;
use crate::random::Random;
use crate::Sequence;

/// A request's fields.
#[derive(Clone)]
struct Fields([String; 7]);

impl Fields {
    fn line(&self) -> String {
        self.0.join("\t")
    }

    fn with(mut self, at: usize, text: &str) -> Self {
        self.0[at] = text.to_string();
        self
    }
}

fn fields(numbers: [i64; 6], packet: &str) -> Fields {
    let [c, lm, start, end, trim, total] = numbers.map(|n| n.to_string());
    Fields([c, lm, start, end, trim, total, packet.to_string()])
}

fn hex(bytes: &[u8]) -> String {
    bytes.iter().map(|b| format!("{b:02x}")).collect()
}

fn any_packet(r: &mut Random) -> String {
    let size = match r.below(16) {
        0 => 0,
        1 => r.within(100, 300),
        2..=5 => r.within(1, 8),
        _ => r.within(1, 60),
    };
    let bytes: Vec<u8> = match r.below(5) {
        0 => vec![[0, 255][r.below(2) as usize]; size as usize],
        _ => (0..size).map(|_| r.below(256) as u8).collect(),
    };
    hex(&bytes)
}

/// A request of the domain.
fn any_request(r: &mut Random) -> Fields {
    let end = r.within(1, 21) as i64;
    let whole = r.below(3) == 0;
    let start = if whole { 0 } else { r.below(end as u32) as i64 };
    let end = if whole { 21 } else { end };
    let total = match r.below(8) {
        0 => -(r.within(0, 100) as i64),
        1 => [i32::MIN as i64, -1, 0, 7, 8, 9, 81600, 81599][r.below(8) as usize],
        2 | 3 => r.within(0, 300) as i64,
        4 => r.within(0, 81600) as i64,
        _ => r.within(0, 8000) as i64,
    };
    let f = fields([r.within(1, 2) as i64, r.below(4) as i64, start, end, r.below(11) as i64, total], &any_packet(r));
    let f = if r.below(3) == 0 { f.with(4, "") } else { f };
    if r.below(3) == 0 { f.with(5, "") } else { f }
}

/// Packets of the recorded traffic, with their numbers; alloc_sequences.rs says what a line has.
fn recorded() -> Vec<Fields> {
    let calls = include_str!("alloc_traffic.txt").lines().map(|line| line.split('\t').collect::<Vec<&str>>());
    let read = calls.filter(|f| f[1] == "0" && f[15].len() <= 400);
    read.map(|f| Fields([f[2], f[3], f[4], f[5], f[6], f[7], f[15]].map(str::to_string))).collect()
}

/// The domain's limits, on either side.
fn limits() -> Vec<Fields> {
    let base = || fields([2, 3, 0, 21, 5, 400], "0011223344556677");
    let at = |place: usize, list: &[&str]| list.iter().map(|t| base().with(place, t)).collect::<Vec<Fields>>();
    let long = |n: usize| "5a".repeat(n);
    [
        at(0, &["-1", "0", "1", "3", "2147483647", "2147483648", "-2147483648", "-2147483649", "4294967295"]),
        at(1, &["-1", "0", "4", "18446744073709551616"]),
        at(2, &["-1", "20", "21", "22"]),
        at(3, &["0", "1", "22", "-21"]),
        at(4, &["-1", "0", "10", "11"]),
        at(5, &["-5", "-2147483648", "-2147483649", "81600", "81601", "99999999999999999999999999999999"]),
        [0, 1, 1274, 1275, 1276, 1290].map(|n| base().with(6, &long(n))).to_vec(),
        [0, 1, 1275].map(|n| base().with(5, "").with(6, &long(n))).to_vec(),
    ]
    .concat()
}

/// Lines that are no requests.
fn malformed() -> Vec<String> {
    let base = || fields([1, 0, 0, 1, 5, 64], "00");
    let each = |text: &dyn Fn(&str) -> String| -> Vec<String> {
        (0..6).map(|at| base().with(at, &text(&base().0[at])).line()).collect()
    };
    let packets = ["0", "000", "0g", "0G", "0A", "AB", "aB", "0 ", " 00", "0x00", "00\r", "-00", "0\u{0}", "\u{e9}", "00\u{feff}"];
    [
        vec![String::new(), "\t".to_string(), "\t\t\t\t\t\t".to_string(), " ".to_string(), "1".to_string(), "R\t1\t1\t0\t0\t0".to_string()],
        each(&|t| format!("0{t}")),
        each(&|t| format!("+{t}")),
        each(&|t| format!(" {t}")),
        each(&|t| format!("{t} ")),
        each(&|t| format!("{t}.0")),
        each(&|t| format!("--{t}")),
        each(&|t| format!("{t}e0")),
        each(&|_| "-0".to_string()),
        each(&|_| "00".to_string()),
        each(&|_| "-".to_string()),
        each(&|_| "x".to_string()),
        (0..4).map(|at| base().with(at, "").line()).collect(),
        packets.map(|p| base().with(6, p).line()).to_vec(),
        vec![
            base().line().replace('\t', " "),
            base().line() + "\t",
            base().line() + "\t00",
            "\t".to_string() + &base().line(),
            base().line().rsplit_once('\t').expect("a tab").0.to_string(),
            base().line() + "\r",
        ],
        [2586, 2600, 2601, 2602, 5000, 70000].map(|n| format!("{}{}", "1\t0\t0\t1\t5\t64\t", "0".repeat(n - 14))).to_vec(),
        vec!["\t".repeat(2600), "\t".repeat(2601)],
    ]
    .concat()
}

/// A good line with one byte changed, put in or left out.
fn damaged(r: &mut Random) -> String {
    let mut line: Vec<char> = any_request(r).line().chars().collect();
    let place = r.below(line.len() as u32) as usize;
    let other = ['0', '1', '9', 'a', 'f', 'A', '-', '\t', ' ', '+'][r.below(10) as usize];
    match r.below(3) {
        0 => line[place] = other,
        1 => line.insert(place, other),
        _ => drop(line.remove(place)),
    }
    line.into_iter().collect()
}

/// A random line: mostly a request of the domain, some of them damaged.
pub fn any_line(r: &mut Random) -> String {
    if r.below(4) == 0 { damaged(r) } else { any_request(r).line() }
}

/// Lines that do not depend on chance: recorded packets, the domain's limits, every kind of malformed line.
pub fn fixed_lines() -> Vec<String> {
    let lines = |list: Vec<Fields>| list.iter().map(Fields::line).collect::<Vec<String>>();
    [lines(recorded()), lines(limits()), malformed()].concat()
}

pub fn all(r: &mut Random) -> Vec<Sequence> {
    let mut lines = vec![fields([1, 0, 0, 1, 5, 64], "00").line()];
    lines.extend((0..120).map(|_| any_request(r).line()));
    lines.extend(recorded().iter().map(Fields::line));
    lines.extend(limits().iter().map(Fields::line));
    lines.extend(malformed());
    lines.extend((0..60).map(|_| damaged(r)));
    lines.extend((0..20).map(|_| any_request(r).line()));
    lines.into_iter().map(|line| vec![line]).collect()
}

pub fn figures(list: &[Sequence]) -> Vec<String> {
    let answers: Vec<String> = list.concat().iter().map(|line| listing(1, line)).collect();
    let refused = answers.iter().filter(|a| a.starts_with('X')).count();
    vec![format!("{} allocations, {refused} refusals", answers.len() - refused)]
}
