//! Calls that are asked twice, by value and of the reader that holds its packet or of the record that is lent. A request is one line that stands for
//! itself. The oracles answer it once, as the other kinds do, and the answer stands twice: the two forms must be alike.
//!
//!     O                      a new reader of the packet
//!     b logp                 u ft          r bits          l fs decay       reads, the last a Laplace value
//!     i ftb length           a symbol of the table that begins the list
//!     A C LM start end trim total                       an allocation, 21 offsets and 21 caps in the list
//!     E C LM start end intra                            coarse energies, those before by their bits in the list
//!     F C LM start end intra number next                a frame on the record of that next number, whose energies are in the list
//!
//! The letter's own numbers are eight, 0 where it has fewer; then come the reader's eleven as in coder.rs, the packet's length, the list's 42, and the
//! packet.
//!
//! An answer of O or a read is that of coder.rs. That of A is the letter, coded, balance, intensity and dual, the state as in coder.rs, and, | before each,
//! the three lists, which held 0 before the call; a refusal is X and its number, and the lists. That of E or F is the letter, 0 or the number of the
//! refusal, the state after it, for F the record's next number, and each energy by the eight hex digits of its bits; of a NaN, whose bits tell nothing,
//! 7fc00000.
use crate::coder::{self, Call, Stage};
use crate::energy::bits_of;
use crate::record::{framed, Record};
use crate::states::State;
use crate::{alloc, energy, Side};

/// A request.
#[derive(Clone)]
pub struct Asked {
    pub letter: char,
    pub own: [i64; 8],
    pub state: State,
    pub list: [i64; 42],
    pub bytes: Vec<u8>,
}

/// The first N numbers of a list that has no more, and 0 for the others.
fn padded<const N: usize>(list: &[i64]) -> [i64; N] {
    assert!(list.len() <= N, "{} numbers where there is room for {N}", list.len());
    std::array::from_fn(|at| list.get(at).copied().unwrap_or(0))
}

fn wide<T: Copy + Into<i64>>(list: &[T]) -> Vec<i64> {
    list.iter().map(|&v| v.into()).collect()
}

fn listed<T: ToString>(list: &[T]) -> String {
    list.iter().map(|v| format!(" {}", v.to_string())).collect()
}

impl Asked {
    /// A request of a letter with its own numbers, the reader, the packet and the list.
    pub fn new(letter: char, own: &[i64], state: State, bytes: Vec<u8>, list: &[i64]) -> Self {
        Asked { letter, own: padded(own), state, list: padded(list), bytes }
    }

    /// An allocation to read, whose lists have their lengths.
    pub fn allocation(a: &alloc::Asked) -> Self {
        let n = a.numbers;
        let own = wide(&[n.c, n.lm, n.start, n.end, n.trim, n.total]);
        let list = [wide(&a.offsets), wide(&a.caps)].concat();
        Asked::new('A', &own, std::array::from_fn(|at| a.state[at]), a.bytes.clone(), &list)
    }

    /// Coarse energies, of which there are 42.
    pub fn coarse(a: &energy::Asked) -> Self {
        Asked::new('E', &wide(&[a.c, a.lm, a.start, a.end, a.intra]), a.state, a.bytes.clone(), &wide(&a.energies))
    }

    /// The same as a frame on a record.
    pub fn frame(a: &energy::Asked, number: u32, next: u32) -> Self {
        let mut frame = Asked { letter: 'F', ..Asked::coarse(a) };
        (frame.own[5], frame.own[6]) = (number as i64, next as i64);
        frame
    }

    pub fn line(&self) -> String {
        let lists = [listed(&self.own), listed(&self.state), listed(&[self.bytes.len()]), listed(&self.list), listed(&self.bytes)];
        format!("{}{}", self.letter, lists.concat())
    }

    pub fn of(line: &str) -> Self {
        let mut words = line.split(' ');
        let letter = words.next().and_then(|w| w.parse().ok()).unwrap_or_else(|| panic!("'{line}' is no request"));
        let n: Vec<i64> = words.map(|w| w.parse().unwrap_or_else(|_| panic!("'{line}' is no request"))).collect();
        assert!(n.len() >= 62 && n.len() as i64 == 62 + n[19], "'{line}' is no request");
        Asked {
            letter,
            own: padded(&n[..8]),
            state: std::array::from_fn(|at| n[8 + at] as u32),
            list: padded(&n[20..62]),
            bytes: n[62..].iter().map(|&b| b as u8).collect(),
        }
    }

    /// A reader's state, and what it tells.
    fn told(&self, state: &State) -> String {
        coder::Oracle::over(self.bytes.clone()).hand("", state, Stage::Reading)
    }

    fn read(&self) -> String {
        let mut o = coder::Oracle::over(self.bytes.clone());
        o.hand("", &self.state, Stage::Reading);
        let [first, second] = [self.own[0] as u32, self.own[1] as u32];
        let table: Vec<u8> = self.list.iter().take(second as usize).map(|&v| v as u8).collect();
        let call = match self.letter {
            'b' => Call::GetBit(first),
            'u' => Call::GetUniform(first),
            'r' => Call::GetRaw(first),
            'i' => Call::GetTable(&table, first),
            'l' => Call::GetLaplace(first, second),
            letter => panic!("'{letter}' is no request"),
        };
        o.call(&self.letter.to_string(), call)
    }

    fn allocate(&self) -> String {
        let whole = |v: i64| v as i32;
        let [c, lm, start, end, trim, total, ..] = self.own.map(whole);
        let numbers = alloc::Numbers { c, lm, start, end, trim, total, intensity: 0, dual: 0, previous: 0, bandwidth: 0 };
        let mut state = [0; 12];
        state[..11].copy_from_slice(&self.state);
        let list = self.list.map(whole);
        let (offsets, caps) = (list[..21].to_vec(), list[21..].to_vec());
        let a = alloc::Asked { writes: false, room: [21; 3], numbers, state, offsets, caps, bytes: self.bytes.clone() };
        // What a call leaves alone was 0 here.
        let before = a.lists();
        let shown = |lists: &[Vec<i32>; 3]| -> String {
            let entry = |which: usize, at: usize| if lists[which][at] == before[which][at] { 0 } else { lists[which][at] };
            (0..3).map(|which| format!(" |{}", listed(&(0..21).map(|at| entry(which, at)).collect::<Vec<i32>>()))).collect()
        };
        match a.given() {
            Ok(g) => format!("A{}{}{}", listed(&[g.coded, g.balance, g.intensity, g.dual]), self.told(&g.at), shown(&g.lists)),
            Err(no) => format!("X {no}{}", shown(&before)),
        }
    }

    /// The coarse decode of E and F.
    fn energies(&self) -> energy::Asked {
        let [c, lm, start, end, intra, ..] = self.own.map(|v| v as i32);
        energy::Asked {
            coarse: true, state: self.state, c, lm, start, end, intra, left: 0, energies: self.list.map(|v| v as u32).to_vec(), fine: vec![],
            priorities: vec![], bytes: self.bytes.clone(),
        }
    }

    fn decode(&self) -> String {
        let a = self.energies();
        let (code, state, energies) = match a.given() {
            Ok(g) => (0, g.state, g.energies),
            Err(no) => (no, a.state, bits_of(&a.floats())),
        };
        format!("E {code}{} {}", self.told(&state), hex(&energies))
    }

    fn apply(&self) -> String {
        let a = self.energies();
        let [number, next] = [self.own[5] as u32 as u64, self.own[6] as u32 as u64];
        let record: Record = (a.energies.clone().try_into().expect("42 energies"), next);
        let f = framed(&record, &a, number);
        let after = energy::Asked { energies: f.record.0.to_vec(), ..a };
        format!("F {}{} {} {}", f.code, self.told(&f.state), f.record.1, hex(&bits_of(&after.floats())))
    }

    /// What the oracles answer.
    pub fn answer(&self) -> String {
        match self.letter {
            'O' => coder::Oracle::over(self.bytes.clone()).call("O", Call::Reader),
            'A' => self.allocate(),
            'E' => self.decode(),
            'F' => self.apply(),
            _ => self.read(),
        }
    }
}

fn hex(energies: &[u32]) -> String {
    energies.iter().map(|v| format!("{v:08x}")).collect()
}

/// The oracles' side.
pub struct Oracle;

impl Side for Oracle {
    fn answer(&mut self, line: &str) -> Option<String> {
        let answer = Asked::of(line).answer();
        Some(format!("{answer}\n{answer}"))
    }
}
