//! What was compared of one exported entry: how often, with which answers, and what differs.

use std::{collections::BTreeMap, fmt};

/// One more than the highest number of a refusal.
const NUMBERS: usize = 35;
/// Of how many differences with the same two answers a smaller input is looked for.
const SHRUNK: u64 = 20;

pub struct Entry {
    name: &'static str,
    /// The answers that have to occur, or the comparison has not seen what it is for.
    due: &'static [u8],
    /// How often the Rust gave each answer: 0 is accepted.
    answers: [u64; NUMBERS],
    /// How often each kind was seen, where kinds are counted, and whether it has to occur too.
    kinds: Vec<(&'static str, u64, bool)>,
    /// By the Rust's answer and the port's: what differs.
    differences: BTreeMap<(u8, u8), Difference>,
}

struct Difference {
    count: u64,
    /// The smallest input so far, with both answers.
    size: u64,
    shown: String,
}

impl Entry {
    pub fn new(name: &'static str, due: &'static [u8]) -> Entry {
        Entry { name, due, answers: [0; NUMBERS], kinds: Vec::new(), differences: BTreeMap::new() }
    }

    /// With more kinds that are counted.
    pub fn counting(mut self, kinds: &[&'static str]) -> Entry {
        self.kinds.extend(kinds.iter().map(|kind| (*kind, 0, false)));
        self
    }

    /// With more kinds that are counted, each of which has to occur.
    pub fn of_kinds(mut self, kinds: &[&'static str]) -> Entry {
        self.kinds.extend(kinds.iter().map(|kind| (*kind, 0, true)));
        self
    }

    /// Counts one of a kind, by its index.
    pub fn of_kind(&mut self, kind: usize) {
        self.kinds[kind].1 += 1;
    }

    /// Compares the Rust's answer with the port's, each with all that came with it. Answers whether they differ.
    pub fn compare<T: PartialEq + fmt::Debug>(
        &mut self,
        rust: (u8, T),
        port: (u8, T),
        size: usize,
        input: impl FnOnce() -> String,
    ) -> bool {
        self.answers[rust.0 as usize] += 1;
        if rust == port {
            return false;
        }
        self.difference(rust.0, port.0).count += 1;
        self.show(rust, port, size, input);
        true
    }

    /// Whether only a few differences with these two answers were seen, so that a smaller input is to be looked for.
    pub fn is_new(&mut self, (rust, port): (u8, u8)) -> bool {
        self.difference(rust, port).count <= SHRUNK
    }

    /// Keeps an input that differs, and was counted, where it is the smallest so far.
    pub fn show<T: fmt::Debug>(&mut self, rust: (u8, T), port: (u8, T), size: usize, input: impl FnOnce() -> String) {
        let so_far = self.difference(rust.0, port.0);
        if (size as u64) < so_far.size {
            so_far.size = size as u64;
            so_far.shown = format!("{}\n      the Rust: {:?}\n      the port: {:?}", input(), rust, port);
        }
    }

    fn difference(&mut self, rust: u8, port: u8) -> &mut Difference {
        let first = Difference { count: 0, size: u64::MAX, shown: String::new() };
        self.differences.entry((rust, port)).or_insert(first)
    }

    pub fn compared(&self) -> u64 {
        self.answers.iter().sum()
    }

    pub fn differ(&self) -> u64 {
        self.differences.values().map(|difference| difference.count).sum()
    }

    /// Prints what was compared, and answers whether all is well.
    pub fn print(&self) -> bool {
        println!("  {}: {} compared, {} differ", self.name, grouped(self.compared()), grouped(self.differ()));
        print!("    accepted: {}", grouped(self.answers[0]));
        for (number, count) in self.answers.iter().enumerate().skip(1).filter(|answer| *answer.1 > 0) {
            print!("; refused with {}: {}", number, grouped(*count));
        }
        println!();
        let seen = self.kinds.iter().filter(|kind| kind.1 > 0);
        let kinds: Vec<_> = seen.map(|(kind, count, _)| format!("{} {}", kind, grouped(*count))).collect();
        kinds.chunks(6).for_each(|some| println!("    {}", some.join("; ")));
        for ((rust, port), it) in &self.differences {
            println!("    DIFFERS {} times, the Rust {}, the port {}; smallest input:", grouped(it.count), rust, port);
            println!("      {}", it.shown);
        }
        let missed: Vec<_> = self.due.iter().filter(|number| self.answers[**number as usize] == 0).collect();
        missed.iter().for_each(|number| println!("    NEVER OCCURRED: {}", number));
        let unseen: Vec<_> = self.kinds.iter().filter(|kind| kind.2 && kind.1 == 0).collect();
        unseen.iter().for_each(|kind| println!("    NEVER OCCURRED: {}", kind.0));
        self.differences.is_empty() && missed.is_empty() && unseen.is_empty()
    }
}

/// A number with its digits in threes.
pub fn grouped(number: u64) -> String {
    match number {
        0..=999 => number.to_string(),
        _ => format!("{},{:03}", grouped(number / 1000), number % 1000),
    }
}

/// Bytes as they are shown: the first of them, and how many there are.
#[derive(PartialEq)]
pub struct Bytes<'a>(pub &'a [u8]);

impl fmt::Debug for Bytes<'_> {
    fn fmt(&self, f: &mut fmt::Formatter) -> fmt::Result {
        write!(f, "{} bytes [", self.0.len())?;
        for (i, byte) in self.0.iter().take(24).enumerate() {
            write!(f, "{}{:02X}", if i > 0 { " " } else { "" }, byte)?;
        }
        write!(f, "{}]", if self.0.len() > 24 { " .." } else { "" })
    }
}
