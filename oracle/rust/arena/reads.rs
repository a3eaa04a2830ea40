//! Lists read into rows, by the Rust event by event and by the port at once.

use super::{
    events,
    kinds::{self, KINDS},
    padding::{self, Padding, PADDED},
    port,
    random::Random,
    refusal,
    report::{Bytes, Entry},
    shrink,
    sizes::{CAPACITY, WIDTH},
};
use crate::{event::TrackEvent, prelude::*};

/// What a cell holds before a call. No event's row has it.
pub const CELL: u64 = u64::MAX - 0x5A5A;
/// Why the port stopped reading: so many events, and bytes left.
const FULL: u8 = 255;
/// As many cells as a list ever needs, and a few more; as many behind those lent are looked at too.
const CELLS: usize = WIDTH * CAPACITY;
const MORE: usize = 3;
const BEHIND: usize = 8;
/// What is counted of lists, before the kinds of their events.
pub const HOW: [&str; 3] = ["lists read to the end", "full lists", "lists read on behind a full one"];

/// What the Rust read: why it stopped, how many cells its rows take, the place and the running status there; and the
/// padding of those of its events that have some.
pub struct Read {
    why: u8,
    cells: usize,
    place: usize,
    running: u8,
    padded: Vec<Padding>,
}

impl Read {
    /// Whether this is all of so many events, with this place and running status after them, and no padding.
    pub fn is_whole(&self, count: usize, place: usize, running: u8) -> bool {
        (self.why, self.cells, self.place, self.running, self.padding()) == (0, WIDTH * count, place, running, 0)
    }

    /// The sum over its events.
    fn padding(&self) -> usize {
        self.padded.iter().map(|padding| padding.sum()).sum()
    }
}

/// The number, and why reading stopped; the count, the place, the running status and the padding; the cells.
type Answer<'a> = (u8, (u8, port::ListRead, Rows<'a>));

/// The cells that the Rust's rows fill, and those that the port does. Between two calls all hold `CELL`.
pub struct Reads {
    rust: Vec<u64>,
    port: Vec<u64>,
}

impl Reads {
    pub fn new() -> Reads {
        Reads { rust: vec![CELL; CELLS + MORE + BEHIND], port: vec![CELL; CELLS + MORE + BEHIND] }
    }

    /// What is compared, with the answers that have to occur. Every end and every kind of event has to, and padding in
    /// every place.
    pub fn entry(name: &'static str, due: &'static [u8]) -> Entry {
        Entry::new(name, due).of_kinds(&HOW).of_kinds(&KINDS).of_kinds(&PADDED)
    }

    /// One string, list by list: what is full is read on behind it, each time in other cells.
    pub fn list_by_list(&mut self, entry: &mut Entry, random: &mut Random, bytes: &[u8], at: usize, running: u8) {
        let (mut at, mut running) = (at, running);
        loop {
            let read = self.compare(entry, bytes, at, running, |need| room(random, need));
            if read.why != FULL {
                return;
            }
            entry.of_kind(2);
            at = read.place;
            running = read.running;
        }
    }

    /// One list, in as many cells as are chosen once it is known how many it needs.
    pub fn compare(
        &mut self, entry: &mut Entry, bytes: &[u8], at: usize, running: u8, room: impl FnOnce(usize) -> usize,
    ) -> Read {
        let (read, differs) =
            self.compare_by(entry, bytes, at, running, room, |rows| port::list_read(bytes, at, running, rows));
        if let Some((answers, room)) = differs {
            if entry.is_new(answers) {
                smaller(entry, bytes, at, running, room);
            }
        }
        read
    }

    /// The same with another entry of the port's, which is to read these bytes too. Where it differs, the two answers
    /// and how many cells were lent come with what the Rust read.
    pub fn compare_by(
        &mut self, entry: &mut Entry, bytes: &[u8], at: usize, running: u8, room: impl FnOnce(usize) -> usize,
        port: impl FnOnce(&mut [u64]) -> (u8, port::ListRead),
    ) -> (Read, Option<((u8, u8), usize)>) {
        let read = rust_reads(bytes, at, running, &mut self.rust);
        let room = room(read.cells);
        if room >= read.cells {
            count(entry, &read, &self.rust);
        }
        let (rust, port) = self.answers(&read, room, port);
        let answers = (rust.0, port.0);
        let differs = entry.compare(rust, port, bytes.len(), || told(bytes, at, running, room));
        if differs {
            self.port.iter_mut().for_each(|cell| *cell = CELL);
        }
        self.rust[..read.cells].iter_mut().for_each(|cell| *cell = CELL);
        self.port[..read.cells].iter_mut().for_each(|cell| *cell = CELL);
        (read, Some((answers, room)).filter(|_| differs))
    }

    /// What the Rust and the port answer. Too few cells are left as they came.
    fn answers(
        &mut self, read: &Read, room: usize, port: impl FnOnce(&mut [u64]) -> (u8, port::ListRead),
    ) -> (Answer, Answer) {
        let port = port(&mut self.port[..room]);
        let (why, set) = if room < read.cells {
            self.rust[..read.cells].iter_mut().for_each(|cell| *cell = CELL);
            (20, (None, None, 0xFF, None))
        } else {
            (read.why, (Some(read.cells / WIDTH), Some(read.place), read.running, Some(read.padding())))
        };
        let number = |why: u8| if why == FULL { 0 } else { why };
        let whole = room + BEHIND;
        (
            (number(why), (why, set, Rows(&self.rust[..whole]))),
            (number(port.0), (port.0, port.1, Rows(&self.port[..whole]))),
        )
    }
}

/// Cells that are just enough, some more, or in one of eight too few.
pub fn room(random: &mut Random, need: usize) -> usize {
    match random.below(8) {
        0 => random.below(need + 1),
        1..=3 => need,
        4 | 5 => need + MORE,
        6 => CELLS,
        _ => CELLS + MORE,
    }
}

/// Counts how a list ended, and its events.
fn count(entry: &mut Entry, read: &Read, rows: &[u64]) {
    match read.why {
        0 => entry.of_kind(0),
        FULL => entry.of_kind(1),
        _ => {}
    }
    for row in rows[..read.cells].chunks_exact(WIDTH) {
        entry.of_kind(HOW.len() + kinds::of(row));
    }
    read.padded.iter().for_each(|padding| padding.count(entry, HOW.len() + KINDS.len()));
}

/// Shows a smaller string that has the same two answers and still differs: from its first byte on, if it can be.
#[cold]
fn smaller(entry: &mut Entry, bytes: &[u8], at: usize, running: u8, room: usize) {
    let answers = |bytes: &[u8], at: usize| {
        let mut it = Reads::new();
        let read = rust_reads(bytes, at, running, &mut it.rust);
        let (rust, port) = it.answers(&read, room, |rows| port::list_read(bytes, at, running, rows));
        Some((rust.0, port.0)).filter(|_| rust != port)
    };
    let whole = answers(bytes, at);
    let behind = bytes.get(at..).unwrap_or(&[]);
    let (bytes, at) = if answers(behind, 0) == whole { (behind, 0) } else { (bytes, at) };
    let least = shrink::bytes(bytes, |bytes| answers(bytes, at) == whole);
    let mut it = Reads::new();
    let read = rust_reads(&least, at, running, &mut it.rust);
    let (rust, port) = it.answers(&read, room, |rows| port::list_read(&least, at, running, rows));
    entry.show(rust, port, least.len(), || told(&least, at, running, room));
}

/// Event by event, up to as many as a list holds, into the first cells. A refusal leaves the place and the running
/// status before it, and adds no padding. The Rust takes any running status: one that is none is refused here, by 1.
fn rust_reads(bytes: &[u8], at: usize, running: u8, rows: &mut [u64]) -> Read {
    let mut left = bytes.get(at..).unwrap_or(&[]);
    let (whole, mut why, mut cells, mut padded) = (left.len(), 0, 0, Vec::new());
    let mut status = Some(running).filter(|running| *running != 0);
    if running != 0 && !(0x80..=0xEF).contains(&running) {
        return Read { why: 1, cells, place: at, running, padded };
    }
    while !left.is_empty() {
        if cells == CELLS {
            why = FULL;
            break;
        }
        let before = (left, status);
        match TrackEvent::read(&mut left, &mut status) {
            Ok(event) => {
                rows[cells..cells + WIDTH].copy_from_slice(&events::row(&event, bytes));
                cells += WIDTH;
                padded.extend(Some(padding::of_event(before.0)).filter(|padding| padding.sum() > 0));
            }
            Err(error) => {
                why = refusal::of(&error);
                left = before.0;
                status = before.1;
                break;
            }
        }
    }
    Read { why, cells, place: at + (whole - left.len()), running: status.unwrap_or(0), padded }
}

fn told(bytes: &[u8], at: usize, running: u8, room: usize) -> String {
    format!("{:?} at {} running {:02X}, {} cells", Bytes(bytes), at, running, room)
}

/// Cells as they are shown: how many there are, and the first rows that are not as they came.
#[derive(PartialEq)]
pub struct Rows<'a>(pub &'a [u64]);

impl std::fmt::Debug for Rows<'_> {
    fn fmt(&self, f: &mut std::fmt::Formatter) -> std::fmt::Result {
        write!(f, "{} cells", self.0.len())?;
        let mut filled = self.0.chunks(WIDTH).filter(|row| row.iter().any(|cell| *cell != CELL));
        filled.by_ref().take(4).try_for_each(|row| write!(f, " {:X?}", row))?;
        write!(f, "{}", if filled.next().is_some() { " .." } else { "" })
    }
}
