//! One event, measured and written: `TrackEvent::write` from every valid running status, and read back.

use super::{
    events, kinds, port,
    random::Random,
    refusal,
    report::{Bytes, Entry},
    sizes::Row,
};
use crate::{
    event::{MetaMessage, TrackEvent, TrackEventKind},
    io::Cursor,
    prelude::*,
};

/// Payloads at the ends of the lengths of their length.
const LONG: [usize; 6] = [127, 128, 16_383, 16_384, 2_097_151, 2_097_152];
/// Around the ends of the fields' widths and ranges, and of the integers that hold them.
const FIELDS: [u64; 30] = [
    0, 15, 16, 17, 23, 24, 25, 29, 30, 31, 59, 60, 99, 100, 127, 128, 255, 256, 257, 16_383, 16_384, 65_535, 65_536,
    65_537, 0xFF_FFFF, 0x100_0000, 0xFFFF_FFFF, 0x1_0000_0000, 0x1_0000_0007, u64::MAX,
];
const DELTAS: [u64; 6] = [1 << 28, (1 << 28) + 1, 0xFFFF_FFFF, 1 << 32, (1 << 32) + 5, u64::MAX];
/// As many bytes behind a lent buffer are looked at too.
const BEHIND: usize = 8;

struct Writing {
    random: Random,
    write: Entry,
    length: Entry,
    back: Entry,
    unknown: Entry,
    illegal: Entry,
    illegal_length: Entry,
    /// Bytes to take payloads from.
    pool: &'static [u8],
    /// A lent buffer as it came, as the Rust left it, and as the port did.
    lent: Vec<u8>,
    rust_out: Vec<u8>,
    port_out: Vec<u8>,
}

pub fn run(mut random: Random, full: bool) -> Vec<Entry> {
    let pool: Vec<u8> = (0..LONG[5] + 64).map(|_| random.byte()).collect();
    let lent: Vec<u8> = (0..LONG[5] + 64).map(|i| (i * 37) as u8).collect();
    let mut it = Writing {
        random,
        write: Entry::new("apk_event_write", &[0, 20, 22]).of_kinds(&kinds::KINDS),
        length: Entry::new("apk_event_length", &[0, 22]),
        back: Entry::new("apk_event_read, of what was written", &[0]),
        unknown: Entry::new("apk_event_write, Unknown of each type (23 where the Rust reads another back)", &[0, 23]),
        illegal: Entry::new("apk_event_write, illegal (by document 01's rule)", &[1, 18, 19, 22, 23]),
        illegal_length: Entry::new("apk_event_length, illegal (by document 01's rule)", &[1, 18, 19, 22, 23]),
        pool: pool.leak(),
        rust_out: lent.clone(),
        port_out: lent.clone(),
        lent,
    };
    for running in Some(0).into_iter().chain(0x80..=0xEF) {
        for kind in 0..kinds::KINDS.len() {
            (0..if full { 15_300 } else { 100 }).for_each(|_| it.legal(kind, running));
        }
    }
    it.long();
    it.every_unknown(if full { 100 } else { 4 });
    it.every_running_status();
    (0..if full { 20_000_000 } else { 600_000 }).for_each(|_| it.spoiled());
    it.too_long();
    vec![it.write, it.length, it.back, it.unknown, it.illegal, it.illegal_length]
}

/// An event as the Rust has it, and as the port is given it.
#[derive(Clone, Copy)]
struct Given {
    event: TrackEvent<'static>,
    row: Row,
    payload: &'static [u8],
    running: u8,
}

// ---- what is compared

impl Writing {
    /// An event, its payload inside the bytes lent.
    fn given(&mut self, kind: usize, length: usize, running: u8) -> Given {
        let (before, after) = (self.random.below(4), self.random.below(4));
        let first = self.random.below(self.pool.len() - length - 6);
        let payload = &self.pool[first..first + before + length + after];
        let event = kinds::event(kind, running, &payload[before..before + length], &mut self.random);
        Given { event, row: events::row(&event, payload), payload, running }
    }

    /// A legal event in a room that it fills, one that is a byte short, one that is larger, and any other.
    fn legal(&mut self, kind: usize, running: u8) {
        let most = self.random.of(&[300, 24, 24, 8]);
        let length = self.random.below(most + 1);
        let mut given = self.given(kind, if kinds::carries(kind) { length } else { 0 }, running);
        self.write.of_kind(kind);
        self.soil(&mut given.row);
        let need = self.measured(&given);
        let at = self.random.of(&[0, 0, 1, 7]);
        let more = 1 + self.random.below(8);
        for room in [at + need, at + need - 1, at + need + more].iter() {
            self.written(&given, at, *room);
        }
        if self.random.below(4) == 0 {
            let room = self.random.below(need + 4);
            let at = self.random.of(&[0, 1, room, room + 1, usize::MAX - 1, usize::MAX]);
            self.written(&given, at, room);
        }
    }

    /// Makes what a row's kind does not use anything, and a flag that is 1 any number that is not 0.
    fn soil(&mut self, row: &mut Row) {
        if self.random.below(4) > 0 {
            return;
        }
        let flag = match row[1] {
            0x100 => 2,
            0x159 => 3,
            _ => 0,
        };
        if flag > 0 && row[flag] == 1 {
            row[flag] = self.random.of(&[2, 256, 1 << 32, u64::MAX]);
        }
        for i in 2 + kinds::used(row)..8 {
            row[i] = self.random.of(&FIELDS);
        }
    }

    /// Every kind that carries a payload, with long ones.
    fn long(&mut self) {
        for kind in (0..kinds::KINDS.len()).filter(|kind| kinds::carries(*kind)) {
            for length in LONG.iter() {
                let given = self.given(kind, *length, 0x90);
                let need = self.measured(&given);
                (need - 1..=need + 1).for_each(|room| self.written(&given, 0, room));
            }
        }
    }

    /// Payloads around the longest, that are never looked at. In this room the Rust says 20 or 22.
    fn too_long(&mut self) {
        let payload: &'static [u8] = vec![0; (1 << 28) + 2].leak();
        for kind in (0..kinds::KINDS.len()).filter(|kind| kinds::carries(*kind)) {
            for length in (1 << 28) - 2..=(1 << 28) + 2 {
                let event = kinds::event(kind, 0, &payload[..length], &mut self.random);
                let given = Given { event, row: events::row(&event, payload), payload, running: 0 };
                self.measured(&given);
                self.written(&given, 0, 32);
                self.refused(&given, 0);
            }
        }
    }

    /// `Unknown` of every type at lengths 0 to 8: it may be written where the Rust, which writes them all, reads the
    /// same back.
    fn every_unknown(&mut self, rounds: usize) {
        for kind in 0..=255 {
            for length in 0..9 {
                for _ in 0..rounds {
                    let mut given = self.given(28, length, 0);
                    given.event.kind = match given.event.kind {
                        TrackEventKind::Meta(MetaMessage::Unknown(_, load)) => {
                            TrackEventKind::Meta(MetaMessage::Unknown(kind, load))
                        }
                        _ => unreachable!(),
                    };
                    given.row[2] = kind as u64;
                    self.unknown_written(&given);
                }
            }
        }
    }

    /// Every running status that is none.
    fn every_running_status(&mut self) {
        for running in (0x01..=0x7F).chain(0xF0..=0xFF) {
            for kind in 0..kinds::KINDS.len() {
                let given = self.given(kind, 3, running);
                self.refused(&given, 40);
            }
        }
    }

    /// A legal event that is made illegal, in one or two ways, in any room.
    fn spoiled(&mut self) {
        let kind = self.random.below(kinds::KINDS.len());
        let running = self.random.of(&[0x00, 0x80, 0x93, 0xEF]);
        let length = self.random.below(9);
        let mut given = self.given(kind, length, running);
        for _ in 0..=self.random.below(2) {
            self.spoil(&mut given);
        }
        let room = self.random.below(30);
        self.refused(&given, room);
    }

    fn spoil(&mut self, given: &mut Given) {
        let bytes = given.payload.len() as u64;
        let places = [0, 1, 2, bytes, bytes + 1, bytes + 2, 1 << 28, 1 << 63, u64::MAX - 1, u64::MAX];
        let row = &mut given.row;
        match self.random.below(12) {
            0 => row[0] = self.random.of(&DELTAS),
            1 => row[1] = self.random.of(&[0, 7, 15, 0xEF, 0xF1, 0xFF, 0x10A, 0x11F, 0x1FF, 0x201, u64::MAX]),
            2 => row[1] = self.random.bits() % 0x202,
            3 => row[8] = self.random.of(&places),
            4 => row[9] = self.random.of(&places),
            5 => given.running = self.random.bits() as u8,
            _ => row[2 + self.random.below(6)] = self.random.of(&FIELDS),
        }
    }
}

// ---- one comparison each

impl Writing {
    /// Answers how many bytes the Rust's event has.
    fn measured(&mut self, given: &Given) -> usize {
        let (mut counter, mut status) = (WriteCounter(0), status(given.running));
        let rust = match given.event.write(&mut status, &mut counter) {
            Ok(()) => (0, (Some(counter.0 as usize), Some(status.unwrap_or(0)))),
            Err("varlen slice exceeds 28 bits") => (22, (None, None)),
            Err(other) => panic!("a refused write that has no number: {}", other),
        };
        let port = port::event_length(&given.row, given.payload, given.running);
        self.length.compare(rust, port, given.payload.len(), || told(given));
        counter.0 as usize
    }

    /// Writes at a place of a room. What the Rust leaves behind when it refuses is taken back: the port promises the
    /// bytes as they came, and the running status as given. What both wrote is read back.
    fn written(&mut self, given: &Given, at: usize, room: usize) {
        let rust = rust_writes(given, &mut self.rust_out[..room], &self.lent, at);
        let port = port::event_write(&given.row, given.payload, given.running, &mut self.port_out[..room], at);
        let whole = room + BEHIND;
        self.write.compare(
            (rust.0, (rust.1, Bytes(&self.rust_out[..whole]))),
            (port.0, (port.1, Bytes(&self.port_out[..whole]))),
            given.payload.len() + room,
            || format!("{} at {} of {}", told(given), at, room),
        );
        if let ((0, (Some(next), after)), 0) = (rust, port.0) {
            let mut row = events::row(&given.event, given.payload);
            if kinds::is_loaded(&row) {
                row[8] = next as u64 - row[9];
            }
            // what is written has no padding
            let read = port::event_read(&self.port_out[..next], at, given.running);
            self.back.compare((0, (Some(row), next - at, after, 0)), read, room, || told(given));
        }
        self.rust_out[..whole].copy_from_slice(&self.lent[..whole]);
        self.port_out[..whole].copy_from_slice(&self.lent[..whole]);
    }

    /// An `Unknown` that the Rust reads back as another is to be refused by 23.
    fn unknown_written(&mut self, given: &Given) {
        let mut rust = rust_writes(given, &mut self.rust_out[..32], &self.lent, 0);
        let next = (rust.1).0.unwrap();
        let read = TrackEvent::read(&mut &self.rust_out[..next], &mut None);
        if read.map_or(true, |read| read != given.event) {
            rust = (23, (None, given.running));
            self.rust_out[..32].copy_from_slice(&self.lent[..32]);
        }
        let port = port::event_write(&given.row, given.payload, given.running, &mut self.port_out[..32], 0);
        self.unknown.compare(
            (rust.0, (rust.1, Bytes(&self.rust_out[..32]))),
            (port.0, (port.1, Bytes(&self.port_out[..32]))),
            given.payload.len(),
            || told(given),
        );
        self.rust_out[..32].copy_from_slice(&self.lent[..32]);
        self.port_out[..32].copy_from_slice(&self.lent[..32]);
    }

    /// An illegal event: nothing is written, whatever the room. One that is legal all the same is let go.
    fn refused(&mut self, given: &Given, room: usize) {
        let number = kinds::refused(&given.row, given.payload.len(), given.running);
        if number == 0 {
            return;
        }
        let at = self.random.of(&[0, 0, 3, room + 1, usize::MAX]);
        let port = port::event_write(&given.row, given.payload, given.running, &mut self.port_out[..room], at);
        let whole = room + BEHIND;
        self.illegal.compare(
            (number, ((None, given.running), Bytes(&self.lent[..whole]))),
            (port.0, (port.1, Bytes(&self.port_out[..whole]))),
            given.payload.len() + room,
            || format!("{} at {} of {}", told(given), at, room),
        );
        self.port_out[..whole].copy_from_slice(&self.lent[..whole]);
        let port = port::event_length(&given.row, given.payload, given.running);
        self.illegal_length.compare((number, (None, None)), port, given.payload.len(), || told(given));
    }
}

// ---- what the Rust answers

fn status(running: u8) -> Option<u8> {
    Some(running).filter(|running| *running != 0)
}

/// The answer, the place after and the running status after. A place past the end has no room, as the end has none.
fn rust_writes(given: &Given, out: &mut [u8], lent: &[u8], at: usize) -> (u8, (Option<usize>, u8)) {
    let room = out.len();
    let mut status = status(given.running);
    let mut cursor = Cursor::from_parts(out, at.min(room));
    match given.event.write(&mut status, &mut cursor) {
        Ok(()) => (0, (Some(cursor.cursor()), status.unwrap_or(0))),
        Err(error) => {
            out.copy_from_slice(&lent[..room]);
            (refusal::of_write(&error), (None, given.running))
        }
    }
}

fn told(given: &Given) -> String {
    format!("row {:X?} of {} bytes, running {:02X}", given.row, given.payload.len(), given.running)
}
