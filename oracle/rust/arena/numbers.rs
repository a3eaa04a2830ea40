//! Variable-length numbers and payloads: `u28::read_u7`, `u28::write_varlen`, `read_varlen_slice` and
//! `write_varlen_slice`.

use super::{
    padding, port,
    random::Random,
    refusal,
    report::{Bytes, Entry},
};
use crate::{
    io::{Cursor, CursorError},
    prelude::*,
    primitive::{read_varlen_slice, write_varlen_slice},
};

const STRICT: u8 = cfg!(feature = "strict") as u8;

/// The first number of each length, the first that is too large, and the largest of 32 bits.
const EDGES: [u32; 6] = [0, 1 << 7, 1 << 14, 1 << 21, 1 << 28, u32::MAX];

/// What is counted of numbers, by themselves and in front of payloads, that are accepted.
const WHETHER_PADDED: [&str; 2] = ["no padding", "padded"];

struct Numbers {
    random: Random,
    read: Entry,
    length: Entry,
    write: Entry,
    payload_read: Entry,
    payload_write: Entry,
    /// A lent buffer as it came, as the Rust left it, and as the port did.
    lent: Vec<u8>,
    rust_out: Vec<u8>,
    port_out: Vec<u8>,
}

pub fn run(random: Random, full: bool) -> Vec<Entry> {
    let strict = STRICT != 0;
    let mut it = Numbers {
        random,
        read: Entry::new("apk_number_read", if strict { &[0, 2, 3] } else { &[0] }).of_kinds(&WHETHER_PADDED),
        length: Entry::new("apk_number_length", &[0]),
        write: Entry::new("apk_number_write", &[0, 18, 20]),
        payload_read: Entry::new("apk_payload_read", if strict { &[0, 2, 3, 11] } else { &[0] }).of_kinds(&WHETHER_PADDED),
        payload_write: Entry::new("apk_payload_write", &[0, 19, 20, 22]),
        lent: Vec::new(),
        rust_out: Vec::new(),
        port_out: Vec::new(),
    };
    it.every_short_string(full);
    it.longer_strings(if full { 50_000_000 } else { 5_000_000 });
    it.payloads_around_their_length();
    it.numbers_around_their_room(if full { 2_000_000 } else { 100_000 });
    it.payloads_around_their_room(if full { 50_000_000 } else { 5_000_000 });
    it.payloads_around_the_largest(full);
    if full {
        it.every_number();
    }
    vec![it.read, it.payload_read, it.length, it.write, it.payload_write]
}

// ---- what is compared

impl Numbers {
    /// Every string of up to three bytes, read at each of its places, at its end and past it; the short form reads
    /// those of three at their start.
    fn every_short_string(&mut self, full: bool) {
        for length in 0..=3 {
            let past = [length + 1, length + 5, usize::MAX];
            for content in 0..1u32 << (8 * length) {
                let whole = content.to_be_bytes();
                let bytes = &whole[4 - length..];
                if length == 3 && !full {
                    self.reads(bytes, 0, STRICT);
                } else {
                    (0..=length).chain(past.iter().copied()).for_each(|at| self.reads(bytes, at, STRICT));
                }
            }
        }
    }

    /// A sample of strings of up to twelve bytes, with every set of bits for the rules, of which bit 0 alone counts.
    fn longer_strings(&mut self, count: usize) {
        for _ in 0..count {
            let mut whole = [0; 12];
            whole.iter_mut().for_each(|byte| *byte = self.random.byte());
            let length = self.random.below(13);
            let at = self.random.below(length + 2);
            let rules = 2 * self.random.below(128) as u8 + STRICT;
            self.reads(&whole[..length], at, rules);
        }
    }

    /// Payloads that claim a few bytes less than are there, as many, or more, under each form of their length: the
    /// shortest, the padded ones, and one of four bytes that goes on.
    fn payloads_around_their_length(&mut self) {
        let mut buffer: Vec<u8> = (0..(1 << 21) + 64).map(|_| self.random.byte()).collect();
        let lengths = EDGES[..4].iter().flat_map(|edge| around(*edge)).filter(|n| *n <= (1 << 21) + 2);
        for length in lengths.chain(3..40).chain([(1 << 28) - 1].iter().copied()) {
            for size in 1..=4 {
                for goes_on in &[0, 0x80] {
                    for at in 0..3 {
                        for i in 0..size {
                            let more = if i + 1 < size { 0x80 } else { *goes_on };
                            buffer[at + i] = (length >> (7 * (size - 1 - i)) & 0x7F) as u8 | more;
                        }
                        let start = at + size;
                        let most = (buffer.len() - start).min(length as usize + 3);
                        for there in [0, length as usize / 2].iter().copied().chain(most.saturating_sub(6)..=most) {
                            self.reads(&buffer[..start + there.min(most)], at, STRICT);
                        }
                    }
                }
            }
        }
    }

    /// Numbers at the edges and a sample, written in rooms that are just too small, that fit and that are larger, at
    /// several places, and at places past the buffer's end.
    fn numbers_around_their_room(&mut self, sample: usize) {
        let mut values: Vec<u32> = EDGES.iter().flat_map(|edge| around(*edge)).collect();
        values.extend((0..sample).map(|_| self.random.wide()));
        for value in values {
            self.number_length(value);
            for at in 0..4 {
                for room in 0..=number_length(value) + 2 {
                    self.lend(at + room);
                    self.number_write(value, at);
                }
            }
            self.lend(6);
            [7, 8, usize::MAX - 1, usize::MAX].iter().for_each(|at| self.number_write(value, *at));
        }
    }

    /// Payloads in rooms around their length, with ranges inside the payload's bytes and outside.
    fn payloads_around_their_room(&mut self, sample: usize) {
        let bytes: Vec<u8> = (0..(1 << 21) + 64).map(|_| self.random.byte()).collect();
        let lengths = EDGES[..4].iter().flat_map(|edge| around(*edge)).filter(|n| *n <= (1 << 21) + 2);
        for length in lengths.map(|n| n as usize) {
            for start in &[0, 1, 7] {
                let payload = &bytes[..start + length + start / 3];
                for at in &[0, 2] {
                    let need = number_length(length as u32) + length;
                    for room in need.saturating_sub(3)..=need + 2 {
                        self.lend(at + room);
                        self.payload_write(payload, *start, length, *at);
                    }
                }
                for missing in 1..4 {
                    let short = &bytes[..(start + length).saturating_sub(missing)];
                    self.payload_write(short, *start, length, 0);
                }
            }
        }
        for _ in 0..sample {
            let room = self.random.below(60);
            self.lend(room);
            let at = self.random.below(room + 3);
            let payload = &bytes[..self.random.below(40)];
            let start = self.random.below(payload.len() + 3);
            let length = self.random.below(payload.len() + 3);
            self.payload_write(payload, start, length, at);
        }
        // ranges whose end is no number of the machine's, and places past the end
        self.lend(8);
        for start in &[0, 1, 5, usize::MAX - 1, usize::MAX] {
            for length in &[usize::MAX - 5, usize::MAX - 1, usize::MAX, 1 << 28, 1, 0] {
                [0, 9, usize::MAX].iter().for_each(|at| self.payload_write(&bytes[..5], *start, *length, *at));
            }
        }
    }

    /// The longest payload that can be written, and longer ones. Their bytes are never looked at where the write is
    /// refused, so that they take no memory.
    fn payloads_around_the_largest(&mut self, full: bool) {
        let bytes = vec![0; (1 << 28) + 2];
        for room in 0..8 {
            self.lend(room);
            for length in (1 << 28) - 2..=(1 << 28) + 2 {
                self.payload_write(&bytes, 0, length, 0);
                self.payload_write(&bytes, 1, length, room + 1);
            }
        }
        if full && memory_at_hand() < 2 << 30 {
            println!("  not compared, for want of memory: a payload of 268435455 bytes that is written");
        } else if full {
            self.lend((1 << 28) + 4);
            self.payload_write(&bytes, 1, (1 << 28) - 1, 0);
        }
    }

    /// Every number that can be written, and every four bytes that all belong to a number.
    fn every_number(&mut self) {
        self.lend(6);
        for value in 0..1 << 28 {
            self.number_length(value);
            self.number_write(value, 1);
        }
        for first in 0..1u32 << 21 {
            for last in 0..=255 {
                let bytes = [(first >> 14) as u8 | 0x80, (first >> 7) as u8 | 0x80, first as u8 | 0x80, last];
                self.number_read(&bytes, 0, STRICT);
            }
        }
    }
}

/// In bytes; 0 where the system does not say.
fn memory_at_hand() -> u64 {
    let told = std::fs::read_to_string("/proc/meminfo").unwrap_or_default();
    let line = told.lines().find(|line| line.starts_with("MemAvailable:"));
    let kilobytes = line.and_then(|line| line.split_whitespace().nth(1)?.parse::<u64>().ok());
    kilobytes.unwrap_or(0) << 10
}

/// A number and its neighbours, around the end of 32 bits too.
fn around(edge: u32) -> impl Iterator<Item = u32> {
    (0..5).map(move |i| edge.wrapping_add(i).wrapping_sub(2))
}

// ---- one comparison each

impl Numbers {
    fn reads(&mut self, bytes: &[u8], at: usize, rules: u8) {
        self.number_read(bytes, at, rules);
        self.payload_read(bytes, at, rules);
    }

    fn number_read(&mut self, bytes: &[u8], at: usize, rules: u8) {
        let whole = from(bytes, at);
        let mut rest = whole;
        let rust = match u28::read_u7(&mut rest) {
            Ok(number) => {
                let padding = padding::of_number(whole);
                self.read.of_kind((padding > 0) as usize);
                (0, (Some(number.as_int()), Some(at + (whole.len() - rest.len())), Some(padding)))
            }
            Err(kind) => (refusal::of_kind(kind), (None, None, None)),
        };
        let port = port::number_read(bytes, at, rules);
        self.read.compare(rust, port, bytes.len(), || told(bytes, at, rules));
    }

    fn payload_read(&mut self, bytes: &[u8], at: usize, rules: u8) {
        let whole = from(bytes, at);
        let mut rest = whole;
        let rust = match read_varlen_slice(&mut rest) {
            // the slice of a payload that was cut may stand elsewhere, but a payload ends where its reading does
            Ok(slice) => {
                let padding = padding::of_number(whole);
                self.payload_read.of_kind((padding > 0) as usize);
                (0, (Some(at + (whole.len() - rest.len()) - slice.len()), Some(slice.len()), Some(padding)))
            }
            Err(error) => (refusal::of(&error), (None, None, None)),
        };
        let port = port::payload_read(bytes, at, rules);
        self.payload_read.compare(rust, port, bytes.len(), || told(bytes, at, rules));
    }

    fn number_length(&mut self, value: u32) {
        let (rust, port) = ((0, number_length(value)), (0, port::number_length(value)));
        self.length.compare(rust, port, value as usize, || format!("{}", value));
    }

    /// Lends the writers a buffer of this length.
    fn lend(&mut self, length: usize) {
        let start = self.random.below(256);
        self.lent.clear();
        self.lent.extend((start..start + length).map(|i| (i * 37) as u8));
        self.rust_out.clone_from(&self.lent);
        self.port_out.clone_from(&self.lent);
    }

    fn number_write(&mut self, value: u32, at: usize) {
        let rust = match u28::try_from(value) {
            Some(number) => self.rust_writes(at, |out| number.write_varlen(out)),
            None => (18, None),
        };
        let port = port::number_write(value, &mut self.port_out, at);
        let room = self.lent.len();
        self.write.compare(
            (rust.0, (rust.1, Bytes(&self.rust_out))),
            (port.0, (port.1, Bytes(&self.port_out))),
            value as usize,
            || format!("{} at {} of {}", value, at, room),
        );
        self.take_back();
    }

    fn payload_write(&mut self, payload: &[u8], start: usize, length: usize, at: usize) {
        let rust = match start.checked_add(length).and_then(|end| payload.get(start..end)) {
            Some(slice) => self.rust_writes(at, |out| write_varlen_slice(slice, out)),
            None => (19, None),
        };
        let port = port::payload_write(payload, start, length, &mut self.port_out, at);
        let room = self.lent.len();
        self.payload_write.compare(
            (rust.0, (rust.1, Bytes(&self.rust_out))),
            (port.0, (port.1, Bytes(&self.port_out))),
            payload.len() + room,
            || format!("{} bytes from {} of {:?}, at {} of {}", length, start, Bytes(payload), at, room),
        );
        self.take_back();
    }

    /// The Rust's write into what is lent. A place past the end has no room, as the end has none. What the Rust
    /// leaves behind when it refuses is taken back: the port promises the bytes as they came.
    fn rust_writes(
        &mut self,
        at: usize,
        write: impl FnOnce(&mut Cursor) -> StdResult<(), CursorError>,
    ) -> (u8, Option<usize>) {
        let end = self.rust_out.len();
        let mut cursor = Cursor::from_parts(&mut self.rust_out, at.min(end));
        match write(&mut cursor) {
            Ok(()) => (0, Some(cursor.cursor())),
            Err(error) => {
                self.rust_out.copy_from_slice(&self.lent);
                (refusal::of_write(&error), None)
            }
        }
    }

    /// Makes what is lent as it came.
    fn take_back(&mut self) {
        self.rust_out.copy_from_slice(&self.lent);
        self.port_out.copy_from_slice(&self.lent);
    }
}

/// The bytes from a place on: none past the end.
fn from(bytes: &[u8], at: usize) -> &[u8] {
    bytes.get(at..).unwrap_or(&[])
}

/// The length of a number as the Rust writes it. The Rust has none for a number that is too large; the port says 4.
fn number_length(value: u32) -> usize {
    let mut counter = WriteCounter(0);
    match u28::try_from(value) {
        Some(number) => number.write_varlen(&mut counter).map(|_| counter.0 as usize).unwrap(),
        None => 4,
    }
}

fn told(bytes: &[u8], at: usize, rules: u8) -> String {
    format!("{:?} at {}, rules {}", Bytes(bytes), at, rules)
}
