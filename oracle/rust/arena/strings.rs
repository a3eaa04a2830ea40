//! Strings of up to 600 bytes, random and damaged, each with a valid running status that it is read from.

use super::{kinds, listing, random::Random};
use crate::prelude::*;

/// The longest string.
pub const LONGEST: usize = 600;
/// How many bytes a tape has, and how many strings are cut from the tapes before others are made.
const TAPE: usize = 40_000;
const CUTS: u32 = 20_000;
const STATUSES: [u8; 12] = [0x80, 0x9F, 0xA0, 0xB3, 0xC5, 0xD0, 0xEF, 0xF0, 0xF7, 0xFF, 0xF2, 0xF8];
/// The highest bit of each of eight bytes clear.
const DATA: u64 = 0x7F7F_7F7F_7F7F_7F7F;

/// Bytes of events, one behind the other, with where each begins and the running status there.
#[derive(Default)]
struct Tape {
    bytes: Vec<u8>,
    starts: Vec<(usize, u8)>,
}

/// Makes strings, all in one buffer: three of four are cut from tapes, which costs no more than copying them.
pub struct Strings {
    tapes: [Tape; 4],
    cuts: u32,
    /// Bytes to take payloads from.
    pool: Vec<u8>,
    bytes: [u8; LONGEST],
}

impl Strings {
    pub fn new(random: &mut Random) -> Strings {
        let pool = (0..LONGEST).map(|_| random.byte()).collect();
        Strings { tapes: Default::default(), cuts: 0, pool, bytes: [0; LONGEST] }
    }

    /// The next string, and its running status.
    pub fn next(&mut self, random: &mut Random) -> (&[u8], u8) {
        let (length, running) = if random.below(4) == 0 { self.noise(random) } else { self.cut(random) };
        (&self.bytes[..length], running)
    }

    /// Any bytes, or with some or all of their highest bits clear; half begin with a delta of one byte and a status.
    fn noise(&mut self, random: &mut Random) -> (usize, u8) {
        let most = random.of(&[LONGEST, 40]);
        let length = random.below(most + 1);
        let mask = random.bits() | DATA;
        let mask = random.of(&[u64::MAX, DATA, mask]);
        for eight in self.bytes[..(length + 7) / 8 * 8].chunks_exact_mut(8) {
            eight.copy_from_slice(&(random.bits() & mask).to_le_bytes());
        }
        if random.below(2) == 0 {
            self.bytes[0] &= 0x7F;
            self.bytes[1] = random.of(&STATUSES);
        }
        (length, random.running())
    }

    /// From an event's beginning on: around 128 events, a few whole ones, or cut anywhere. Two of three are damaged,
    /// and one of eight has another running status than it was written under.
    fn cut(&mut self, random: &mut Random) -> (usize, u8) {
        if self.cuts == 0 {
            self.cuts = CUTS;
            self.record(random);
        }
        self.cuts -= 1;
        let tape = &self.tapes[random.below(self.tapes.len())];
        let first = random.below(tape.starts.len());
        let (start, running) = tape.starts[first];
        let end = match random.below(4) {
            0 => tape.place(first + 126 + random.below(5)),
            1 => tape.place(first + random.below(20)),
            _ => start + random.below(LONGEST + 1),
        };
        let length = (end.min(tape.bytes.len()) - start).min(LONGEST);
        self.bytes[..length].copy_from_slice(&tape.bytes[start..start + length]);
        let damages = if length > 0 { random.of(&[0, 0, 1, 1, 2, 3]) } else { 0 };
        (0..damages).for_each(|_| self.damage(length, random));
        (length, if random.below(8) == 0 { random.running() } else { running })
    }

    /// Another byte, another bit, a byte left out or a byte put in.
    fn damage(&mut self, length: usize, random: &mut Random) {
        let at = random.below(length);
        match random.below(4) {
            0 => self.bytes[at] = random.byte(),
            1 => self.bytes[at] ^= 1 << random.below(8),
            2 => self.bytes.copy_within(at + 1..length, at),
            _ => {
                self.bytes.copy_within(at..length - 1, at + 1);
                self.bytes[at] = random.byte();
            }
        }
    }

    /// Makes the tapes: legal events, such as are nearly right, short ones, and long payloads.
    fn record(&mut self, random: &mut Random) {
        let pool = &self.pool;
        self.tapes[0].record(|running, bytes| legal(random, running, &pool[LONGEST - 9..], bytes));
        self.tapes[1].record(|running, bytes| listing::event(random, running, bytes));
        self.tapes[2].record(|running, bytes| short(random, running, bytes));
        self.tapes[3].record(|running, bytes| legal(random, running, pool, bytes));
    }
}

impl Tape {
    /// Writes it anew: each call adds one event's bytes behind a running status, and answers the next.
    fn record(&mut self, mut event: impl FnMut(u8, &mut Vec<u8>) -> u8) {
        self.bytes.clear();
        self.starts.clear();
        let mut running = 0;
        while self.bytes.len() < TAPE {
            self.starts.push((self.bytes.len(), running));
            running = event(running, &mut self.bytes);
        }
    }

    /// Where an event begins; behind the last, the end.
    fn place(&self, index: usize) -> usize {
        self.starts.get(index).map_or(self.bytes.len(), |start| start.0)
    }
}

/// A legal event of any kind, with the end of these bytes for a payload.
fn legal(random: &mut Random, running: u8, pool: &[u8], bytes: &mut Vec<u8>) -> u8 {
    let kind = random.below(kinds::KINDS.len());
    let load = &pool[random.below(pool.len() + 1)..];
    let mut status = Some(running).filter(|running| *running != 0);
    kinds::event(kind, running, load, random).write(&mut status, bytes).unwrap();
    status.unwrap_or(0)
}

/// A channel message of two or three bytes, mostly under running status: 600 bytes hold two full lists.
fn short(random: &mut Random, running: u8, bytes: &mut Vec<u8>) -> u8 {
    bytes.push(random.byte() & 0x7F);
    let mut status = running;
    if running == 0 || random.below(12) == 0 {
        let (any, one_byte) = (0x80 + random.below(0x70) as u8, 0xC0 + random.below(0x20) as u8);
        status = random.of(&[any, one_byte, one_byte, one_byte]);
        bytes.push(status);
    }
    let count = if status / 32 == 6 { 1 } else { 2 };
    (0..count).for_each(|_| bytes.push(random.byte() & 0x7F));
    status
}
