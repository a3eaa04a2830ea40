//! Answers of the Rust, to be stored: the lines that the program `vectors` asks of the port (`oracle/vectors`).
//!
//! A line has a letter for what is asked, the numbers given, `:` and the bytes given, `=` and the numbers answered, all
//! hexadecimal and each behind a blank. A value that the port is to set holds A5 before the call, and so does each byte
//! of a lent buffer. Nothing here is random, so that the lines are the same from run to run.

use super::{
    events, kinds, padding, refusal,
    sizes::{Row, CAPACITY, WIDTH},
};
use crate::{
    event::TrackEvent,
    io::{Cursor, CursorError},
    prelude::*,
    primitive::{read_varlen_slice, u15, u2, write_varlen_slice, Format, Fps, SmpteTime, Timing},
};
use std::collections::BTreeSet;

const STRICT: bool = cfg!(feature = "strict");
const MODE: &str = if STRICT { "strict" } else { "lenient" };
const HELD: u64 = 0xA5;
const FULL: u64 = 255;

/// The ends of seven and eight bits, and a byte that goes on.
const ENDS: [u8; 6] = [0x00, 0x01, 0x7F, 0x80, 0x81, 0xFF];
/// Running statuses of each kind: none, the ends, one and two data bytes.
const FEW: [u8; 5] = [0x00, 0x80, 0x90, 0xC5, 0xEF];
/// Running statuses that are none.
const NO_RUNNING: [u8; 8] = [0x01, 0x3C, 0x7F, 0xF0, 0xF1, 0xF7, 0xF8, 0xFF];
/// The first number of each length, and the first that is too large.
const EDGES: [u32; 5] = [0, 1 << 7, 1 << 14, 1 << 21, 1 << 28];
/// The meta types that have a name, and neighbours of theirs.
const TYPES: [u8; 32] = [
    0x00, 0x01, 0x02, 0x03, 0x04, 0x05, 0x06, 0x07, 0x08, 0x09, 0x0A, 0x1F, 0x20, 0x21, 0x22, 0x2E, 0x2F, 0x30, 0x50,
    0x51, 0x52, 0x53, 0x54, 0x55, 0x57, 0x58, 0x59, 0x5A, 0x7E, 0x7F, 0x80, 0xFF,
];
/// The first numbers above what some field holds, or some length.
const ABOVE: [u64; 14] = [1, 10, 16, 24, 30, 60, 100, 128, 256, 1 << 14, 1 << 16, 1 << 24, 1 << 28, 1 << 32];
const RATES: [u8; 4] = [24, 25, 29, 30];

/// The listing's two events, of document 01.
const TWO: [u8; 7] = [0x00, 0x90, 0x3C, 0x40, 0x60, 0x3C, 0x00];

/// Events that are whole: of each kind one or more, at the ends of their fields' widths.
const EVENTS: [&[u8]; 52] = [
    &[0x00, 0x80, 0x3C, 0x40],
    &[0x40, 0x8F, 0x7F, 0x7F],
    &[0x00, 0x90, 0x3C, 0x40],
    &[0x81, 0x00, 0x9F, 0x7F, 0x00],
    &[0x60, 0xA0, 0x00, 0x7F],
    &[0x60, 0xAF, 0x7F, 0x00],
    &[0x7F, 0xB0, 0x07, 0x64],
    &[0x82, 0x20, 0xBF, 0x7F, 0x7F],
    &[0xFF, 0xFF, 0xFF, 0x7F, 0xC0, 0x00],
    &[0x00, 0xCF, 0x7F],
    &[0x81, 0x80, 0x00, 0xD0, 0x00],
    &[0x00, 0xDF, 0x7F],
    &[0x00, 0xE0, 0x00, 0x00],
    &[0x00, 0xE5, 0x00, 0x40],
    &[0x00, 0xEF, 0x7F, 0x7F],
    &[0x00, 0xF0, 0x03, 0x7E, 0x7F, 0xF7],
    &[0x00, 0xF0, 0x00],
    &[0x81, 0x80, 0x80, 0x00, 0xF7, 0x02, 0xF8, 0x01],
    &[0x00, 0xF7, 0x00],
    &[0x00, 0xFF, 0x00, 0x02, 0x12, 0x34],
    &[0x00, 0xFF, 0x00, 0x02, 0xFF, 0xFF],
    &[0x00, 0xFF, 0x00, 0x00],
    &[0x00, 0xFF, 0x01, 0x03, 0x61, 0x62, 0x63],
    &[0x00, 0xFF, 0x02, 0x01, 0x63],
    &[0x00, 0xFF, 0x03, 0x00],
    &[0x00, 0xFF, 0x04, 0x02, 0x80, 0xFF],
    &[0x00, 0xFF, 0x05, 0x01, 0x6C],
    &[0x00, 0xFF, 0x06, 0x01, 0x6D],
    &[0x00, 0xFF, 0x07, 0x01, 0x71],
    &[0x00, 0xFF, 0x08, 0x01, 0x70],
    &[0x00, 0xFF, 0x09, 0x01, 0x64],
    &[0x00, 0xFF, 0x20, 0x01, 0x00],
    &[0x00, 0xFF, 0x20, 0x01, 0x0F],
    &[0x00, 0xFF, 0x20, 0x00],
    &[0x00, 0xFF, 0x21, 0x01, 0x7F],
    &[0x00, 0xFF, 0x21, 0x00],
    &[0x83, 0x00, 0xFF, 0x2F, 0x00],
    &[0x00, 0xFF, 0x51, 0x03, 0x07, 0xA1, 0x20],
    &[0x00, 0xFF, 0x51, 0x03, 0xFF, 0xFF, 0xFF],
    &[0x00, 0xFF, 0x51, 0x02, 0x07, 0xA1],
    &[0x00, 0xFF, 0x54, 0x05, 0x61, 0x00, 0x00, 0x1D, 0x00],
    &[0x00, 0xFF, 0x54, 0x05, 0x17, 0x3B, 0x3B, 0x17, 0x63],
    &[0x00, 0xFF, 0x54, 0x04, 0x61, 0x00, 0x00, 0x1D],
    &[0x00, 0xFF, 0x58, 0x04, 0x04, 0x02, 0x18, 0x08],
    &[0x00, 0xFF, 0x58, 0x04, 0xFF, 0xFF, 0xFF, 0xFF],
    &[0x00, 0xFF, 0x58, 0x03, 0x04, 0x02, 0x18],
    &[0x00, 0xFF, 0x59, 0x02, 0xF9, 0x01],
    &[0x00, 0xFF, 0x59, 0x02, 0x7F, 0x00],
    &[0x00, 0xFF, 0x59, 0x02, 0x80, 0x00],
    &[0x00, 0xFF, 0x7F, 0x03, 0x00, 0x20, 0x33],
    &[0x00, 0xFF, 0x60, 0x02, 0x01, 0x02],
    &[0x00, 0xFF, 0xFF, 0x00],
];

/// What a restricted number is asked, of any number of its integer: the largest value; the low bits; 0 and the number that
/// is tried, or 18 and what is held, for the Rust gives no number there.
type Asked = fn(u32) -> [u64; 4];

macro_rules! asked {
    ($name:ident of $inner:ident) => {
        |raw| {
            let (largest, low) = ($name::max_value(), $name::new(raw as $inner));
            let tried = $name::try_from(raw as $inner);
            let number = if tried.is_some() { 0 } else { 18 };
            [largest.as_int() as u64, low.as_int() as u64, number, tried.map_or(HELD, |made| made.as_int() as u64)]
        }
    };
}

/// By their bits.
const OF_8: [(u64, Asked); 3] = [(2, asked!(u2 of u8)), (4, asked!(u4 of u8)), (7, asked!(u7 of u8))];
const OF_16: [(u64, Asked); 2] = [(14, asked!(u14 of u16)), (15, asked!(u15 of u16))];
const OF_32: [(u64, Asked); 2] = [(24, asked!(u24 of u32)), (28, asked!(u28 of u32))];

/// What was seen: refusals by their number, 0 for what was accepted, kinds by the number that rows have, and paddings,
/// each with the letter of its line.
struct Lines {
    numbers: BTreeSet<u64>,
    kinds: BTreeSet<u64>,
    paddings: BTreeSet<(char, u64)>,
}

/// Prints the lines of this mode. What does not depend on the mode is printed by the lenient build alone. Answers the
/// exit status: 1 where something that is to be covered never occurred.
pub fn print() -> i32 {
    let mut it = Lines { numbers: BTreeSet::new(), kinds: BTreeSet::new(), paddings: BTreeSet::new() };
    it.numbers_read();
    it.payloads_read();
    it.channel_events();
    it.metas();
    it.every_cut();
    it.every_padding();
    it.lists_read();
    if !STRICT {
        it.numbers_written();
        it.payloads_written();
        it.events_written();
        it.illegal_events();
        it.lists_written();
        it.illegal_lists();
        it.events_same();
        it.header_fields();
        it.times();
        widths();
    }
    let numbers: &[u64] = if STRICT {
        &[0, 1, 2, 3, 4, 5, 6, 7, 8, 9, 10, 11, 12, 13, 14]
    } else {
        &[0, 1, 4, 5, 6, 7, 8, 9, 10, 13, 14, 15, 16, 17, 18, 19, 20, 21, 23]
    };
    let kinds = (8..=14).chain([0xF0, 0xF7].iter().copied()).chain(0x100..=0x109).chain(
        [0x120, 0x121, 0x12F, 0x151, 0x154, 0x158, 0x159, 0x17F, 0x200].iter().copied(),
    );
    let missed = numbers.iter().filter(|number| !it.numbers.contains(*number)).count();
    let unseen = kinds.filter(|kind| !it.kinds.contains(kind)).count();
    // a number has a padding of up to 3, an event of up to 6, and a list of more
    let paddings = [('n', 3), ('p', 3), ('e', 6), ('l', 7)];
    let is_seen = |letter: char, least: u64| it.paddings.range((letter, least)..=(letter, u64::MAX)).next().is_some();
    let unpadded = paddings.iter().filter(|(letter, least)| !is_seen(*letter, *least)).count();
    if missed + unseen + unpadded > 0 {
        eprintln!(
            "vectors, {}: {} refusals, {} kinds and {} paddings never occurred",
            MODE, missed, unseen, unpadded
        );
        return 1;
    }
    0
}

// ---- which lines

/// Restricted numbers: of every 8 bits, a line each; of every 16 bits, 256 to a line; of 32 bits those around the powers
/// of two, and the last.
fn widths() {
    group("restricted numbers, of every 8 bits");
    for (bits, asked) in &OF_8 {
        (0..=0xFF).for_each(|raw| line('w', &[*bits, raw as u64], &[], &asked(raw)));
    }
    group("restricted numbers, of every 16 bits, 256 to a line");
    for (bits, asked) in &OF_16 {
        for first in (0..=0xFFFF).step_by(0x100) {
            let sums = (first..first + 0x100).flat_map(|raw| asked(raw).to_vec()).fold([0; 2], summed);
            line('d', &[*bits, first as u64, 0x100], &[], &sums);
        }
    }
    group("restricted numbers, of 32 bits");
    for (bits, asked) in &OF_32 {
        let around = (0..32).flat_map(|power| (0..3).map(move |i| (1u32 << power) - 1 + i));
        for raw in around.chain(Some(u32::MAX)).collect::<BTreeSet<_>>() {
            line('w', &[*bits, raw as u64], &[], &asked(raw));
        }
    }
}

/// A sum of numbers, and the sum of the sums so far, which tells their order.
fn summed([plain, ordered]: [u64; 2], number: u64) -> [u64; 2] {
    let plain = plain.wrapping_add(number);
    [plain, ordered.wrapping_add(plain)]
}

impl Lines {
    /// Strings of the ends of seven and eight bits, and of four bytes and more that go on; at places inside, at the end
    /// and past it.
    fn numbers_read(&mut self) {
        read_group("numbers read");
        strings(&ENDS, 3).iter().for_each(|bytes| self.number_read(bytes, 0));
        for three in strings(&[0x80, 0x81, 0xFF], 3).iter().filter(|three| three.len() == 3) {
            ENDS.iter().for_each(|last| self.number_read(&[three[0], three[1], three[2], *last], 0));
        }
        for last in &ENDS {
            self.number_read(&[0xFF, 0xFF, 0xFF, 0xFF, *last], 0);
            self.number_read(&[0x80, 0x80, 0x80, 0x80, *last], 0);
        }
        for at in &[1, 2, 3, 4, 9, usize::MAX] {
            self.number_read(&[0x81, 0x00, 0x40], *at);
            self.number_read(&[0x81, 0x82, 0x83], *at);
        }
    }

    /// Payloads of up to eight bytes and of 127 and 128, under each form of their length, with a byte less than they
    /// claim, as many and one more.
    fn payloads_read(&mut self) {
        read_group("payloads read");
        for length in 0..=8u8 {
            let forms: [&[u8]; 5] = [
                &[length],
                &[0x80, length],
                &[0x80, 0x80, length],
                &[0x80, 0x80, 0x80, length],
                &[0x80, 0x80, 0x80, length | 0x80],
            ];
            for form in &forms {
                for there in length.saturating_sub(1)..=length + 1 {
                    self.payload_read(&[*form, &load(there as usize)].concat(), 0);
                }
            }
        }
        for form in &[&[0x7F][..], &[0x81, 0x00]] {
            (126..=129).for_each(|there| self.payload_read(&[*form, &load(there)].concat(), 0));
        }
        for bytes in &[&[][..], &[0x81], &[0xFF, 0xFF, 0xFF, 0x7F], &[0xFF, 0xFF, 0xFF, 0x7F, 0x00]] {
            (0..=bytes.len() + 1).for_each(|at| self.payload_read(bytes, at));
        }
    }

    /// Every status; data bytes around their ends; every running status, and those that are none.
    fn channel_events(&mut self) {
        read_group("channel and system events read");
        for status in 0x80..=0xFF {
            self.event_read(&[0x00, status, 0x3C, 0x40], 0, 0x00);
            self.event_read(&[0x05, status], 0, 0x90);
        }
        for kind in 0x8..=0xE {
            for a in &[0x00, 0x7F, 0x80, 0xFF] {
                for b in &[0x00, 0x7F, 0x80, 0xFF] {
                    self.event_read(&[0x00, kind << 4 | 0x5, *a, *b], 0, 0x00);
                }
            }
            (2..=5).for_each(|end| self.event_read(&[0x81, 0x00, kind << 4, 0x01, 0x02][..end], 0, 0x93));
        }
        for running in Some(0).into_iter().chain(0x80..=0xEF) {
            self.event_read(&[0x00, 0x3C, 0x40], 0, running);
        }
        for running in FEW.iter().chain(&NO_RUNNING) {
            for end in 0..=4 {
                self.event_read(&[0x00, 0x90, 0x3C, 0x40][..end], 0, *running);
            }
            for bytes in &[&[0x00, 0x3C][..], &[0x00, 0x3C, 0x80], &[0x00, 0xFF]] {
                self.event_read(bytes, 0, *running);
            }
        }
        for at in &[1, 2, 3, 6, 7, usize::MAX] {
            self.event_read(&[0x05, 0x05, 0x00, 0x90, 0x3C, 0x40], *at, 0x80);
        }
    }

    /// Every type; those that have a name, and their neighbours, at lengths 0 to 8, whole and a byte short; the ends of
    /// the ranges of those that have some.
    fn metas(&mut self) {
        read_group("meta events read");
        (0..=255).for_each(|kind| self.event_read(&meta(kind, &[0x01, 0x02]), 0, 0x90));
        for kind in &TYPES {
            for length in 0..=8 {
                let bytes = meta(*kind, &load(length));
                self.event_read(&bytes, 0, 0x00);
                self.event_read(&bytes[..bytes.len() - 1], 0, 0x90);
            }
        }
        for value in &[0x00, 0x0F, 0x10, 0x7F, 0x80, 0x8F, 0xFF] {
            self.event_read(&meta(0x20, &[*value]), 0, 0x00);
            self.event_read(&meta(0x21, &[*value, 0x55]), 0, 0x00);
            self.event_read(&meta(0x59, &[*value, *value & 0x0F]), 0, 0x00);
        }
        times_around(|five| self.event_read(&meta(0x54, &five), 0, 0x00));
        self.event_read(&[0x00, 0xFF, 0x51, 0x80, 0x80, 0x80, 0x03, 0x07, 0xA1, 0x20], 0, 0x00);
        self.event_read(&[0x00, 0xFF, 0x51, 0x80, 0x80, 0x80, 0x83, 0x07, 0xA1, 0x20], 0, 0x00);
    }

    /// Every event of the table, whole and at every cut.
    fn every_cut(&mut self) {
        read_group("events of every kind read, whole and cut");
        for bytes in &EVENTS {
            (0..=bytes.len()).for_each(|end| self.event_read(&bytes[..end], 0, 0x00));
        }
    }

    /// Every event of the table with a delta of each length that is longer than its own; where it has a payload, the
    /// same of the length, alone and with as much padding in the delta. Those that are one byte longer, cut too.
    fn every_padding(&mut self) {
        read_group("padded events of every kind read");
        for bytes in &EVENTS {
            for more in 1..4 {
                for event in padded(bytes, more) {
                    self.event_read(&event, 0, 0x00);
                    if more == 1 {
                        self.event_read(&event[..event.len() - 1], 0, 0x00);
                    }
                }
            }
        }
    }

    /// Lists that are whole, cut at every byte and damaged at every byte; lists around 128 events; padded ones.
    fn lists_read(&mut self) {
        read_group("lists read");
        let mixed = [EVENTS[2], EVENTS[15], &TWO, EVENTS[37], EVENTS[9]].concat();
        (0..=mixed.len()).for_each(|end| self.list_read(&mixed[..end], 0, 0x00));
        for at in 0..mixed.len() {
            let mut bytes = mixed.clone();
            bytes[at] ^= 0x80;
            self.list_read(&bytes, 0, 0x90);
            self.list_read(&mixed, at, 0xC0);
        }
        EVENTS.chunks(8).for_each(|some| self.list_read(&some.concat(), 0, 0x00));
        for running in FEW.iter().chain(&NO_RUNNING) {
            self.list_read(&[0x00, 0x3C, 0x40, 0x00, 0xF8], 0, *running);
            self.list_read(&[], 0, *running);
        }
        (126..=130).for_each(|count| self.list_read(&programs(count), 0, 0x00));
        self.list_read(&[&programs(CAPACITY)[..], &[0x00, 0xF8]].concat(), 0, 0x00);
        self.list_read(&[&programs(127)[..], &[0x00, 0xF8]].concat(), 0, 0x00);
        self.list_read(&programs(300), 257, 0xC0);
        for more in 1..4 {
            let some = EVENTS.iter().skip(more).step_by(9).flat_map(|bytes| padded(bytes, more));
            let some: Vec<u8> = some.flatten().collect();
            self.list_read(&some, 0, 0x00);
            self.list_read(&[&some[..], &[0x80, 0x00, 0xF8]].concat(), 0, 0x00);
        }
    }

    /// Numbers around the ends of each length, in rooms around theirs, at two places and past the end.
    fn numbers_written(&mut self) {
        group("numbers written");
        let values = EDGES.iter().flat_map(|edge| (0..4).map(move |i| edge.wrapping_add(i).wrapping_sub(2)));
        for value in values.chain([0x40, 0x2000, 0x10_0000, 0x800_0000, u32::MAX].iter().copied()) {
            for at in &[0, 3] {
                let need = u28::try_from(value).map_or(4, |number| length_of(|out| number.write_varlen(out)));
                (need - 1..=need + 1).for_each(|room| self.number_written(value, at + room, *at));
            }
            [5, 6, usize::MAX].iter().for_each(|at| self.number_written(value, 5, *at));
        }
    }

    /// Payloads in rooms around their length, and ranges that are not inside the bytes.
    fn payloads_written(&mut self) {
        group("payloads written");
        for length in [0, 1, 2, 3, 8, 127, 128].iter().copied() {
            let bytes = load(length + 3);
            let need = length + 1 + (length > 127) as usize;
            for start in &[0, 3] {
                (need - 1..=need + 1).for_each(|room| self.payload_written(&bytes, *start, length, room + 1, 1));
            }
            (length + 2..=length + 4).for_each(|start| self.payload_written(&bytes, start, length, need, 0));
        }
        for start in [0, 4, 5, 6, usize::MAX].iter().copied() {
            for length in [0, 1, 5, 6, 1 << 28, usize::MAX].iter().copied() {
                self.payload_written(&load(5), start, length, 9, 0);
            }
        }
    }

    /// Every event of the table, from no running status, from its own and from another, in rooms around its length.
    fn events_written(&mut self) {
        group("events written");
        for bytes in &EVENTS {
            let own = status_after(bytes);
            for running in &[0x00, own, 0xB3] {
                let event = TrackEvent::read(&mut &bytes[..], &mut None).unwrap();
                let need = length_of(|out| event.write(&mut option(*running), out));
                for room in need - 1..=need + 1 {
                    self.event_written(&event, bytes, *running, room + 2, 2);
                }
            }
        }
    }

    /// Each number of each event of the table too large, by as little as may be and by as much; numbers of no kind,
    /// running statuses that are none, `Unknown` that has a name. The room is enough, or none.
    fn illegal_events(&mut self) {
        group("events that may not be written");
        for bytes in &EVENTS {
            let row = events::row(&TrackEvent::read(&mut &bytes[..], &mut None).unwrap(), bytes);
            for cell in (0..WIDTH).filter(|cell| *cell != 1) {
                let spoilt = |value: u64| {
                    let mut other = row;
                    other[cell] = value;
                    other
                };
                let least = ABOVE.iter().find(|value| kinds::refused(&spoilt(**value), bytes.len(), 0x90) > 0);
                least.into_iter().for_each(|value| self.illegal(&spoilt(*value), bytes, 0x90, 40));
                self.illegal(&spoilt(u64::MAX), bytes, 0x00, 0);
            }
            NO_RUNNING.iter().take(2).for_each(|running| self.illegal(&row, bytes, *running, 40));
        }
        for kind in &[0, 7, 15, 0xEF, 0xF1, 0xFF, 0x10A, 0x11F, 0x1FF, 0x201, u64::MAX] {
            self.illegal(&[0, *kind, 0, 0, 0, 0, 0, 0, 0, 0], &[], 0x00, 40);
        }
        for running in &NO_RUNNING {
            self.illegal(&[1 << 28, 9, 16, 0, 0, 0, 0, 0, 0, 0], &[], *running, 0);
        }
        for kind in &TYPES {
            for length in 0..=8 {
                self.illegal(&[0, 0x200, *kind as u64, 0, 0, 0, 0, 0, 1, length], &load(9), 0x00, 14);
            }
        }
    }

    /// Lists of the table's events and lists around 128, in rooms around their length.
    fn lists_written(&mut self) {
        group("lists written");
        let mut lists: Vec<Vec<u8>> = EVENTS.chunks(4).map(|some| some.concat()).collect();
        lists.extend(EVENTS.iter().map(|bytes| [*bytes, *bytes].concat()));
        lists.push(vec![]);
        lists.push(TWO.to_vec());
        lists.extend([CAPACITY - 1, CAPACITY].iter().map(|count| programs(*count)));
        for bytes in &lists {
            let list = all_events(bytes);
            for running in &[0x00, 0x90] {
                let need = length_of(|out| {
                    let mut status = option(*running);
                    list.iter().try_for_each(|event| event.write(&mut status, out))
                });
                for room in [need, need.saturating_sub(1), need + 2].iter() {
                    self.list_written(&list, bytes, *running, *room);
                }
            }
        }
    }

    /// A count that is too large or has too few cells, an event that may not be written at each place of a list, and
    /// what comes before what.
    fn illegal_lists(&mut self) {
        group("lists that may not be written");
        let bytes = EVENTS[14..22].concat();
        let rows: Vec<Row> = all_events(&bytes).iter().map(|event| events::row(event, &bytes)).collect();
        for at in 0..rows.len() {
            for (cell, value) in &[(0, 1 << 28), (1, 0x1FF), (2, 256), (9, bytes.len() as u64), (1, 0x200)] {
                let mut other = rows.clone();
                other[at][*cell] = *value;
                self.illegal_list(&other, rows.len(), &bytes, 0x00);
                other[rows.len() - 1][0] = u64::MAX;
                self.illegal_list(&other, rows.len(), &bytes, 0x00);
                self.illegal_list(&other, rows.len(), &bytes, 0x7F);
            }
        }
        for count in &[9, CAPACITY, CAPACITY + 1, 1 << 32, usize::MAX] {
            [0x00, 0x90, 0x7F, 0xF0].iter().for_each(|running| self.illegal_list(&rows, *count, &bytes, *running));
        }
    }

    /// Every two of some events: the same ones at other places, with other deltas, other kinds and other payloads; and
    /// rows that are no events'.
    fn events_same(&mut self) {
        group("two events, the same or not");
        let some: [&[u8]; 14] = [
            EVENTS[0], EVENTS[2], EVENTS[3], EVENTS[15], EVENTS[16], EVENTS[18], EVENTS[22], EVENTS[36], EVENTS[40],
            EVENTS[49], EVENTS[50],
            &[0x80, 0x00, 0x90, 0x3C, 0x40],
            &[0x80, 0x00, 0xFF, 0x01, 0x80, 0x03, 0x61, 0x62, 0x63],
            &[0x00, 0xFF, 0x01, 0x03, 0x61, 0x62, 0x64],
        ];
        for a in &some {
            for b in &some {
                let (x, y) = (all_events(a)[0], all_events(b)[0]);
                let given = [&[a.len() as u64][..], &events::row(&x, a), &events::row(&y, b)].concat();
                line('a', &given, &[*a, *b].concat(), &[0, (x == y) as u64]);
            }
        }
        let (a, none) = (some[0], [0; 10]);
        let row = events::row(&all_events(a)[0], a);
        for (x, y) in &[(row, none), (none, row), (none, none)] {
            let given = [&[a.len() as u64][..], x, y].concat();
            line('a', &given, &[a, a].concat(), &[18, 0xA5]);
        }
    }

    /// Formats and timings, read and written, and rates.
    fn header_fields(&mut self) {
        group("formats read");
        for bytes in &[&[][..], &[0x00], &[0x01], &[0x00, 0x00], &[0x00, 0x01], &[0x00, 0x02], &[0x00, 0x03]] {
            self.format_read(bytes);
            self.format_read(&[*bytes, &[0x00]].concat());
        }
        [[0x00, 0xFF], [0x01, 0x00], [0x80, 0x00], [0xFF, 0xFF]].iter().for_each(|bytes| self.format_read(bytes));
        group("formats written");
        [0, 1, 2, 3, 127, 128, 255].iter().for_each(|format| self.format_written(*format));
        group("timings read");
        for bytes in &[&[][..], &[0x00], &[0xE7], &[0x00, 0x60, 0x05], &[0xE7, 0x28, 0x05]] {
            self.timing_read(bytes);
        }
        for high in 0..=255 {
            [0x00, 0x28, 0xFF].iter().for_each(|low| self.timing_read(&[high, *low]));
        }
        group("timings written");
        [0, 1, 96, 255, 256, 32_767, 32_768, 65_535].iter().for_each(|ticks| self.timing_written(*ticks, 0, 40));
        (1..=255).for_each(|rate| self.timing_written(96, rate, rate));
        group("rates, of every byte");
        (0..=255).for_each(|byte| self.rate(byte));
    }

    /// SMPTE times around the ends of their ranges.
    fn times(&mut self) {
        group("SMPTE times read");
        times_around(|five| self.time_read(five));
        group("SMPTE times built, placed and written");
        times_around(|five| {
            let rate = RATES[(five[0] >> 5 & 3) as usize];
            self.time([five[0] & 0x1F, five[1], five[2], five[3], five[4], rate]);
        });
        (0..=255).for_each(|rate| self.time([1, 2, 3, 4, 5, rate]));
    }
}

/// Five bytes of an SMPTE time, for each rate: the last time of the day, the first, and each field at its ends.
fn times_around(mut of: impl FnMut([u8; 5])) {
    for (code, rate) in RATES.iter().enumerate() {
        let code = (code as u8) << 5;
        let last = [code | 23, 59, 59, rate - 1, 99];
        of([code, 0, 0, 0, 0]);
        of(last);
        let frames = [rate - 2, *rate, rate + 1, 255];
        let fields = [[22, 24, 25, 31], [58, 60, 61, 255], [58, 60, 128, 255], frames, [98, 100, 127, 255]];
        for (field, ends) in fields.iter().enumerate() {
            for end in ends {
                let mut five = last;
                five[field] = if field == 0 { code | end } else { *end };
                of(five);
            }
        }
        of([code | 0x80 | 5, 10, 20, 3, 40]);
    }
}

// ---- one line each: what the Rust answers, and where it has no answer, document 01

impl Lines {
    fn number_read(&mut self, bytes: &[u8], at: usize) {
        let whole = bytes.get(at..).unwrap_or(&[]);
        let mut rest = whole;
        let answer = match u28::read_u7(&mut rest) {
            Ok(number) => {
                let padding = self.padding('n', padding::of_number(whole));
                [0, number.as_int() as u64, (at + (whole.len() - rest.len())) as u64, padding]
            }
            Err(kind) => [refusal::of_kind(kind) as u64, HELD, HELD, HELD],
        };
        self.numbers.insert(answer[0]);
        line('n', &[STRICT as u64, at as u64], bytes, &answer);
    }

    /// A payload ends where its reading does.
    fn payload_read(&mut self, bytes: &[u8], at: usize) {
        let whole = bytes.get(at..).unwrap_or(&[]);
        let mut rest = whole;
        let answer = match read_varlen_slice(&mut rest) {
            Ok(slice) => {
                let padding = self.padding('p', padding::of_number(whole));
                [0, (at + (whole.len() - rest.len()) - slice.len()) as u64, slice.len() as u64, padding]
            }
            Err(error) => [refusal::of(&error) as u64, HELD, HELD, HELD],
        };
        self.numbers.insert(answer[0]);
        line('p', &[STRICT as u64, at as u64], bytes, &answer);
    }

    /// A padding that was seen.
    fn padding(&mut self, letter: char, padding: usize) -> u64 {
        self.paddings.insert((letter, padding as u64));
        padding as u64
    }

    /// The Rust takes any running status: one that is none is refused here, by 1. What is refused has padding 0.
    fn event_read(&mut self, bytes: &[u8], at: usize, running: u8) {
        let mut left = bytes.get(at..).unwrap_or(&[]);
        let (whole, mut status) = (left.len(), option(running));
        let mut answer = vec![1, 0, running as u64, 0];
        if is_running(running) {
            answer = match TrackEvent::read(&mut left, &mut status) {
                Ok(event) => {
                    let row = events::row(&event, bytes);
                    self.kinds.insert(row[1]);
                    let used = (whole - left.len()) as u64;
                    let padding = self.padding('e', padding::of_event(&bytes[at..]).sum());
                    [&[0, used, status.unwrap_or(0) as u64, padding], &row[..]].concat()
                }
                Err(error) => vec![refusal::of(&error) as u64, 0, status.unwrap_or(0) as u64, 0],
            };
        }
        self.numbers.insert(answer[0]);
        line('e', &[STRICT as u64, running as u64, at as u64], bytes, &answer);
    }

    /// Event by event. A refusal leaves the place and the running status before it, and adds no padding.
    fn list_read(&mut self, bytes: &[u8], at: usize, running: u8) {
        let mut left = bytes.get(at..).unwrap_or(&[]);
        let (whole, mut status, mut why, mut rows) = (left.len(), option(running), 0, Vec::new());
        let mut padding = 0;
        while !left.is_empty() || !is_running(running) {
            if !is_running(running) {
                why = 1;
                break;
            }
            if rows.len() == WIDTH * CAPACITY {
                why = FULL;
                break;
            }
            let before = (left, status);
            match TrackEvent::read(&mut left, &mut status) {
                Ok(event) => {
                    rows.extend_from_slice(&events::row(&event, bytes));
                    padding += padding::of_event(before.0).sum();
                }
                Err(error) => {
                    why = refusal::of(&error) as u64;
                    left = before.0;
                    status = before.1;
                    break;
                }
            }
        }
        self.numbers.insert(why);
        let place = (at + (whole - left.len())) as u64;
        let padding = self.padding('l', padding);
        let mut answer = vec![why, (rows.len() / WIDTH) as u64, place, status.unwrap_or(0) as u64, padding];
        answer.extend(rows);
        line('l', &[STRICT as u64, running as u64, at as u64], bytes, &answer);
    }

    /// The length of a number above its width is 4.
    fn number_written(&mut self, value: u32, room: usize, at: usize) {
        let (mut written, mut length) = (Written::refused(18, room), 4);
        if let Some(number) = u28::try_from(value) {
            written = Written::by(room, at, |out| number.write_varlen(out));
            length = length_of(|out| number.write_varlen(out)) as u64;
        }
        self.numbers.insert(written.number);
        let answer = [&[written.number, written.next, length], &written.bytes[..]].concat();
        line('N', &[room as u64, at as u64, value as u64], &[], &answer);
    }

    fn payload_written(&mut self, bytes: &[u8], start: usize, length: usize, room: usize, at: usize) {
        let written = match start.checked_add(length).and_then(|end| bytes.get(start..end)) {
            Some(slice) => Written::by(room, at, |out| write_varlen_slice(slice, out)),
            None => Written::refused(19, room),
        };
        self.numbers.insert(written.number);
        let answer = [&[written.number, written.next], &written.bytes[..]].concat();
        line('P', &[room as u64, at as u64, start as u64, length as u64], bytes, &answer);
    }

    fn event_written(&mut self, event: &TrackEvent, bytes: &[u8], running: u8, room: usize, at: usize) {
        let mut after = option(running);
        let length = length_of(|out| event.write(&mut after, out)) as u64;
        let after = after.unwrap_or(0) as u64;
        let written = Written::by(room, at, |out| event.write(&mut option(running), out));
        self.numbers.insert(written.number);
        let left = if written.number == 0 { after } else { running as u64 };
        let answer = [&[0, length, after, written.number, written.next, left], &written.bytes[..]].concat();
        let given = [&[room as u64, at as u64, running as u64], &events::row(event, bytes)[..]].concat();
        line('E', &given, bytes, &answer);
    }

    /// One that may be written all the same is let go: the Rust's types hold no row.
    fn illegal(&mut self, row: &Row, bytes: &[u8], running: u8, room: usize) {
        let number = kinds::refused(row, bytes.len(), running) as u64;
        if number == 0 {
            return;
        }
        self.numbers.insert(number);
        let answer = [&[number, HELD, HELD, number, HELD, running as u64], &vec![HELD; room][..]].concat();
        line('E', &[&[room as u64, 0, running as u64], &row[..]].concat(), bytes, &answer);
    }

    fn list_written(&mut self, list: &[TrackEvent], bytes: &[u8], running: u8, room: usize) {
        let mut after = option(running);
        let length = length_of(|out| list.iter().try_for_each(|event| event.write(&mut after, out))) as u64;
        let after = after.unwrap_or(0) as u64;
        let mut status = option(running);
        let written = Written::by(room, 0, |out| list.iter().try_for_each(|event| event.write(&mut status, out)));
        self.numbers.insert(written.number);
        let told = match written.number {
            0 => [0, length, after, HELD],
            number => [number, HELD, running as u64, 0],
        };
        let answer = [&[0, length, after, HELD], &told[..], &written.bytes].concat();
        let rows: Vec<Row> = list.iter().map(|event| events::row(event, bytes)).collect();
        line('L', &[&[room as u64, running as u64, list.len() as u64], &rows.concat()[..]].concat(), bytes, &answer);
    }

    /// 1, then 21, then the first event that may not be written; a row whose cells are not there is no event's, 18.
    fn illegal_list(&mut self, rows: &[Row], count: usize, bytes: &[u8], running: u8) {
        let numbers = rows.iter().take(count).map(|row| kinds::refused(row, bytes.len(), 0) as u64);
        let (index, number) = match numbers.enumerate().find(|number| number.1 > 0) {
            _ if !is_running(running) => (0, 1),
            _ if count > CAPACITY => (0, 21),
            Some(first) => first,
            None if count > rows.len() => (rows.len(), 18),
            None => return,
        };
        self.numbers.insert(number);
        let told = [number, HELD, running as u64, index as u64];
        let given = [&[2, running as u64, count as u64], &rows.concat()[..]].concat();
        line('L', &given, bytes, &[&told[..], &told, &[HELD, HELD]].concat());
    }

    fn format_read(&mut self, bytes: &[u8]) {
        let answer = match Format::read(&mut &bytes[..]) {
            Ok(Format::SingleTrack) => [0, 0],
            Ok(Format::Parallel) => [0, 1],
            Ok(Format::Sequential) => [0, 2],
            Err(error) => [refusal::of(&error) as u64, HELD],
        };
        self.numbers.insert(answer[0]);
        line('f', &[], bytes, &answer);
    }

    fn format_written(&mut self, number: u8) {
        let formats = [Format::SingleTrack, Format::Parallel, Format::Sequential];
        let answer = formats.get(number as usize).map_or([15, HELD, HELD], |format| two(format.encode()));
        line('g', &[number as u64], &[], &answer);
    }

    fn timing_read(&mut self, bytes: &[u8]) {
        let answer = match Timing::read(&mut &bytes[..]) {
            Ok(Timing::Metrical(ticks)) => [0, ticks.as_int() as u64, 0, 0],
            Ok(Timing::Timecode(fps, subframe)) => [0, 0, fps.as_int() as u64, subframe as u64],
            Err(error) => [refusal::of(&error) as u64, HELD, HELD, HELD],
        };
        self.numbers.insert(answer[0]);
        line('t', &[], bytes, &answer);
    }

    /// At rate 0 the ticks count, at any other the subframe.
    fn timing_written(&mut self, ticks: u16, rate: u8, subframe: u8) {
        let timing = match rate {
            0 => u15::try_from(ticks).map(Timing::Metrical).ok_or(18),
            _ => Fps::from_int(rate).map(|fps| Timing::Timecode(fps, subframe)).ok_or(16),
        };
        let answer = timing.map_or_else(|number| [number, HELD, HELD], |timing| two(timing.encode()));
        self.numbers.insert(answer[0]);
        line('u', &[ticks as u64, rate as u64, subframe as u64], &[], &answer);
    }

    /// A byte as a code, and as a rate: its code, and itself.
    fn rate(&mut self, byte: u8) {
        let of_code = Fps::from_code(u2::from(byte)).as_int() as u64;
        let [code, rate] = Fps::from_int(byte).map_or([[16, HELD]; 2], |fps| {
            [[0, fps.as_code().as_int() as u64], [0, fps.as_int() as u64]]
        });
        line('r', &[byte as u64], &[], &[of_code, code[0], code[1], rate[0], rate[1]]);
    }

    fn time_read(&mut self, five: [u8; 5]) {
        let answer = match SmpteTime::read(&mut &five[..]) {
            Ok(t) => {
                let six = [t.hour(), t.minute(), t.second(), t.frame(), t.subframe(), t.fps().as_int()];
                [&[0], &wide(&six)[..]].concat()
            }
            Err(error) => vec![refusal::of(&error) as u64, HELD, HELD, HELD, HELD, HELD, HELD],
        };
        self.numbers.insert(answer[0]);
        line('s', &wide(&five), &[], &answer);
    }

    /// Whether six numbers are a time; its position, which the Rust does not have, by document 01's formula; its bytes.
    fn time(&mut self, six: [u8; 6]) {
        let [hour, minute, second, frame, subframe, rate] = six;
        let time = Fps::from_int(rate)
            .ok_or(16)
            .and_then(|fps| SmpteTime::new(hour, minute, second, frame, subframe, fps).ok_or(13));
        let answer = match time {
            Ok(time) => {
                let seconds = 3600 * hour as u64 + 60 * minute as u64 + second as u64;
                let position = (seconds * rate as u64 + frame as u64) * 100 + subframe as u64;
                [&[0, 0, position, 0], &wide(&time.encode())[..]].concat()
            }
            Err(number) => {
                let written = if number == 13 { 18 } else { number };
                [&[number, number, HELD, written], &[HELD; 5][..]].concat()
            }
        };
        self.numbers.insert(answer[0]);
        line('z', &wide(&six), &[], &answer);
    }
}

/// A write into a lent buffer. What the Rust leaves behind when it refuses is taken back: the port promises the bytes
/// as they came.
struct Written {
    number: u64,
    next: u64,
    bytes: Vec<u64>,
}

impl Written {
    fn by(room: usize, at: usize, write: impl FnOnce(&mut Cursor) -> StdResult<(), CursorError>) -> Written {
        let mut out = vec![HELD as u8; room];
        let mut cursor = Cursor::from_parts(&mut out, at.min(room));
        match write(&mut cursor) {
            Ok(()) => {
                let next = cursor.cursor() as u64;
                Written { number: 0, next, bytes: wide(&out) }
            }
            Err(error) => Written::refused(refusal::of_write(&error) as u64, room),
        }
    }

    fn refused(number: u64, room: usize) -> Written {
        Written { number, next: HELD, bytes: vec![HELD; room] }
    }
}

// ---- what lines are made of

/// Names a group of lines.
fn group(name: &str) {
    println!("- {}", name);
}

/// A group that the mode matters to.
fn read_group(name: &str) {
    println!("- {}, {}", name, MODE);
}

fn line(letter: char, given: &[u64], bytes: &[u8], answer: &[u64]) {
    let hex = |numbers: &[u64]| numbers.iter().map(|number| format!(" {:X}", number)).collect::<String>();
    println!("{}{}:{}= {}", letter, hex(given), hex(&wide(bytes)), hex(answer).trim_start());
}

fn wide(bytes: &[u8]) -> Vec<u64> {
    bytes.iter().map(|byte| *byte as u64).collect()
}

fn two(bytes: [u8; 2]) -> [u64; 3] {
    [0, bytes[0] as u64, bytes[1] as u64]
}

fn option(running: u8) -> Option<u8> {
    Some(running).filter(|running| *running != 0)
}

fn is_running(running: u8) -> bool {
    running == 0 || (0x80..=0xEF).contains(&running)
}

/// Every string of up to so many of the bytes.
fn strings(of: &[u8], most: usize) -> Vec<Vec<u8>> {
    let mut all = vec![vec![]];
    let mut last = all.clone();
    for _ in 0..most {
        last = last.iter().flat_map(|it| of.iter().map(move |byte| [&it[..], &[*byte]].concat())).collect();
        all.extend(last.clone());
    }
    all
}

/// So many bytes, small ones and large ones.
fn load(length: usize) -> Vec<u8> {
    (0..length).map(|i| [0x01, 0x1D, 0x3B, 0x00, 0x63, 0xFE, 0x80][i % 7]).collect()
}

fn meta(kind: u8, load: &[u8]) -> Vec<u8> {
    [&[0x00, 0xFF, kind, load.len() as u8], load].concat()
}

/// An event with so many bytes 80 in front of its delta, of its payload's length, and of both: where four bytes are
/// enough for the delta, and where there is a length, which is one byte in the table.
fn padded(event: &[u8], more: usize) -> Vec<Vec<u8>> {
    let delta = event.iter().take_while(|byte| **byte > 0x7F).count() + 1;
    let length = match event[delta] {
        0xF0 | 0xF7 => Some(delta + 1),
        0xFF => Some(delta + 2),
        _ => None,
    };
    let filler = vec![0x80; more];
    let front = Some([&filler[..], event].concat()).filter(|_| delta + more <= 4);
    let inside = length.map(|at| [&event[..at], &filler, &event[at..]].concat());
    let both = inside.iter().filter(|_| front.is_some()).map(|inside| [&filler[..], inside].concat());
    let both: Vec<_> = both.collect();
    front.iter().chain(&inside).chain(&both).cloned().collect()
}

/// So many program changes, all but the first under running status.
fn programs(count: usize) -> Vec<u8> {
    let mut bytes = vec![0x00, 0xC0, 0x05];
    (1..count).for_each(|i| bytes.extend_from_slice(&[0x00, i as u8 & 0x7F]));
    bytes
}

fn all_events(bytes: &[u8]) -> Vec<TrackEvent> {
    let (mut left, mut status, mut list) = (bytes, None, Vec::new());
    while !left.is_empty() {
        list.push(TrackEvent::read(&mut left, &mut status).unwrap());
    }
    list
}

fn status_after(bytes: &[u8]) -> u8 {
    let mut status = None;
    TrackEvent::read(&mut &bytes[..], &mut status).unwrap();
    status.unwrap_or(0)
}

fn length_of(write: impl FnOnce(&mut WriteCounter) -> StdResult<(), &'static str>) -> usize {
    let mut counter = WriteCounter(0);
    write(&mut counter).unwrap();
    counter.0 as usize
}
