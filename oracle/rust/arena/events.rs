//! One event, read: `TrackEvent::read` from every valid running status.

use super::{
    kinds::{self, KINDS},
    padding::{self, PADDED},
    port,
    random::Random,
    refusal,
    report::{Bytes, Entry},
    shrink,
    sizes::{Row, WIDTH},
    strings::Strings,
};
use crate::{
    event::{MetaMessage, MidiMessage, TrackEvent, TrackEventKind},
    prelude::*,
};

/// A running status of each kind, and none.
const EACH: [u8; 8] = [0x00, 0x80, 0x90, 0xA7, 0xBF, 0xC5, 0xD0, 0xEF];
/// What four bytes are to show; 12 and 13 take more.
const FOUR: &[u8] = if cfg!(feature = "strict") {
    &[0, 2, 3, 4, 5, 6, 7, 8, 9, 10, 11, 14]
} else {
    &[0, 4, 5, 6, 7, 8, 9, 10, 14]
};
/// Around the ends of the fields' ranges.
const FIELDS: [u8; 19] = [0, 1, 2, 15, 16, 22, 23, 24, 28, 29, 30, 59, 60, 61, 99, 100, 127, 128, 255];
const STATUSES: [u8; 8] = [0xFF, 0xF0, 0xF7, 0x90, 0xC0, 0xE3, 0xF8, 0xF1];
const TYPES: [u8; 13] = [0x00, 0x01, 0x08, 0x09, 0x20, 0x21, 0x2F, 0x51, 0x54, 0x58, 0x59, 0x60, 0x7F];
const LENGTHS: [u8; 9] = [0, 1, 2, 3, 4, 5, 6, 0x7F, 0x80];

struct Events {
    short: Entry,
    four: Option<Entry>,
    status: Entry,
    types: Entry,
    sample: Entry,
    strings: Entry,
}

pub fn run(mut random: Random, full: bool) -> Vec<Entry> {
    let due: &[u8] = if cfg!(feature = "strict") {
        &[0, 2, 3, 4, 5, 6, 7, 8, 9, 10, 11, 12, 13, 14]
    } else {
        &[0, 4, 5, 6, 7, 8, 9, 10, 13, 14]
    };
    let mut it = Events {
        short: some("apk_event_read, up to three bytes", &[0, 4, 5, 6, 7, 8, 9]).counting(&PADDED),
        four: Some(some("apk_event_read, every four bytes", &FOUR).of_kinds(&PADDED)).filter(|_| full),
        status: some("apk_event_read, a status and every two bytes behind it", &[0, 5, 6, 7, 9]).counting(&PADDED),
        types: some("apk_event_read, every meta type", &[0, 4, 10, 13, 14]).counting(&PADDED),
        sample: some("apk_event_read, up to 23 bytes at places", due).of_kinds(&PADDED),
        strings: Entry::new("apk_event_read, up to 600 bytes", due).of_kinds(&KINDS).of_kinds(&PADDED),
    };
    let every: Vec<u8> = Some(0).into_iter().chain(0x80..=0xEF).collect();
    every.iter().for_each(|&running| it.two_bytes(running));
    let runnings = if full { &every[..] } else { &[0x00, 0x90][..] };
    runnings.iter().for_each(|&running| it.three_bytes(running));
    if let Some(entry) = &mut it.four {
        EACH.iter().for_each(|&running| four_bytes(entry, running));
    }
    it.every_status(full);
    it.every_type(&mut random, if full { 4000 } else { 60 });
    it.sample(&mut random, if full { 100_000_000 } else { 3_000_000 });
    it.strings(&mut random, if full { 100_000_000 } else { 2_000_000 });
    let mut entries = vec![it.short, it.status, it.types, it.sample, it.strings];
    entries.extend(it.four);
    entries
}

/// An entry that counts the kinds of events, of which it need not see each.
fn some(name: &'static str, due: &'static [u8]) -> Entry {
    Entry::new(name, due).counting(&KINDS)
}

// ---- what is compared

impl Events {
    /// Every string of up to two bytes.
    fn two_bytes(&mut self, running: u8) {
        one(&mut self.short, &[], 0, running);
        for a in 0..=255 {
            one(&mut self.short, &[a], 0, running);
            (0..=255).for_each(|b| one(&mut self.short, &[a, b], 0, running));
        }
    }

    /// Every string of three bytes.
    fn three_bytes(&mut self, running: u8) {
        for a in 0..=255 {
            for b in 0..=255 {
                (0..=255).for_each(|c| one(&mut self.short, &[a, b, c], 0, running));
            }
        }
    }

    /// The delta 0 with every three bytes behind it, from a running status of each kind and from none; the short form
    /// has every status and a few data bytes, each from one of them.
    fn every_status(&mut self, full: bool) {
        let first = if full { 0x00 } else { 0x70 };
        for status in first..=0xFF {
            for a in 0..=255 {
                for b in 0..=255u8 {
                    let bytes = [0, status, a, b];
                    if full {
                        EACH.iter().for_each(|&running| one(&mut self.status, &bytes, 0, running));
                    } else {
                        one(&mut self.status, &bytes, 0, EACH[(a ^ b) as usize % EACH.len()]);
                    }
                }
            }
        }
    }

    /// Every meta type at lengths 0 to 8: whole with a byte behind it, and cut anywhere.
    fn every_type(&mut self, random: &mut Random, rounds: u32) {
        for kind in 0..=255 {
            for length in 0..9 {
                for _ in 0..rounds {
                    let mut bytes = [0x90; 13];
                    bytes[..4].copy_from_slice(&[0, 0xFF, kind, length]);
                    let end = 4 + length as usize;
                    bytes[4..end].iter_mut().for_each(|byte| *byte = random.of(&FIELDS));
                    let cut = random.below(end + 1);
                    one(&mut self.types, &bytes[..cut], 0, random.of(&EACH));
                    one(&mut self.types, &bytes[..=end], 0, random.of(&EACH));
                }
            }
        }
    }

    /// Strings of up to 23 bytes, half of them events that are nearly right, at places inside and past the end.
    fn sample(&mut self, random: &mut Random, count: u64) {
        let mut whole = [0; 23];
        for _ in 0..count {
            let bytes = &mut whole[..random.below(24)];
            bytes.iter_mut().for_each(|byte| *byte = random.byte());
            if bytes.len() > 3 && random.below(2) == 0 {
                bytes[0] &= 0x7F;
                bytes[1] = random.of(&STATUSES);
                bytes[2] = random.of(&TYPES);
                bytes[3] = random.of(&LENGTHS);
            }
            let at = random.of(&[0, 0, 0, 1, 2, 30]);
            one(&mut self.sample, bytes, at, random.of(&EACH));
        }
    }

    /// Strings of up to 600 bytes, one of four at a place inside.
    fn strings(&mut self, random: &mut Random, count: u64) {
        let mut strings = Strings::new(random);
        for _ in 0..count {
            let (bytes, running) = strings.next(random);
            let at = if random.below(4) == 0 { random.below(bytes.len() + 1) } else { 0 };
            one(&mut self.strings, bytes, at, running);
        }
    }
}

/// Every string of four bytes. The port is asked each of them. The Rust reads the delta first, by `u28::read_u7`, and
/// does not look back: its number reader is asked each string, and its event reader once for all strings whose deltas
/// are as long and that are alike behind them, with the delta of each put in.
fn four_bytes(entry: &mut Entry, running: u8) {
    for length in 1..=4 {
        for rest in 0..1u32 << (8 * (4 - length)) {
            let mut alike = [None; 2];
            for delta in 0..1u32 << (7 * length + length / 4) {
                four(entry, four_of(delta, length, rest), running, &mut alike);
            }
        }
    }
}

/// The bytes of a delta of some length, of which the fourth alone may have its highest bit set, and the rest behind it.
fn four_of(delta: u32, length: u32, rest: u32) -> [u8; 4] {
    let mut bytes = rest.to_be_bytes();
    let mut left = delta;
    for i in (0..length as usize).rev() {
        let (width, high) = if i == 3 { (8, 0) } else { (7, if i + 1 < length as usize { 0x80 } else { 0 }) };
        bytes[i] = high | (left & ((1 << width) - 1)) as u8;
        left >>= width;
    }
    bytes
}

/// One of them; with the Rust's answers to those before it that are alike, where the delta is refused and where not.
fn four(entry: &mut Entry, bytes: [u8; 4], running: u8, alike: &mut [Option<Answer>; 2]) {
    let delta = u28::read_u7(&mut &bytes[..]);
    let mut answer = *alike[delta.is_ok() as usize].get_or_insert_with(|| rust(&bytes, 0, running));
    if let (Some(row), Ok(delta)) = (&mut (answer.1).0, delta) {
        row[0] = delta.as_int() as u64;
        (answer.1).3 = padding::of_event(&bytes).sum();
    }
    count(entry, &answer, &bytes, 0);
    entry.compare(answer, port::event_read(&bytes, 0, running), bytes.len(), || told(&bytes, 0, running));
}

/// Counts an event that was accepted: its kind, and which of its numbers are padded.
fn count(entry: &mut Entry, answer: &Answer, bytes: &[u8], at: usize) {
    if let Some(row) = &(answer.1).0 {
        entry.of_kind(kinds::of(row));
        if (answer.1).3 > 0 {
            padding::of_event(&bytes[at..]).count(entry, KINDS.len());
        }
    }
}

fn one(entry: &mut Entry, bytes: &[u8], at: usize, running: u8) {
    let (rust, port) = asked(bytes, at, running);
    count(entry, &rust, bytes, at);
    let answers = (rust.0, port.0);
    if entry.compare(rust, port, bytes.len(), || told(bytes, at, running)) && entry.is_new(answers) {
        smaller(entry, bytes, at, running);
    }
}

/// Shows a smaller string that has the same two answers and still differs: from its first byte on, if it can be.
#[cold]
fn smaller(entry: &mut Entry, bytes: &[u8], at: usize, running: u8) {
    let answers = |(rust, port): (Answer, Answer)| Some((rust.0, port.0)).filter(|_| rust != port);
    let whole = answers(asked(bytes, at, running));
    let behind = bytes.get(at..).unwrap_or(&[]);
    let (bytes, at) = if answers(asked(behind, 0, running)) == whole { (behind, 0) } else { (bytes, at) };
    let least = shrink::bytes(bytes, |bytes| answers(asked(bytes, at, running)) == whole);
    let (rust, port) = asked(&least, at, running);
    entry.show(rust, port, least.len(), || told(&least, at, running));
}

/// What the Rust and the port answer.
fn asked(bytes: &[u8], at: usize, running: u8) -> (Answer, Answer) {
    (rust(bytes, at, running), port::event_read(bytes, at, running))
}

fn told(bytes: &[u8], at: usize, running: u8) -> String {
    format!("{:?} at {} running {:02X}", Bytes(bytes), at, running)
}

// ---- what the Rust answers, and the padding beside it, which is 0 where an event is refused

type Answer = (u8, (Option<Row>, usize, u8, usize));

fn rust(bytes: &[u8], at: usize, running: u8) -> Answer {
    let mut left = if at <= bytes.len() { &bytes[at..] } else { &[] };
    let whole = left.len();
    let mut status = if running == 0 { None } else { Some(running) };
    match TrackEvent::read(&mut left, &mut status) {
        Ok(event) => {
            let padding = padding::of_event(&bytes[at..]).sum();
            (0, (Some(row(&event, bytes)), whole - left.len(), status.unwrap_or(0), padding))
        }
        Err(error) => (refusal::of(&error), (None, 0, status.unwrap_or(0), 0)),
    }
}

/// An event as a row of numbers, its payload by its place in the bytes.
pub fn row(event: &TrackEvent, bytes: &[u8]) -> Row {
    let mut row = [0u64; WIDTH];
    row[0] = event.delta.as_int() as u64;
    let at = |p: &[u8]| (p.as_ptr() as usize - bytes.as_ptr() as usize) as u64;
    let mut load = |row: &mut Row, kind: u64, a: u64, p: &[u8]| {
        row[1] = kind;
        row[2] = a;
        row[8] = at(p);
        row[9] = p.len() as u64;
    };
    let set = |row: &mut Row, kind: u64, fields: &[u64]| {
        row[1] = kind;
        row[2..2 + fields.len()].copy_from_slice(fields);
    };
    let n = |x: u8| x as u64;
    match event.kind {
        TrackEventKind::SysEx(p) => load(&mut row, 0xF0, 0, p),
        TrackEventKind::Escape(p) => load(&mut row, 0xF7, 0, p),
        TrackEventKind::Midi { channel, message } => {
            let c = n(channel.as_int());
            match message {
                MidiMessage::NoteOff { key, vel } => set(&mut row, 8, &[c, n(key.as_int()), n(vel.as_int())]),
                MidiMessage::NoteOn { key, vel } => set(&mut row, 9, &[c, n(key.as_int()), n(vel.as_int())]),
                MidiMessage::Aftertouch { key, vel } => set(&mut row, 10, &[c, n(key.as_int()), n(vel.as_int())]),
                MidiMessage::Controller { controller, value } => {
                    set(&mut row, 11, &[c, n(controller.as_int()), n(value.as_int())])
                }
                MidiMessage::ProgramChange { program } => set(&mut row, 12, &[c, n(program.as_int())]),
                MidiMessage::ChannelAftertouch { vel } => set(&mut row, 13, &[c, n(vel.as_int())]),
                MidiMessage::PitchBend { bend } => set(&mut row, 14, &[c, bend.0.as_int() as u64]),
            }
        }
        TrackEventKind::Meta(message) => match message {
            MetaMessage::TrackNumber(Some(x)) => set(&mut row, 0x100, &[1, x as u64]),
            MetaMessage::TrackNumber(None) => set(&mut row, 0x100, &[0]),
            MetaMessage::Text(p) => load(&mut row, 0x101, 0, p),
            MetaMessage::Copyright(p) => load(&mut row, 0x102, 0, p),
            MetaMessage::TrackName(p) => load(&mut row, 0x103, 0, p),
            MetaMessage::InstrumentName(p) => load(&mut row, 0x104, 0, p),
            MetaMessage::Lyric(p) => load(&mut row, 0x105, 0, p),
            MetaMessage::Marker(p) => load(&mut row, 0x106, 0, p),
            MetaMessage::CuePoint(p) => load(&mut row, 0x107, 0, p),
            MetaMessage::ProgramName(p) => load(&mut row, 0x108, 0, p),
            MetaMessage::DeviceName(p) => load(&mut row, 0x109, 0, p),
            MetaMessage::MidiChannel(c) => set(&mut row, 0x120, &[n(c.as_int())]),
            MetaMessage::MidiPort(c) => set(&mut row, 0x121, &[n(c.as_int())]),
            MetaMessage::EndOfTrack => set(&mut row, 0x12F, &[]),
            MetaMessage::Tempo(v) => set(&mut row, 0x151, &[v.as_int() as u64]),
            MetaMessage::SmpteOffset(t) => set(
                &mut row,
                0x154,
                &[n(t.hour()), n(t.minute()), n(t.second()), n(t.frame()), n(t.subframe()), n(t.fps().as_int())],
            ),
            MetaMessage::TimeSignature(a, b, c, d) => set(&mut row, 0x158, &[n(a), n(b), n(c), n(d)]),
            MetaMessage::KeySignature(s, m) => set(&mut row, 0x159, &[s as u8 as u64, m as u64]),
            MetaMessage::SequencerSpecific(p) => load(&mut row, 0x17F, 0, p),
            MetaMessage::Unknown(t, p) => load(&mut row, 0x200, n(t), p),
        },
    }
    row
}
