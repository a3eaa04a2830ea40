//! The listing program, against the same text made by the Rust's own reader. Its names are those that the Rust
//! derives for `Debug`.

use super::{
    padding::{self, Padding, PADDED},
    random::Random,
    refusal,
    report::{Bytes, Entry},
    sizes::CAPACITY,
};
use crate::{
    event::{MetaMessage, MidiMessage, TrackEvent, TrackEventKind},
    prelude::*,
};
use std::{
    fmt::Debug,
    io::{Read, Write},
    process::{Command, Stdio},
};

/// The most bytes that a program reads.
pub const LONGEST: usize = 65_536;

const STATUSES: [u8; 12] = [0x80, 0x93, 0xA0, 0xBF, 0xC1, 0xD2, 0xE0, 0xF0, 0xF7, 0xFF, 0xFF, 0xFF];
const REFUSED: [u8; 4] = [0xF1, 0xF6, 0xF8, 0xFE];
const TYPES: [u8; 20] = [
    0x00, 0x01, 0x02, 0x03, 0x04, 0x05, 0x06, 0x07, 0x08, 0x09, 0x20, 0x21, 0x2F, 0x51, 0x54, 0x58, 0x59, 0x60, 0x7F,
    0xFF,
];

/// Lists standard input as the Rust reads it.
pub fn list() -> i32 {
    print(|bytes| text(bytes, |_| {}))
}

/// Prints the text of standard input.
pub fn print(text: impl Fn(&[u8]) -> (u8, String)) -> i32 {
    let mut bytes = Vec::new();
    match std::io::stdin().read_to_end(&mut bytes) {
        Ok(_) => print!("{}", text(&bytes).1),
        Err(error) => {
            eprintln!("{}", error);
            return 2;
        }
    }
    0
}

/// The program is lenient: a strict build has nothing to compare.
pub fn run(mut random: Random, full: bool) -> Vec<Entry> {
    if cfg!(feature = "strict") {
        return vec![];
    }
    // a padded length is rare in these strings, and need not occur: the stored listings have some
    let mut entry = Entry::new("./list", &[0, 4, 6, 7, 8, 9, 13]).of_kinds(&PADDED[..1]).counting(&PADDED[1..]);
    for _ in 0..if full { 2000 } else { 200 } {
        let bytes = sample(&mut random);
        let rust = text(&bytes, |padding| padding.count(&mut entry, 0));
        entry.compare(rust, port("list", &bytes), bytes.len(), || format!("{:?}", Bytes(&bytes)));
    }
    vec![entry]
}

/// Up to 150 events that are nearly right, of which one may be spoilt or cut.
fn sample(random: &mut Random) -> Vec<u8> {
    let mut bytes = Vec::new();
    let mut running = 0;
    for _ in 0..random.below(151) {
        running = event(random, running, &mut bytes);
    }
    spoil(random, &mut bytes);
    bytes
}

/// Changes a byte of some strings, and cuts some off.
pub fn spoil(random: &mut Random, bytes: &mut Vec<u8>) {
    if random.below(3) == 0 && !bytes.is_empty() {
        let at = random.below(bytes.len());
        bytes[at] = random.byte();
    }
    if random.below(4) == 0 {
        bytes.truncate(random.below(bytes.len() + 1));
    }
}

/// One event behind a running status; answers the running status behind it.
pub fn event(random: &mut Random, running: u8, bytes: &mut Vec<u8>) -> u8 {
    (0..random.below(3)).for_each(|_| bytes.push(random.byte() | 0x80));
    bytes.push(random.byte() & 0x7F);
    let mut status = running;
    if running == 0 || random.below(2) == 0 {
        status = if random.below(400) > 0 { random.of(&STATUSES) } else { random.of(&REFUSED) };
        bytes.push(status);
    }
    match status {
        0x80..=0xEF => {
            let count = if status / 32 == 6 { 1 } else { 2 };
            (0..count).for_each(|_| bytes.push(random.byte() & 0x7F));
            status
        }
        _ => {
            let kind = random.of(&TYPES);
            if status == 0xFF {
                bytes.push(kind);
            }
            let load = load(random, kind);
            bytes.push(load.len() as u8);
            bytes.extend(load);
            0
        }
    }
}

/// A time inside its ranges and a whole key, but for one in six: each of the others may end the list.
fn load(random: &mut Random, kind: u8) -> Vec<u8> {
    let good = random.below(6) > 0;
    match kind {
        0x54 if good => [0x77, 0x17, 0x17, 0x17, 0x17].iter().map(|mask| random.byte() & mask).collect(),
        0x59 if good => vec![random.byte(), random.byte()],
        _ => (0..random.below(9)).map(|_| random.byte()).collect(),
    }
}

/// What a program writes, with the number that its first line has behind `stop`.
pub fn port(program: &str, bytes: &[u8]) -> (u8, String) {
    let root = std::env::current_exe().unwrap().parent().unwrap().join("../..");
    let mut run = Command::new(root.join(program)).stdin(Stdio::piped()).stdout(Stdio::piped()).spawn().unwrap();
    run.stdin.take().unwrap().write_all(bytes).unwrap();
    let text = String::from_utf8(run.wait_with_output().unwrap().stdout).unwrap();
    let stop = text.split(' ').nth(3).and_then(|word| word.parse().ok()).unwrap_or(0);
    (stop, text)
}

// ---- what the Rust answers, and the padding beside it

/// The listing, with the number of the refusal at which it stopped, or 0. The padding of each event is told.
fn text(bytes: &[u8], mut padded: impl FnMut(Padding)) -> (u8, String) {
    if bytes.len() > LONGEST {
        return (0, String::from("too long\n"));
    }
    let (mut left, mut running) = (bytes, None);
    let (mut number, mut stop) = (0, String::from("end"));
    let mut lines = String::new();
    let (mut count, mut sum) = (0, 0);
    while !left.is_empty() {
        if count == CAPACITY {
            stop = String::from("full");
            break;
        }
        let before = (left, running);
        match TrackEvent::read(&mut left, &mut running) {
            Ok(event) => {
                let padding = padding::of_event(before.0);
                sum += padding.sum();
                padded(padding);
                lines += &line(count, &event, bytes);
            }
            Err(error) => {
                left = before.0;
                running = before.1;
                number = refusal::of(&error);
                stop = number.to_string();
                break;
            }
        }
        count += 1;
    }
    let place = bytes.len() - left.len();
    let status = running.unwrap_or(0);
    let first = format!("events {} stop {} at {} running {} padding {}\n", count, stop, place, status, sum);
    (number, first + &lines)
}

fn line(index: usize, event: &TrackEvent, bytes: &[u8]) -> String {
    let load = |p: &[u8]| format!("{} {}", p.as_ptr() as usize - bytes.as_ptr() as usize, p.len());
    let what = match event.kind {
        TrackEventKind::SysEx(p) | TrackEventKind::Escape(p) => format!("{} {}", name(&event.kind), load(p)),
        TrackEventKind::Midi { channel, message } => format!("{} {} {}", name(&message), channel, midi(message)),
        TrackEventKind::Meta(message) => format!("{} {}", name(&message), meta(message, load)),
    };
    format!("{} {} {}\n", index, event.delta, what.trim_end())
}

fn midi(message: MidiMessage) -> String {
    match message {
        MidiMessage::NoteOff { key, vel } | MidiMessage::NoteOn { key, vel } | MidiMessage::Aftertouch { key, vel } => {
            format!("{} {}", key, vel)
        }
        MidiMessage::Controller { controller, value } => format!("{} {}", controller, value),
        MidiMessage::ProgramChange { program } => program.to_string(),
        MidiMessage::ChannelAftertouch { vel } => vel.to_string(),
        MidiMessage::PitchBend { bend } => bend.as_int().to_string(),
    }
}

fn meta(message: MetaMessage, load: impl Fn(&[u8]) -> String) -> String {
    match message {
        MetaMessage::TrackNumber(number) => number.map_or(String::from("none"), |n| n.to_string()),
        MetaMessage::Text(p)
        | MetaMessage::Copyright(p)
        | MetaMessage::TrackName(p)
        | MetaMessage::InstrumentName(p)
        | MetaMessage::Lyric(p)
        | MetaMessage::Marker(p)
        | MetaMessage::CuePoint(p)
        | MetaMessage::ProgramName(p)
        | MetaMessage::DeviceName(p)
        | MetaMessage::SequencerSpecific(p) => load(p),
        MetaMessage::MidiChannel(channel) => channel.to_string(),
        MetaMessage::MidiPort(port) => port.to_string(),
        MetaMessage::EndOfTrack => String::new(),
        MetaMessage::Tempo(tempo) => tempo.to_string(),
        MetaMessage::SmpteOffset(t) => {
            let (rate, fields) = (t.fps().as_int(), [t.hour(), t.minute(), t.second(), t.frame(), t.subframe()]);
            fields.iter().chain(&[rate]).map(u8::to_string).collect::<Vec<_>>().join(" ")
        }
        MetaMessage::TimeSignature(a, b, c, d) => format!("{} {} {} {}", a, b, c, d),
        MetaMessage::KeySignature(sharps, minor) => format!("{} {}", sharps, minor as u8),
        MetaMessage::Unknown(kind, p) => format!("{} {}", kind, load(p)),
    }
}

/// The name of a value's variant.
fn name(value: &impl Debug) -> String {
    format!("{:?}", value).chars().take_while(|c| c.is_alphanumeric()).collect()
}
