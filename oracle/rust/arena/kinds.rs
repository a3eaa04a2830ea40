//! Events of every kind, legal and at random, as the Rust has them; and which rows document 01 lets be written.

use super::{random::Random, sizes::Row};
use crate::{
    event::{MetaMessage, MidiMessage, PitchBend, TrackEvent, TrackEventKind},
    prelude::*,
    primitive::{Fps, SmpteTime},
};

pub const KINDS: [&str; 29] = [
    "NoteOff", "NoteOn", "Aftertouch", "Controller", "ProgramChange", "ChannelAftertouch", "PitchBend", "SysEx",
    "Escape", "TrackNumber", "TrackNumber none", "Text", "Copyright", "TrackName", "InstrumentName", "Lyric", "Marker",
    "CuePoint", "ProgramName", "DeviceName", "MidiChannel", "MidiPort", "EndOfTrack", "Tempo", "SmpteOffset",
    "TimeSignature", "KeySignature", "SequencerSpecific", "Unknown",
];

/// The kinds that carry a payload.
pub fn carries(kind: usize) -> bool {
    matches!(kind, 7 | 8 | 11..=19 | 27 | 28)
}

/// Which of `KINDS` a row's event is.
pub fn of(row: &[u64]) -> usize {
    match row[1] as usize {
        kind @ 8..=14 => kind - 8,
        0xF0 => 7,
        0xF7 => 8,
        0x100 => 10 - (row[2] != 0) as usize,
        kind @ 0x101..=0x109 => kind - 0x101 + 11,
        0x120 => 20,
        0x121 => 21,
        0x12F => 22,
        0x151 => 23,
        0x154 => 24,
        0x158 => 25,
        0x159 => 26,
        0x17F => 27,
        0x200 => 28,
        kind => panic!("a row of no kind: {:X}", kind),
    }
}

/// An event of `KINDS[kind]`, with this payload where it carries one. Half of the channel messages that can go on
/// under the running status do.
pub fn event<'a>(kind: usize, running: u8, load: &'a [u8], random: &mut Random) -> TrackEvent<'a> {
    let any = random.wide();
    let delta = u28::new(random.of(&[any, any, 0, 0x7F, 0x80, 0x0FFF_FFFF]));
    let kind = match kind {
        0..=6 => {
            let goes_on = running >> 4 == kind as u8 + 8 && random.below(2) == 0;
            let channel = u4::new(if goes_on { running } else { random.bits() as u8 });
            TrackEventKind::Midi { channel, message: message(kind, random) }
        }
        7 => TrackEventKind::SysEx(load),
        8 => TrackEventKind::Escape(load),
        _ => TrackEventKind::Meta(meta(kind, load, random)),
    };
    TrackEvent { delta, kind }
}

fn message(kind: usize, random: &mut Random) -> MidiMessage {
    let (a, b, raw) = (u7::new(random.byte()), u7::new(random.byte()), random.bits() as u16);
    match kind {
        0 => MidiMessage::NoteOff { key: a, vel: b },
        1 => MidiMessage::NoteOn { key: a, vel: b },
        2 => MidiMessage::Aftertouch { key: a, vel: b },
        3 => MidiMessage::Controller { controller: a, value: b },
        4 => MidiMessage::ProgramChange { program: a },
        5 => MidiMessage::ChannelAftertouch { vel: a },
        _ => MidiMessage::PitchBend { bend: PitchBend(u14::new(random.of(&[raw, raw, 0, 0x2000, 0x3FFF]))) },
    }
}

fn meta<'a>(kind: usize, load: &'a [u8], random: &mut Random) -> MetaMessage<'a> {
    match kind {
        9 => MetaMessage::TrackNumber(Some(random.bits() as u16)),
        10 => MetaMessage::TrackNumber(None),
        11 => MetaMessage::Text(load),
        12 => MetaMessage::Copyright(load),
        13 => MetaMessage::TrackName(load),
        14 => MetaMessage::InstrumentName(load),
        15 => MetaMessage::Lyric(load),
        16 => MetaMessage::Marker(load),
        17 => MetaMessage::CuePoint(load),
        18 => MetaMessage::ProgramName(load),
        19 => MetaMessage::DeviceName(load),
        20 => MetaMessage::MidiChannel(u4::new(random.byte())),
        21 => MetaMessage::MidiPort(u7::new(random.byte())),
        22 => MetaMessage::EndOfTrack,
        23 => MetaMessage::Tempo(u24::new(random.wide())),
        24 => MetaMessage::SmpteOffset(time(random)),
        25 => MetaMessage::TimeSignature(random.byte(), random.byte(), random.byte(), random.byte()),
        26 => MetaMessage::KeySignature(random.byte() as i8, random.below(2) == 0),
        27 => MetaMessage::SequencerSpecific(load),
        _ => MetaMessage::Unknown(unnamed(load.len(), random), load),
    }
}

fn time(random: &mut Random) -> SmpteTime {
    let fps = random.of(&[Fps::Fps24, Fps::Fps25, Fps::Fps29, Fps::Fps30]);
    let mut below = |end: usize| random.below(end) as u8;
    let frame = below(fps.as_int() as usize);
    SmpteTime::new(below(24), below(60), below(60), frame, below(100), fps).unwrap()
}

/// A meta type that has no name at this length.
fn unnamed(length: usize, random: &mut Random) -> u8 {
    loop {
        let any = random.bits() as u8;
        let kind = random.of(&[any, any, 0x20, 0x51, 0x54, 0x58]);
        if !is_named(kind as u64, length as u64) {
            return kind;
        }
    }
}

// ---- document 01's rule

/// By which number a row's event may not be written, 0 where it may: 1, then 18, 19, 22, 23. The room comes after.
pub fn refused(row: &Row, bytes: usize, running: u8) -> u8 {
    if running != 0 && !(0x80..=0xEF).contains(&running) {
        return 1;
    }
    if row[0] >= 1 << 28 || !fits(row) {
        return 18;
    }
    if !is_loaded(row) {
        return 0;
    }
    if row[8].checked_add(row[9]).map_or(true, |end| end > bytes as u64) {
        return 19;
    }
    if row[9] >= 1 << 28 {
        return 22;
    }
    if row[1] == 0x200 && is_named(row[2], row[9]) {
        return 23;
    }
    0
}

/// Whether a row's kind carries a payload.
pub fn is_loaded(row: &Row) -> bool {
    matches!(row[1], 0xF0 | 0xF7 | 0x101..=0x109 | 0x17F | 0x200)
}

/// Whether each field that the kind uses is within its width, and an SMPTE time within its ranges. No kind has any
/// other number.
fn fits(row: &Row) -> bool {
    let is_time = |r: &Row| r[2] < 24 && r[3] < 60 && r[4] < 60 && r[5] < r[7] && r[6] < 100;
    within(row) && (row[1] != 0x154 || is_time(row))
}

/// Whether each field that the kind uses is within its width, those of an SMPTE time within bytes.
pub fn within(row: &[u64]) -> bool {
    let [a, b, c, d, e, rate] = [row[2], row[3], row[4], row[5], row[6], row[7]];
    match row[1] {
        8..=11 => a < 16 && b < 128 && c < 128,
        12 | 13 => a < 16 && b < 128,
        14 => a < 16 && b < 1 << 14,
        0xF0 | 0xF7 | 0x101..=0x109 | 0x12F | 0x17F => true,
        0x100 => a == 0 || b < 1 << 16,
        0x120 => a < 16,
        0x121 => a < 128,
        0x151 => a < 1 << 24,
        0x154 => [24, 25, 29, 30].contains(&rate) && a < 256 && b < 256 && c < 256 && d < 256 && e < 256,
        0x158 => a < 256 && b < 256 && c < 256 && d < 256,
        0x159 | 0x200 => a < 256,
        _ => false,
    }
}

/// Whether a meta type of so many bytes reads as a named kind, or is refused as 59.
fn is_named(kind: u64, length: u64) -> bool {
    match kind {
        0x00..=0x09 | 0x2F | 0x59 | 0x7F => true,
        0x20 | 0x21 => length >= 1,
        0x51 => length >= 3,
        0x54 => length >= 5,
        0x58 => length >= 4,
        _ => false,
    }
}

/// How many of the six fields a row's kind uses.
pub fn used(row: &Row) -> usize {
    match row[1] {
        8..=11 => 3,
        12..=14 | 0x159 => 2,
        0x100 => 1 + (row[2] != 0) as usize,
        0x120 | 0x121 | 0x151 | 0x200 => 1,
        0x154 => 6,
        0x158 => 4,
        _ => 0,
    }
}
