//! Header fields, rates and SMPTE times: `Format`, `Timing`, `Fps` and `SmpteTime`. The mode changes nothing here.

use super::{
    port::{self, Six, HELD},
    random::Random,
    refusal,
    report::{Bytes, Entry},
};
use crate::{
    prelude::*,
    primitive::{u15, u2, Format, Fps, SmpteTime, Timing},
};

/// Around the end of each field's range, and of a byte. Where frames end depends on the rate.
const SIXTIETHS: [u8; 8] = [0, 1, 58, 59, 60, 61, 128, 255];
const FRAMES: [u8; 12] = [0, 1, 23, 24, 25, 26, 28, 29, 30, 31, 128, 255];
const HUNDREDTHS: [u8; 8] = [0, 1, 98, 99, 100, 101, 128, 255];
const RATES: [u8; 4] = [24, 25, 29, 30];

struct Header {
    format_read: Entry,
    format_encode: Entry,
    timing_read: Entry,
    timing_encode: Entry,
    from_code: Entry,
    as_code: Entry,
    from_int: Entry,
    as_f32: Entry,
    new: Entry,
    read: Entry,
    encode: Entry,
    second_f32: Entry,
    position: Entry,
}

pub fn run(mut random: Random, full: bool) -> Vec<Entry> {
    let mut it = Header {
        format_read: Entry::new("apk_format_read", &[0, 15, 17]),
        format_encode: Entry::new("apk_format_encode", &[0, 15]),
        timing_read: Entry::new("apk_timing_read", &[0, 16, 17]),
        timing_encode: Entry::new("apk_timing_encode", &[0, 16, 18]),
        from_code: Entry::new("apk_fps_from_code", &[0]),
        as_code: Entry::new("apk_fps_as_code", &[0, 16]),
        from_int: Entry::new("apk_fps_from_int", &[0, 16]),
        as_f32: Entry::new("apk_fps_as_f32", &[0, 16]),
        new: Entry::new("apk_smpte_new", &[0, 13, 16]),
        read: Entry::new("apk_smpte_read", &[0, 13]),
        encode: Entry::new("apk_smpte_encode", &[0, 16, 18]),
        second_f32: Entry::new("apk_smpte_second_f32", &[0, 13, 16]),
        position: Entry::new("apk_smpte_position (by document 01's formula)", &[0, 13, 16]),
    };
    it.every_field(&mut random);
    it.every_timing_written();
    (0..=255).for_each(|byte| it.rate(byte));
    it.five_bytes(&mut random, if full { 50_000_000 } else { 5_000_000 });
    it.times_around_their_ranges(full);
    it.every_second();
    it.every_place(full);
    vec![
        it.format_read, it.format_encode, it.timing_read, it.timing_encode, it.from_code, it.as_code, it.from_int,
        it.as_f32, it.new, it.read, it.encode, it.second_f32, it.position,
    ]
}

// ---- what is compared

impl Header {
    /// Every field of two bytes, alone and with bytes after it, and every string that is too short.
    fn every_field(&mut self, random: &mut Random) {
        self.fields(&[]);
        (0..=255).for_each(|byte| self.fields(&[byte]));
        for high in 0..=255 {
            for low in 0..=255 {
                self.fields(&[high, low]);
                self.fields(&[high, low, random.byte()]);
                self.fields(&[high, low, random.byte(), random.byte(), random.byte(), random.byte()]);
            }
        }
    }

    fn fields(&mut self, bytes: &[u8]) {
        self.format_read(bytes);
        self.timing_read(bytes);
    }

    /// Every count of ticks, and every rate with every subframe; and every number that a format may be given by.
    fn every_timing_written(&mut self) {
        (0..=255).for_each(|format| self.format_encode(format));
        for ticks in 0..=u16::MAX {
            self.timing_encode(ticks, 0, ticks as u8);
        }
        for rate in 0..=255 {
            for subframe in 0..=255 {
                [0, 96, 0x7FFF, 0x8000, 0xFFFF].iter().for_each(|ticks| self.timing_encode(*ticks, rate, subframe));
            }
        }
    }

    /// Every first byte with the other fields around their ranges, and a sample.
    fn five_bytes(&mut self, random: &mut Random, sample: usize) {
        for first in 0..=255 {
            for_each_around(|minute, second, frame, subframe| self.read([first, minute, second, frame, subframe]));
        }
        for _ in 0..sample {
            let [first, minute, second, frame, subframe, ..] = random.bits().to_be_bytes();
            self.read([first, minute % 62, second % 62, frame % 32, subframe % 102]);
        }
    }

    /// Every hour with the other fields around their ranges, at each rate and at numbers that are none; the short form
    /// has fewer of these.
    fn times_around_their_ranges(&mut self, full: bool) {
        let none: &[u8] = if full { &[0, 1, 2, 3, 23, 26, 28, 31, 128, 255] } else { &[0] };
        for hour in 0..=255 {
            for rate in RATES.iter().chain(none) {
                for_each_around(|minute, second, frame, subframe| {
                    self.time([hour, minute, second, frame, subframe, *rate])
                });
            }
        }
        for rate in 0..=255 {
            self.time([1, 2, 3, 4, 5, rate]);
            self.time([24, 60, 60, 30, 100, rate]);
        }
    }

    fn time(&mut self, time: Six) {
        self.new(time);
        self.encode(time);
        self.second_f32(time);
        self.position(time);
    }

    /// Every second, frame, subframe and rate, at the first hour and minute and at the last.
    fn every_second(&mut self) {
        for_each_second(|second, frame, rate| {
            for subframe in 0..100 {
                self.second_f32([0, 0, second, frame, subframe, rate]);
                self.second_f32([23, 59, second, frame, subframe, rate]);
            }
        });
    }

    /// Every hour, minute, second, frame and rate, with every subframe; in the short form with four of them.
    fn every_place(&mut self, full: bool) {
        for hour in 0..24 {
            for minute in 0..60 {
                for_each_second(|second, frame, rate| {
                    if full {
                        (0..100).for_each(|subframe| self.position([hour, minute, second, frame, subframe, rate]));
                    } else {
                        let subframes = [0, 1, 50, 99];
                        subframes.iter().for_each(|it| self.position([hour, minute, second, frame, *it, rate]));
                    }
                });
            }
        }
    }
}

fn for_each_around(mut of: impl FnMut(u8, u8, u8, u8)) {
    for minute in &SIXTIETHS {
        for second in &SIXTIETHS {
            for frame in &FRAMES {
                HUNDREDTHS.iter().for_each(|subframe| of(*minute, *second, *frame, *subframe));
            }
        }
    }
}

/// Every second, with every frame of each rate.
fn for_each_second(mut of: impl FnMut(u8, u8, u8)) {
    for second in 0..60 {
        for rate in &RATES {
            (0..*rate).for_each(|frame| of(second, frame, *rate));
        }
    }
}

// ---- one comparison each

impl Header {
    fn format_read(&mut self, bytes: &[u8]) {
        let rust = match Format::read(&mut &bytes[..]) {
            Ok(format) => (0, format_number(format)),
            Err(error) => (refusal::of(&error), HELD as u8),
        };
        self.format_read.compare(rust, port::format_read(bytes), bytes.len(), || format!("{:?}", Bytes(bytes)));
    }

    fn format_encode(&mut self, number: u8) {
        let formats = [Format::SingleTrack, Format::Parallel, Format::Sequential];
        let rust = match formats.get(number as usize) {
            Some(format) => (0, format.encode()),
            None => (15, [HELD as u8; 2]),
        };
        self.format_encode.compare(rust, port::format_encode(number), number as usize, || format!("{}", number));
    }

    fn timing_read(&mut self, bytes: &[u8]) {
        let rust = match Timing::read(&mut &bytes[..]) {
            Ok(Timing::Metrical(ticks)) => (0, (ticks.as_int(), 0, 0)),
            Ok(Timing::Timecode(fps, subframe)) => (0, (0, fps.as_int(), subframe)),
            Err(error) => (refusal::of(&error), (HELD as u16, HELD as u8, HELD as u8)),
        };
        self.timing_read.compare(rust, port::timing_read(bytes), bytes.len(), || format!("{:?}", Bytes(bytes)));
    }

    fn timing_encode(&mut self, ticks: u16, rate: u8, subframe: u8) {
        let timing = if rate == 0 {
            u15::try_from(ticks).map(Timing::Metrical).ok_or(18)
        } else {
            Fps::from_int(rate).map(|fps| Timing::Timecode(fps, subframe)).ok_or(16)
        };
        let rust = match timing {
            Ok(timing) => (0, timing.encode()),
            Err(number) => (number, [HELD as u8; 2]),
        };
        let port = port::timing_encode(ticks, rate, subframe);
        self.timing_encode.compare(rust, port, ticks as usize, || {
            format!("ticks {}, rate {}, subframe {}", ticks, rate, subframe)
        });
    }

    /// A byte as a code and as a rate.
    fn rate(&mut self, byte: u8) {
        let (size, shown) = (byte as usize, || format!("{}", byte));
        let rust = Fps::from_code(u2::from(byte)).as_int();
        self.from_code.compare((0, rust), (0, port::fps_from_code(byte)), size, shown);

        let fps = Fps::from_int(byte);
        let rust = fps.map_or((16, HELD as u8), |fps| (0, fps.as_code().as_int()));
        self.as_code.compare(rust, port::fps_as_code(byte), size, shown);
        let rust = fps.map_or((16, HELD as u8), |fps| (0, fps.as_int()));
        self.from_int.compare(rust, port::fps_from_int(byte), size, shown);
        let rust = fps.map_or((16, HELD as u32), |fps| (0, fps.as_f32().to_bits()));
        self.as_f32.compare(rust, port::fps_as_f32(byte), size, shown);
    }

    fn read(&mut self, bytes: [u8; 5]) {
        let rust = match SmpteTime::read(&mut &bytes[..]) {
            Ok(time) => (0, six(time)),
            Err(error) => (refusal::of(&error), [HELD as u8; 6]),
        };
        self.read.compare(rust, port::smpte_read(bytes), size(&bytes), || format!("{:?}", Bytes(&bytes)));
    }

    /// What the Rust builds must hold what it was built of.
    fn new(&mut self, time: Six) {
        let rust = match rust_time(time) {
            Ok(built) => (0, six(built)),
            Err(number) => (number, time),
        };
        self.new.compare(rust, (port::smpte_new(time), time), size(&time), || format!("{:?}", time));
    }

    /// What the Rust cannot build the port does not write: 18, not 13.
    fn encode(&mut self, time: Six) {
        let rust = match rust_time(time) {
            Ok(time) => (0, time.encode()),
            Err(number) => (if number == 13 { 18 } else { number }, [HELD as u8; 5]),
        };
        self.encode.compare(rust, port::smpte_encode(time), size(&time), || format!("{:?}", time));
    }

    fn second_f32(&mut self, time: Six) {
        let rust = rust_time(time).map_or_else(|number| (number, HELD as u32), |time| (0, time.second_f32().to_bits()));
        self.second_f32.compare(rust, port::smpte_second_f32(time), size(&time), || format!("{:?}", time));
    }

    /// The Rust has no position: document 01 says what it is.
    fn position(&mut self, time: Six) {
        let [hour, minute, second, frame, subframe, rate] = time;
        let rust = match rust_time(time) {
            Ok(_) => {
                let seconds = 3600 * hour as u64 + 60 * minute as u64 + second as u64;
                (0, ((seconds * rate as u64 + frame as u64) * 100 + subframe as u64) as u32)
            }
            Err(number) => (number, HELD as u32),
        };
        self.position.compare(rust, port::smpte_position(time), size(&time), || format!("{:?}", time));
    }
}

fn format_number(format: Format) -> u8 {
    match format {
        Format::SingleTrack => 0,
        Format::Parallel => 1,
        Format::Sequential => 2,
    }
}

/// The time that the Rust builds, or the number of the refusal: it takes no number that is no rate.
fn rust_time([hour, minute, second, frame, subframe, rate]: Six) -> StdResult<SmpteTime, u8> {
    let fps = Fps::from_int(rate).ok_or(16)?;
    SmpteTime::new(hour, minute, second, frame, subframe, fps).ok_or(13)
}

fn six(time: SmpteTime) -> Six {
    [time.hour(), time.minute(), time.second(), time.frame(), time.subframe(), time.fps().as_int()]
}

/// Of two inputs that differ alike, the one with the smaller sum is shown.
fn size(fields: &[u8]) -> usize {
    fields.iter().map(|field| *field as usize).sum()
}
