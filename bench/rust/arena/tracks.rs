//! Tracks to measure with: of one kind each, and mixed; and those of a folder of Standard MIDI Files.

use crate::prelude::*;

pub struct Track {
    pub name: String,
    pub bytes: Vec<u8>,
}

/// A sample that a seed fixes (splitmix64).
struct Random(u64);

impl Random {
    fn below(&mut self, end: u64) -> u64 {
        self.0 = self.0.wrapping_add(0x9E37_79B9_7F4A_7C15);
        let mut x = self.0;
        x = (x ^ (x >> 30)).wrapping_mul(0xBF58_476D_1CE4_E5B9);
        x = (x ^ (x >> 27)).wrapping_mul(0x94D0_49BB_1331_11EB);
        (x ^ (x >> 31)) % end
    }
}

fn number(out: &mut Vec<u8>, n: u64) {
    for group in (0..4).rev() {
        let rest = n >> (7 * group);
        if rest > 0 || group == 0 {
            out.push((rest & 0x7F) as u8 | if group > 0 { 0x80 } else { 0 });
        }
    }
}

fn payload(out: &mut Vec<u8>, random: &mut Random, n: u64) {
    number(out, n);
    (0..n).for_each(|_| out.push(random.below(128) as u8));
}

/// A chord on or off, a controller, a bend: some with a status byte, most under running status.
fn channel(out: &mut Vec<u8>, random: &mut Random, running: &mut u8) {
    let delta = if random.below(8) == 0 { 128 + random.below(800) } else { random.below(128) };
    number(out, delta);
    let status = match random.below(16) {
        0 => 0xC0 | random.below(16) as u8,
        1 => 0xE0 | random.below(16) as u8,
        2 | 3 => 0xB0 | random.below(4) as u8,
        _ => 0x90 | random.below(2) as u8,
    };
    if status != *running {
        out.push(status);
        *running = status;
    }
    out.push(random.below(128) as u8);
    if status >> 4 != 0xC {
        out.push(random.below(128) as u8);
    }
}

fn meta(out: &mut Vec<u8>, random: &mut Random) {
    number(out, random.below(96));
    out.push(0xFF);
    match random.below(6) {
        0 => out.extend_from_slice(&[0x51, 3, 0x07, 0xA1, 0x20]),
        1 => out.extend_from_slice(&[0x58, 4, 4, 2, 24, 8]),
        2 => out.extend_from_slice(&[0x59, 2, 0xFE, 1]),
        3 => out.extend_from_slice(&[0x54, 5, 0x61, 0, 0, 0x1D, 0]),
        _ => {
            out.push(1 + random.below(9) as u8);
            let n = random.below(40);
            payload(out, random, n);
        }
    }
}

fn system(out: &mut Vec<u8>, random: &mut Random) {
    number(out, random.below(96));
    out.push(0xF0);
    let n = 200 + random.below(1800);
    payload(out, random, n);
}

fn generated(name: &str, size: usize, each: impl Fn(&mut Vec<u8>, &mut Random, &mut u8)) -> Track {
    let (mut bytes, mut random, mut running) = (Vec::new(), Random(size as u64), 0);
    while bytes.len() < size {
        each(&mut bytes, &mut random, &mut running);
    }
    Track { name: name.to_string(), bytes }
}

/// The four kinds of tracks, of about so many bytes.
pub fn of_size(size: usize) -> Vec<Track> {
    vec![
        generated("channel messages", size, channel),
        generated("metas and text", size, |out, random, _| meta(out, random)),
        generated("long SysEx", size, |out, random, _| system(out, random)),
        mixed("mixed", size),
    ]
}

/// Mostly channel messages, as music has them.
pub fn mixed(name: &str, size: usize) -> Track {
    generated(name, size, |out, random, running| match random.below(20) {
        0 => {
            *running = 0;
            meta(out, random)
        }
        1 if random.below(20) == 0 => {
            *running = 0;
            system(out, random)
        }
        _ => channel(out, random, running),
    })
}

/// The tracks of the Standard MIDI Files of a folder.
pub fn of_folder(folder: &str) -> Vec<Track> {
    let mut files: Vec<_> = std::fs::read_dir(folder).expect(folder).filter_map(|e| e.ok()).map(|e| e.path()).collect();
    files.sort();
    let mut tracks = Vec::new();
    for file in files {
        let bytes = std::fs::read(&file).unwrap_or_default();
        let mut at = 0;
        while at + 8 <= bytes.len() {
            let n = u32::from_be_bytes([bytes[at + 4], bytes[at + 5], bytes[at + 6], bytes[at + 7]]) as usize;
            let end = (at + 8 + n).min(bytes.len());
            if &bytes[at..at + 4] == b"MTrk" {
                tracks.push(Track { name: file.display().to_string(), bytes: bytes[at + 8..end].to_vec() });
            }
            at = end;
        }
    }
    tracks
}
