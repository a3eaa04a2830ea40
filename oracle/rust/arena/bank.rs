//! Banks of tracks. The Rust has none: the port is compared with a model that is written here from document 02, Q-3,
//! and not from the port's code. What is printed as the Rust's answer is the model's; but a track of a bank is compared
//! with what the Rust's own reader gives of the track's bytes by themselves. Only listing takes rules, so that both
//! builds ask the same of all else: each takes half of the banks, with a sample of its own.

use super::{
    kinds, listing,
    padding::PADDED,
    port,
    random::Random,
    reads::{self, Reads, Rows, CELL, HOW},
    report::{Bytes, Entry},
    sizes::{Ranges, LARGEST, TRACKS, WIDTH},
    strings::Strings,
};
use crate::prelude::*;
use std::fmt;

/// How many tracks are made before banks are made of them, and how many banks before others are made.
const POOL: usize = 400;
const BANKS: usize = 10_000;
/// Bytes that ranges are taken from, and as many bytes behind a lent buffer as are looked at too.
const BYTES: usize = 70_000;
const BEHIND: usize = 8;
/// Numbers at the ends of 32 bits and around the places that a small bank has.
const EXTREMES: [u32; 14] = [
    0, 1, 7, 8, 0x10, 0x18, 0x20, 0x7FFF_FFFF, 0x8000_0000, 0xFFFF_0000, 0xFFFF_FFE8, 0xFFFF_FFF0, 0xFFFF_FFF8,
    0xFFFF_FFFF,
];
/// Indices that no bank has.
const FAR: [usize; 6] = [17, 255, 256, 1 << 32, usize::MAX - 1, usize::MAX];
/// What of the damaged banks is told apart, where the model accepts them.
const GOOD: [&str; 4] = ["no tracks", "16 tracks", "an empty track", "all tracks empty"];
/// The same of writing, and of what it is refused for.
const WRITTEN: [&str; 9] = [
    "banks of no tracks", "banks of 16 tracks", "of 65,536 bytes", "ranges that overlap", "a range twice",
    "a start beyond the end at length 0", "an end that wraps", "20 above 65,536 bytes with room for them",
    "20 for the room alone",
];

/// What the model gives, or the number by which it refuses.
type Answer<T> = core::result::Result<T, u8>;
/// A track's start and length.
type Range = (usize, usize);

struct Banks {
    random: Random,
    strings: Strings,
    reads: Reads,
    altered: Entry,
    counts: Entry,
    blocks: Entry,
    extremes: Entry,
    largest: Entry,
    damaged: Entry,
    track: Entry,
    list: Entry,
    none: Entry,
    write: Entry,
    back: Entry,
    /// Tracks to make banks of, and how many banks are still to be made of them.
    pool: Vec<Vec<u8>>,
    left: usize,
    /// The bytes that ranges are of; a lent buffer as it came, and as the port left it.
    bytes: Vec<u8>,
    lent: Vec<u8>,
    out: Vec<u8>,
}

pub fn run(mut random: Random, full: bool) -> Vec<Entry> {
    let mut it = Banks::new(Random::new(random.bits() ^ cfg!(feature = "strict") as u64));
    it.every_header();
    it.every_count();
    it.every_length();
    it.every_extreme();
    it.around_the_largest();
    (0..if full { 5_000_000 } else { 500_000 }).for_each(|_| it.one_damaged());
    (0..if full { 2_000_000 } else { 200_000 }).for_each(|_| it.one_written());
    vec![
        it.altered, it.counts, it.blocks, it.extremes, it.largest, it.damaged, it.track, it.list, it.none, it.write,
        it.back,
    ]
}

impl Banks {
    fn new(mut random: Random) -> Banks {
        let listed: &[u8] = if cfg!(feature = "strict") {
            &[0, 2, 3, 4, 5, 6, 7, 8, 9, 10, 11, 12, 13, 14, 20]
        } else {
            &[0, 4, 5, 6, 7, 8, 9, 10, 13, 14, 20]
        };
        let list = Entry::new("apk_bank_list", listed).of_kinds(&HOW[..2]).counting(&HOW[2..]);
        let lent: Vec<u8> = (0..LARGEST + 400).map(|i| (i * 37) as u8).collect();
        Banks {
            strings: Strings::new(&mut random),
            reads: Reads::new(),
            altered: Entry::new("apk_bank_read, every byte of a header altered", &[0, 24, 25, 26]),
            counts: Entry::new("apk_bank_read, every count from 0 to 300", &[0, 24, 25, 26]),
            blocks: Entry::new("apk_bank_read, blocks of 0 to 300 bytes", &[0, 24, 25, 26]),
            extremes: Entry::new("apk_bank_read, numbers at the ends of 32 bits", &[0, 26]),
            largest: Entry::new("apk_bank_read, around 65,536 bytes", &[0, 25, 26]),
            damaged: Entry::new("apk_bank_read, damaged banks", &[0, 24, 25, 26]).of_kinds(&GOOD),
            track: Entry::new("apk_bank_track", &[0, 24, 25, 26, 34]),
            // a padded length is rare in these tracks, and need not occur: the module of lists has some
            list: list.of_kinds(&kinds::KINDS).of_kinds(&PADDED[..1]).counting(&PADDED[1..]),
            none: Entry::new("apk_bank_list, of no bank or no such index", &[24, 25, 26, 34]),
            write: Entry::new("apk_bank_write", &[0, 19, 20, 25]).of_kinds(&WRITTEN),
            back: Entry::new("apk_bank_read, of what was written", &[0]),
            pool: Vec::new(),
            left: 0,
            bytes: (0..BYTES).map(|_| random.byte()).collect(),
            out: lent.clone(),
            lent,
            random,
        }
    }
}

// ---- what is asked: banks that are walked through

impl Banks {
    /// Of good banks every byte of the header, with every value.
    fn every_header(&mut self) {
        for lengths in [&[][..], &[0], &[5], &[3, 0, 4], &[0; 16], &[1; 16]].iter() {
            let tracks: Vec<&[u8]> = lengths.iter().map(|length| &self.bytes[..*length]).collect();
            let mut block = bank(&tracks);
            for at in 0..8 + 8 * tracks.len() {
                let byte = block[at];
                for value in 0..=255 {
                    block[at] = value;
                    read(&mut self.altered, &block);
                }
                block[at] = byte;
            }
        }
    }

    /// Every count, in blocks of empty tracks that are else right, with a wrong total, cut anywhere or with a few bytes
    /// more; and the same number in the count's other bytes.
    fn every_count(&mut self) {
        for count in 0..=300usize {
            let end = 8 + 8 * count;
            let mut block = numbers(&[count as u32, end as u32]);
            (0..count).for_each(|_| block.extend(numbers(&[end as u32, 0])));
            block.extend_from_slice(&[0; 9]);
            for length in 0..=end + 9 {
                for total in [end, length, length + 1, length.wrapping_sub(1), 0].iter() {
                    block[4..8].copy_from_slice(&(*total as u32).to_be_bytes());
                    read(&mut self.counts, &block[..length]);
                }
            }
            for shift in [8, 16, 24].iter() {
                block[..4].copy_from_slice(&((count as u32) << *shift).to_be_bytes());
                read(&mut self.counts, &block);
            }
        }
    }

    /// Every length from 0 to 300: zeros, ones, any bytes with a small count or not, and good banks that are cut there,
    /// with the total that is right for that length and without.
    fn every_length(&mut self) {
        for length in 0..=300 {
            read(&mut self.blocks, &vec![0; length]);
            read(&mut self.blocks, &vec![0xFF; length]);
            for _ in 0..100 {
                let mut block: Vec<u8> = (0..length).map(|_| self.random.byte()).collect();
                put(&mut block, 0, self.random.below(20) as u32);
                read(&mut self.blocks, &block);
                put(&mut block, 4, length as u32);
                read(&mut self.blocks, &block);
                let mut block = self.good();
                block.truncate(length);
                read(&mut self.blocks, &block);
                put(&mut block, 4, length as u32);
                read(&mut self.blocks, &block);
            }
            // a bank of just this length, of some tracks
            let most = (length.max(8) - 8) / 8;
            let count = self.random.below(most.min(TRACKS) + 1);
            if length >= 8 {
                let tracks = self.parted(length - 8 - 8 * count, count);
                read(&mut self.blocks, &tracks);
            }
        }
    }

    /// Two tracks, each of whose four numbers is each of the extremes; document 02's example among them.
    fn every_extreme(&mut self) {
        for offset in EXTREMES.iter() {
            for first in EXTREMES.iter() {
                for next in EXTREMES.iter() {
                    for last in EXTREMES.iter() {
                        let mut block = numbers(&[2, 0x20, *offset, *first, *next, *last]);
                        block.extend_from_slice(&[0; 8]);
                        read(&mut self.extremes, &block);
                        block.truncate(0x18);
                        put(&mut block, 4, 0x18);
                        read(&mut self.extremes, &block);
                    }
                }
            }
        }
        let example = numbers(&[2, 0x18, 0x18, 0xFFFF_FFE8, 0, 0x18]);
        assert!(tracks(&example) == Err(26), "the model is wrong of document 02's example");
        read(&mut self.extremes, &example);
    }

    /// Banks of 65,530 to 65,540 bytes, of one track, of some and of 16, right and wrong by one.
    fn around_the_largest(&mut self) {
        for length in LARGEST - 6..=LARGEST + 4 {
            for count in [1, 2, 3, TRACKS].iter() {
                let mut block = self.parted(length - 8 - 8 * count, *count);
                read(&mut self.largest, &block);
                self.asked(&block);
                for at in [0, 4, 8, 12, 8 * count, 8 * count + 4].iter() {
                    for by in [1, 16, 0xFFFF_FFFF].iter() {
                        add(&mut block, *at, *by);
                        read(&mut self.largest, &block);
                        add(&mut block, *at, 0u32.wrapping_sub(*by));
                    }
                }
                block.push(0);
                read(&mut self.largest, &block);
            }
            read(&mut self.largest, &vec![0; length]);
        }
    }

    /// A bank of so many tracks with so many bytes in all, cut anywhere.
    fn parted(&mut self, length: usize, count: usize) -> Vec<u8> {
        let mut cuts: Vec<usize> = (1..count).map(|_| self.random.below(length + 1)).collect();
        cuts.sort_unstable();
        cuts.insert(0, 0);
        cuts.push(length);
        let tracks: Vec<&[u8]> = cuts.windows(2).map(|cut| &self.bytes[cut[0]..cut[1]]).collect();
        bank(if count == 0 { &[] } else { &tracks })
    }
}

// ---- what is asked: damaged banks

impl Banks {
    /// A good bank that is damaged in none to three places, and all that it can be asked.
    fn one_damaged(&mut self) {
        let mut block = self.good();
        for _ in 0..self.random.of(&[0, 1, 1, 1, 2, 3]) {
            self.damage(&mut block);
        }
        if let Some(found) = read(&mut self.damaged, &block) {
            let empty = found.iter().filter(|track| track.1 == 0).count();
            let seen = [found.is_empty(), found.len() == TRACKS, empty > 0, empty > 0 && empty == found.len()];
            (0..seen.len()).filter(|i| seen[*i]).for_each(|i| self.damaged.of_kind(i));
        }
        self.asked(&block);
    }

    /// A bank of any number of tracks of the pool, of which many are empty.
    fn good(&mut self) -> Vec<u8> {
        if self.left == 0 {
            self.left = BANKS;
            self.pool = (0..POOL).map(|_| self.made()).collect();
        }
        self.left -= 1;
        let few = self.random.below(5);
        let any = self.random.below(TRACKS + 1);
        let count = self.random.of(&[few, few, any, TRACKS]);
        let (pool, random) = (&self.pool, &mut self.random);
        let tracks: Vec<&[u8]> = (0..count).map(|_| &pool[random.below(POOL)][..]).collect();
        bank(&tracks)
    }

    /// A track: none, a few bytes, some events that are nearly right, any string of the other modules, or the bytes of
    /// around 128 events.
    fn made(&mut self) -> Vec<u8> {
        let random = &mut self.random;
        let mut bytes = Vec::new();
        match random.below(20) {
            0..=4 => {}
            5..=7 => (0..=random.below(8)).for_each(|_| bytes.push(random.byte())),
            8..=15 => {
                let mut running = 0;
                (0..=random.below(8)).for_each(|_| running = listing::event(random, running, &mut bytes));
                listing::spoil(random, &mut bytes);
            }
            16..=18 => bytes.extend_from_slice(self.strings.next(random).0),
            _ => {
                bytes.extend_from_slice(&[0, 0xC0, 5]);
                (0..125 + random.below(6)).for_each(|_| bytes.extend_from_slice(&[0, random.byte() & 0x7F]));
            }
        }
        bytes
    }

    /// Another number in the header, another byte, bytes cut off or more of them, a gap, two entries that change
    /// places, a boundary that is moved; or nothing.
    fn damage(&mut self, block: &mut Vec<u8>) {
        let count = entries(block);
        let random = &mut self.random;
        match random.below(10) {
            0 | 1 if block.len() >= 8 => {
                let at = 4 * random.below(2 + 2 * count);
                let (held, other) = (get(block, at), get(block, 4 * random.below(2 + 2 * count)));
                let near = held.wrapping_add(random.of(&[1, 2, 8, 256, 0xFFFF_FFFF, 0xFFFF_FFFE, 0xFFFF_FFF8]));
                let (wide, extreme) = (random.wide(), random.of(&EXTREMES));
                put(block, at, random.of(&[near, near, other, wide, extreme]));
            }
            2 if !block.is_empty() => {
                let end = random.of(&[block.len(), 8 + 8 * count]);
                let at = random.below(end.min(block.len()));
                block[at] = random.byte();
            }
            3 => {
                let cut = random.below(block.len().min(20) + 1);
                let any = random.below(block.len() + 1);
                block.truncate(random.of(&[block.len() - cut, block.len() - cut, any]));
                self.total(block);
            }
            4 => {
                (0..=random.below(20)).for_each(|_| block.push(random.byte()));
                self.total(block);
            }
            5 => self.gap(block, count),
            6 if count > 1 => {
                let (a, b) = (8 + 8 * random.below(count), 8 + 8 * random.below(count));
                (0..8).for_each(|i| block.swap(a + i, b + i));
            }
            7 | 8 if count > 0 => self.boundaries(block, count),
            _ => {}
        }
    }

    /// In half of the cases the total is made right again.
    fn total(&mut self, block: &mut Vec<u8>) {
        if self.random.below(2) == 0 {
            let length = block.len() as u32;
            put(block, 4, length);
        }
    }

    /// Some bytes before a track or behind the last, with every number behind them right: a gap, which no track has.
    fn gap(&mut self, block: &mut Vec<u8>, count: usize) {
        let more = 1 + self.random.below(4);
        let before = self.random.below(count + 1);
        let place = if before < count { get(block, 8 + 8 * before) as usize } else { block.len() };
        let place = place.min(block.len());
        (0..more).for_each(|_| block.insert(place, 0));
        (before..count).for_each(|index| add(block, 8 + 8 * index, more as u32));
        let length = block.len() as u32;
        put(block, 4, length);
    }

    /// Makes a track longer and another behind it shorter by as many bytes, counted in 32 bits, and moves the offsets
    /// in between. Where the other has so many bytes the bank stays one; else its numbers agree but for a wrap.
    fn boundaries(&mut self, block: &mut Vec<u8>, count: usize) {
        let (a, b) = (self.random.below(count), self.random.below(count));
        let (near, any) = (self.random.below(6) as u32, self.random.wide());
        let held = get(block, 12 + 8 * a.max(b));
        let by = self.random.of(&[near, near, held, held.wrapping_add(1), any, 0u32.wrapping_sub(near)]);
        add(block, 12 + 8 * a.min(b), by);
        (a.min(b) + 1..=a.max(b)).for_each(|index| add(block, 8 + 8 * index, by));
        add(block, 12 + 8 * a.max(b), 0u32.wrapping_sub(by));
    }

    /// The tracks of a block by their indices, those that are there and some that are not; and one of them listed.
    fn asked(&mut self, block: &[u8]) {
        let found = tracks(block);
        let count = found.as_ref().map_or(1, |found| found.len());
        for index in (0..=count + 1).chain(FAR.iter().copied()) {
            let model = one(&found, index);
            let said = model.map(|(start, length)| (Some(start), Some(length)));
            let port = port::bank_track(block, index);
            let model = (said.err().unwrap_or(0), said.unwrap_or((None, None)));
            self.track.compare(model, port, block.len(), || format!("{}, index {}", told(block), index));
        }
        let (near, far) = (self.random.below(count + 1), self.random.of(&FAR));
        let index = if self.random.below(8) > 0 { near } else { far };
        self.listed(block, index, one(&found, index));
    }

    /// A track as the Rust reads its bytes by themselves, from their first on and from no running status; of no bank,
    /// and of no such index, the number, and every lent cell and value as it came.
    fn listed(&mut self, block: &[u8], index: usize, track: Answer<Range>) {
        let random = &mut self.random;
        match track {
            Ok((start, length)) => {
                let bytes = &block[start..start + length];
                let port = |rows: &mut [u64]| port::bank_list(block, index, rows);
                self.reads.compare_by(&mut self.list, bytes, 0, 0, |need| reads::room(random, need), port);
            }
            Err(number) => {
                let lent = [CELL; 3 * WIDTH];
                let (mut cells, room) = (lent, random.below(2 * WIDTH + 1));
                let port = port::bank_list(block, index, &mut cells[..room]);
                let model: (u8, (port::ListRead, Rows)) = (number, ((None, None, 0xFF, None), Rows(&lent)));
                let port = (port.0, (port.1, Rows(&cells)));
                self.none.compare(model, port, block.len(), || format!("{}, index {}", told(block), index));
            }
        }
    }
}

// ---- what is asked: banks that are written

impl Banks {
    /// Ranges of the bytes, right and wrong, written into rooms around what they need; what was written is read back.
    fn one_written(&mut self) {
        let length = match self.random.below(8) {
            0 => BYTES,
            1 => self.random.below(4),
            _ => self.random.below(200),
        };
        let few = self.random.below(5);
        let any = self.random.below(TRACKS + 2);
        let huge = self.random.of(&[TRACKS + 1, 18, 32, 33, 255, 256, 272, 1 << 32, (1 << 60) + 1, usize::MAX]);
        let count = self.random.of(&[few, few, few, any, any, any, TRACKS, huge]);
        let mut ranges: Ranges = [0; 2 * TRACKS];
        for index in 0..TRACKS {
            // those past the count are nonsense, and mostly wrong
            let (start, length) = if index < count { self.range(&ranges, index, length) } else { self.nonsense() };
            ranges[2 * index] = start;
            ranges[2 * index + 1] = length;
        }
        if length == BYTES && count > 0 && count <= TRACKS && self.random.below(4) > 0 {
            self.fill(&mut ranges, count);
        }
        let need = length_of(&ranges, count).min(LARGEST as u128 + 50) as usize;
        let (more, less) = (1 + self.random.below(8), self.random.below(need + 1));
        for room in [need, need.saturating_sub(1), need + more, less].iter() {
            self.written(length, &ranges, count, *room);
        }
    }

    /// A range that is inside so many bytes, or one of thirty that is not.
    fn range(&mut self, ranges: &Ranges, index: usize, length: usize) -> (u64, u64) {
        let random = &mut self.random;
        let start = random.below(length + 1);
        let (rest, few) = (random.below(length - start + 1), random.below((length - start).min(9) + 1));
        let before = if index > 0 { random.below(index) } else { 0 };
        let (start, length) = match random.below(90) {
            0 => (start, length - start + 1),
            1 => (length + 1, 0),
            2 => return (random.bits(), random.bits() >> random.below(64)),
            3..=15 => (start, 0),
            16..=20 => (length, 0),
            21..=25 => (start, length - start),
            26..=35 if index > 0 => return (ranges[2 * before], ranges[2 * before + 1]),
            36..=50 if length < 1000 => (start, rest),
            _ => (start, few),
        };
        (start as u64, length as u64)
    }

    /// A range that is hardly any: outside the bytes, or with an end that wraps.
    fn nonsense(&mut self) -> (u64, u64) {
        let (start, small) = (self.random.bits(), self.random.below(100) as u64);
        let wrapped = 0u64.wrapping_sub(start);
        self.random.of(&[(start, wrapped), (u64::MAX, 1), (u64::MAX, u64::MAX), (small, u64::MAX - 1), (0, 0)])
    }

    /// Makes ranges of all bytes such that the bank has around 65,536, if they were right: the first are made long.
    fn fill(&mut self, ranges: &mut Ranges, count: usize) {
        let wanted = LARGEST + 4 - self.random.below(10);
        let others: u64 = (1..count).map(|index| ranges[2 * index + 1]).fold(0, u64::saturating_add);
        let rest = (wanted - 8 - 8 * count) as u64;
        if others <= rest {
            let length = rest - others;
            ranges[0] = self.random.below(BYTES + 1 - length as usize) as u64;
            ranges[1] = length;
        }
    }

    /// One room. The port's buffer is looked at as far as its room, and somewhat behind it.
    fn written(&mut self, length: usize, ranges: &Ranges, count: usize, room: usize) {
        let bytes = &self.bytes[..length];
        let model = write(bytes, ranges, count, room);
        let number = model.as_ref().err().copied().unwrap_or(0);
        let whole = room + BEHIND;
        let mut wanted = self.lent[..whole].to_vec();
        if let Ok(block) = &model {
            wanted[..block.len()].copy_from_slice(block);
        }
        let port = port::bank_write(bytes, ranges, count, &mut self.out[..room]);
        let asked = || format!("{} ranges {:X?} of {} bytes in {}", count, &ranges[..2 * count.min(4)], length, room);
        let differs = self.write.compare(
            (number, (model.as_ref().ok().map(Vec::len), Bytes(&wanted))),
            (port.0, (port.1, Bytes(&self.out[..whole]))),
            count.min(99) + room,
            asked,
        );
        let seen = seen(length, ranges, count, room, number);
        (0..seen.len()).filter(|i| seen[*i]).for_each(|i| self.write.of_kind(i));
        if let (Ok(block), false) = (&model, differs) {
            self.read_back(ranges, count, block.len());
        }
        self.out[..whole].copy_from_slice(&self.lent[..whole]);
    }

    /// What was written, read as a bank: so many tracks, each with the bytes of its range.
    fn read_back(&mut self, ranges: &Ranges, count: usize, total: usize) {
        let block = &self.out[..total];
        let mut cells = [CELL; 2 * TRACKS];
        let (answer, found) = port::bank_read(block, &mut cells);
        let track = |index: usize, cells: &Ranges, bytes: &[u8]| {
            let start = cells[2 * index] as usize;
            bytes.get(start..start.saturating_add(cells[2 * index + 1] as usize)).map(|track| track.to_vec())
        };
        let wanted: Vec<_> = (0..count).map(|index| track(index, ranges, &self.bytes)).collect();
        let held: Vec<_> = (0..found.unwrap_or(0).min(TRACKS)).map(|index| track(index, &cells, block)).collect();
        self.back.compare((0, (Some(count), wanted)), (answer, (found, held)), total, || told(block));
    }
}

/// Which of `WRITTEN` a call shows.
fn seen(length: usize, ranges: &Ranges, count: usize, room: usize, number: u8) -> [bool; 9] {
    let used: Vec<(u64, u64)> = (0..count.min(TRACKS)).map(|i| (ranges[2 * i], ranges[2 * i + 1])).collect();
    let need = length_of(ranges, count);
    let overlap = |a: &(u64, u64), b: &(u64, u64)| a != b && a.0 < b.0 + b.1 && b.0 < a.0 + a.1;
    let accepted = number == 0;
    [
        accepted && count == 0,
        accepted && count == TRACKS,
        accepted && need == LARGEST as u128,
        accepted && used.windows(2).any(|two| overlap(&two[0], &two[1])),
        accepted && used.windows(2).any(|two| two[0] == two[1] && two[0].1 > 0),
        number == 19 && used.iter().any(|range| range.0 > length as u64 && range.1 == 0),
        number == 19 && used.iter().any(|range| range.0.checked_add(range.1).is_none()),
        number == 20 && need <= room as u128,
        number == 20 && need <= LARGEST as u128,
    ]
}

// ---- document 02, Q-3

/// Numbers of 32 bits as a bank has them, the highest byte first.
fn numbers(all: &[u32]) -> Vec<u8> {
    all.iter().flat_map(|number| number.to_be_bytes().to_vec()).collect()
}

/// The bank of tracks: their count, the total, an offset and a length for each, and then all of them.
fn bank(tracks: &[&[u8]]) -> Vec<u8> {
    let first = 8 + 8 * tracks.len();
    let total = first + tracks.iter().map(|track| track.len()).sum::<usize>();
    let mut block = numbers(&[tracks.len() as u32, total as u32]);
    for (index, track) in tracks.iter().enumerate() {
        let before: usize = tracks[..index].iter().map(|track| track.len()).sum();
        block.extend(numbers(&[(first + before) as u32, track.len() as u32]));
    }
    tracks.iter().for_each(|track| block.extend_from_slice(track));
    block
}

/// Where the tracks of a block stand, or the number by which it is refused. What is behind the entries is taken apart
/// track by track, so that nothing is summed: a track that is longer than what is left does not end at the total.
fn tracks(block: &[u8]) -> Answer<Vec<Range>> {
    let numbers: Vec<u32> = block.chunks_exact(4).map(|four| get(four, 0)).collect();
    let count = *numbers.first().ok_or(24)? as usize;
    if count > 16 {
        return Err(25);
    }
    if block.len() < 8 + 8 * count {
        return Err(24);
    }
    if block.len() > 65_536 || numbers[1] as usize != block.len() {
        return Err(26);
    }
    let mut left = &block[8 + 8 * count..];
    let mut found = Vec::new();
    for entry in numbers[2..2 + 2 * count].chunks(2) {
        let (offset, length) = (entry[0] as usize, entry[1] as usize);
        if offset != block.len() - left.len() || length > left.len() {
            return Err(26);
        }
        found.push((offset, length));
        left = &left[length..];
    }
    if left.is_empty() { Ok(found) } else { Err(26) }
}

/// Where the track of an index stands: the bank's refusals, then 34.
fn one(found: &Answer<Vec<Range>>, index: usize) -> Answer<Range> {
    found.as_ref().map_err(|number| *number)?.get(index).copied().ok_or(34)
}

/// How many bytes the bank of so many ranges has, as a whole number; of too many ranges those that there are.
fn length_of(ranges: &Ranges, count: usize) -> u128 {
    let count = count.min(TRACKS);
    8 + 8 * count as u128 + (0..count).map(|index| ranges[2 * index + 1] as u128).sum::<u128>()
}

/// The bank of so many ranges, or the number: 25, 19, then 20 above 65,536 bytes or the room.
fn write(bytes: &[u8], ranges: &Ranges, count: usize, room: usize) -> Answer<Vec<u8>> {
    if count > 16 {
        return Err(25);
    }
    let mut tracks = Vec::new();
    for range in ranges[..2 * count].chunks(2) {
        if range[0] as u128 + range[1] as u128 > bytes.len() as u128 {
            return Err(19);
        }
        tracks.push(&bytes[range[0] as usize..(range[0] + range[1]) as usize]);
    }
    if length_of(ranges, count) > (room as u128).min(65_536) {
        return Err(20);
    }
    Ok(bank(&tracks))
}

// ---- one comparison, and what is shown of it

/// Reads a block: the answer, the count, and every cell that was lent; those past the count are to be 0. Answers where
/// the tracks stand, if it is a bank.
fn read(entry: &mut Entry, block: &[u8]) -> Option<Vec<Range>> {
    let model = tracks(block);
    let lent = [CELL; 2 * TRACKS];
    let (mut wanted, mut cells) = (lent, lent);
    let (answer, count) = port::bank_read(block, &mut cells);
    if let Ok(found) = &model {
        wanted = [0; 2 * TRACKS];
        for (index, track) in found.iter().enumerate() {
            wanted[2 * index] = track.0 as u64;
            wanted[2 * index + 1] = track.1 as u64;
        }
    }
    let number = model.as_ref().err().copied().unwrap_or(0);
    let said = model.as_ref().ok().map(Vec::len);
    let (model_said, port_said) = ((number, (said, Cells(&wanted))), (answer, (count, Cells(&cells))));
    entry.compare(model_said, port_said, block.len(), || told(block));
    model.ok()
}

/// The number of four bytes at a place.
fn get(block: &[u8], at: usize) -> u32 {
    u32::from_be_bytes([block[at], block[at + 1], block[at + 2], block[at + 3]])
}

/// Puts a number there, as much of it as there is room for.
fn put(block: &mut [u8], at: usize, number: u32) {
    let four = block.iter_mut().skip(at).take(4);
    four.zip(&number.to_be_bytes()).for_each(|(byte, new)| *byte = *new);
}

/// Adds to the number there, in 32 bits.
fn add(block: &mut [u8], at: usize, by: u32) {
    let sum = get(block, at).wrapping_add(by);
    put(block, at, sum);
}

/// How many entries a block has, as far as its count and its length let it have any.
fn entries(block: &[u8]) -> usize {
    let count = if block.len() < 8 { 0 } else { get(block, 0) as usize };
    count.min(TRACKS).min(block.len().saturating_sub(8) / 8)
}

fn told(block: &[u8]) -> String {
    format!("{:?}", Bytes(block))
}

/// Ranges as they are shown: all cells up to the last that is neither 0 nor as it came.
#[derive(PartialEq)]
struct Cells<'a>(&'a Ranges);

impl fmt::Debug for Cells<'_> {
    fn fmt(&self, f: &mut fmt::Formatter) -> fmt::Result {
        let end = self.0.iter().rposition(|cell| *cell != CELL && *cell != 0).map_or(2, |last| last + 1);
        write!(f, "cells {:X?}", &self.0[..end])
    }
}
