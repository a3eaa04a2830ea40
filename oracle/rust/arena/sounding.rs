//! Notes still sounding. The Rust has no such table: the port is compared with a model that is written here from
//! document 02, Q-1, and not from the port's code. What is printed as the Rust's answer is the model's. The entries take
//! no rules, so that both builds ask the same of them: each takes half of the lists, with a sample of its own. The
//! program's text is compared with what the Rust's own reader gives, leniently, as the program reads.

use super::{
    kinds, listing, port,
    random::Random,
    refusal,
    report::{Bytes, Entry},
    sizes::{Row, Table, CAPACITY, CHANNELS, KEYS, WIDTH},
};
use crate::{
    event::{MidiMessage, TrackEvent, TrackEventKind},
    prelude::*,
};
use std::{collections::BTreeMap, fmt};

/// So many lists, at most, are put into a table before another is taken.
const TURNS: usize = 39;
/// As many cells stand behind a list's rows, which are no event's.
const MORE: usize = 11;
/// What those hold, and a lent cell before a call.
const CELL: u64 = u64::MAX - 0x5A5A;
/// A fresh table.
const FRESH: Table = [0; CHANNELS * KEYS];
/// The numbers of all kinds; notes come often.
const KINDS: [u64; 44] = [
    8, 8, 8, 8, 8, 8, 9, 9, 9, 9, 9, 9, 9, 9, 9, 9, 10, 10, 11, 12, 13, 14, 0xF0, 0xF7, 0x100, 0x101, 0x102, 0x103,
    0x104, 0x105, 0x106, 0x107, 0x108, 0x109, 0x120, 0x121, 0x12F, 0x151, 0x154, 0x158, 0x159, 0x17F, 0x200, 0x200,
];
/// What a list is refused for, by 18 but for the last, which is 21.
const WRONGS: [&str; 14] = [
    "for a delta", "for a channel", "for a key", "for a velocity", "for a controller", "for a value", "for a program",
    "for a bend", "for a meta channel", "for a port", "for a tempo", "for a row that is no event's",
    "for missing cells", "for the count",
];
const MISSING: usize = 12;
const COUNT: usize = 13;
/// What of an accepted list is told apart.
const TAKEN: [&str; 4] = ["empty lists", "full lists", "SMPTE times outside their ranges", "payloads that are nowhere"];
/// Tables by how many keys sound.
const TABLES: [&str; 5] = ["none sounds", "1 to 127 sound", "128 to 2,047 sound", "all sound", "an entry above 127"];
const LISTS: [&str; 3] = ["no row", "1 to 127 rows", "128 rows"];
const SILENCED: [&str; 2] = ["by one list", "by more"];

struct Sounding {
    random: Random,
    after: Entry,
    joined: Entry,
    counts: Entry,
    silence: Entry,
    silenced: Entry,
    /// How many lists were put into a table so far.
    lists: usize,
    /// The cells of a list, made anew in the same place.
    cells: Vec<u64>,
    /// The events of the lists that were put into a table in turn.
    events: Vec<Row>,
}

pub fn run(mut random: Random, full: bool) -> Vec<Entry> {
    let strict = cfg!(feature = "strict");
    let mut it = Sounding::new(Random::new(random.bits() ^ strict as u64));
    while it.lists < if full { 5_000_000 } else { 500_000 } {
        it.turns();
    }
    let mut entries = vec![it.after, it.joined, it.counts, it.silence, it.silenced];
    if !strict {
        entries.push(program(&mut random, if full { 2000 } else { 100 }));
    }
    entries
}

impl Sounding {
    fn new(random: Random) -> Sounding {
        Sounding {
            random,
            after: Entry::new("apk_sounding_after", &[0, 18, 21]).of_kinds(&WRONGS).of_kinds(&TAKEN),
            joined: Entry::new("apk_sounding_after, of lists in turn, against their joined events", &[0]),
            counts: Entry::new("apk_sounding_counts", &[0]).of_kinds(&TABLES),
            silence: Entry::new("apk_sounding_silence", &[0, 18, 20]).of_kinds(&LISTS),
            silenced: Entry::new("apk_sounding_silence, list by list", &[0]).of_kinds(&SILENCED),
            lists: 0,
            cells: Vec::new(),
            events: Vec::new(),
        }
    }
}

// ---- what is asked

impl Sounding {
    /// Lists in turn, from a table on; after each all that the table can be asked.
    fn turns(&mut self) {
        let start = self.table();
        let mut table = start;
        self.events.clear();
        for _ in 0..=self.random.below(TURNS) {
            let count = self.list();
            self.put(&mut table, count);
            self.counted(&table);
            self.asked(&table);
            self.lists += 1;
        }
        let (wanted, events) = (left(&start, self.events.iter().map(|row| &row[..])), self.events.len());
        let parted = || parted(&wanted, &table) + &told(&start, &[], events);
        self.joined.compare((0, Held(&wanted)), (0, Held(&table)), events, parted);
        self.list_by_list(&table);
    }

    /// A fresh table, one of any bytes, one where all keys sound, one of entries above 127 and 0, or one of a few keys.
    fn table(&mut self) -> Table {
        let mut table = FRESH;
        let random = &mut self.random;
        match random.below(6) {
            0 | 1 => {}
            2 => table.iter_mut().for_each(|entry| *entry = random.bits() as u8),
            3 => table.iter_mut().for_each(|entry| *entry = 1 + random.below(127) as u8),
            4 => table.iter_mut().for_each(|entry| *entry = random.of(&[0, 128, 129, 254, 255])),
            _ => (0..random.below(300)).for_each(|_| table[random.below(CHANNELS * KEYS)] = random.bits() as u8),
        }
        table
    }

    /// The cells of a list that is right; answers its count.
    fn list(&mut self) -> usize {
        let count = match self.random.below(4) {
            0 => self.random.of(&[0, 1, 2, CAPACITY - 1, CAPACITY]),
            1 => self.random.below(CAPACITY + 1),
            _ => self.random.below(12),
        };
        self.cells.clear();
        for _ in 0..count {
            let kind = self.random.of(&KINDS);
            let row = self.row(kind);
            self.cells.extend_from_slice(&row);
        }
        self.cells.extend_from_slice(&[CELL; MORE]);
        count
    }

    /// A row of a kind with its fields within their widths, an SMPTE time within bytes. What the kind does not use, and
    /// where its payload stands, is anything. Half of the notes are for a few keys.
    fn row(&mut self, kind: u64) -> Row {
        let random = &mut self.random;
        let mut row = [0; WIDTH];
        row.iter_mut().for_each(|cell| *cell = random.bits() >> random.below(64));
        row[0] = random.of(&[0, 0x7F, 0x0FFF_FFFF, row[0] % (1 << 28)]);
        row[1] = kind;
        for (cell, end) in row[2..].iter_mut().zip(ends(kind)) {
            *cell = random.of(&[0, *end - 1, *cell % *end, *cell % *end]);
        }
        match kind {
            8 | 9 if random.below(2) == 0 => {
                row[2] %= 2;
                row[3] = 60 + row[3] % 4;
            }
            0x154 => row[7] = random.of(&[24, 25, 29, 30]),
            _ => {}
        }
        row
    }

    /// Makes something wrong of a list; answers its count, and what is wrong.
    fn spoil(&mut self, count: usize) -> (usize, Option<usize>) {
        let wrong = self.random.below(WRONGS.len());
        if count == 0 {
            let row = self.row(9);
            self.cells.splice(0..0, row.iter().copied());
        }
        let count = count.max(1);
        let at = WIDTH * self.random.below(count);
        match wrong {
            MISSING => self.cells.truncate(self.random.below(WIDTH * count)),
            COUNT => {
                // what is wrong of a row comes after it
                let other = self.random.below(MISSING);
                let row = self.spoiled(other);
                self.cells[at..at + WIDTH].copy_from_slice(&row);
                let over = self.random.of(&[129, 130, 255, 256, 257, 1 << 32, (1 << 60) + 3, usize::MAX]);
                return (over, Some(wrong));
            }
            _ => {
                let row = self.spoiled(wrong);
                self.cells[at..at + WIDTH].copy_from_slice(&row);
            }
        }
        (count, Some(wrong))
    }

    /// A row with a number above its width, or that is no event's.
    fn spoiled(&mut self, wrong: usize) -> Row {
        let any = self.random.of(&KINDS);
        let message = 8 + self.random.below(7) as u64;
        let note = 8 + self.random.below(3) as u64;
        // a kind, one of its cells, and the first number that this may not hold
        let (kind, cell, end) = match wrong {
            0 => (any, 0, 1 << 28),
            1 => (message, 2, 16),
            2 => (note, 3, 128),
            3 => self.random.of(&[(note, 4, 128), (13, 3, 128)]),
            4 => (11, 3, 128),
            5 => (11, 4, 128),
            6 => (12, 3, 128),
            7 => (14, 3, 1 << 14),
            8 => (0x120, 2, 16),
            9 => (0x121, 2, 128),
            10 => (0x151, 2, 1 << 24),
            _ => return self.no_event(),
        };
        let mut row = self.row(kind);
        row[cell] = self.above(end);
        row
    }

    /// A number that is not below an end: the end, and those around the integers that hold a field.
    fn above(&mut self, end: u64) -> u64 {
        self.random.of(&[end, end + 1, 255, 256, 65_535, 65_536, 0xFFFF_FFFF, 1 << 32, u64::MAX]).max(end)
    }

    /// A row that is no event's: of no kind, of a field that is no byte, of a rate that is none, of a track number
    /// above 16 bits.
    fn no_event(&mut self) -> Row {
        let field = 2 + self.random.below(5);
        let any = [(0, 1), (0x154, field), (0x154, 7), (0x158, field.min(5)), (0x159, 2), (0x200, 2)];
        let (kind, cell) = self.random.of(&any);
        let mut row = self.row(kind);
        row[cell] = match (kind, cell) {
            (0, _) => self.random.of(&[0, 7, 15, 0x80, 0xF1, 0xFF, 0x10A, 0x122, 0x1FF, 0x201, 1 << 32, u64::MAX]),
            (_, 7) => self.random.of(&[0, 23, 26, 28, 31, 255, 24 + 256, u64::MAX]),
            _ => self.above(256),
        };
        if self.random.below(6) == 0 {
            row = self.row(0x100);
            row[2] = self.random.of(&[1, 2, u64::MAX]);
            row[3] = self.above(65_536);
        }
        row
    }
}

// ---- one comparison each

impl Sounding {
    /// Puts a list into a table; one of eight is made wrong first, which leaves the table.
    fn put(&mut self, table: &mut Table, count: usize) {
        let (count, wrong) = match self.random.below(8) {
            0 => self.spoil(count),
            _ => (count, None),
        };
        let before = *table;
        let (number, wanted) = after(&before, &self.cells, count);
        let answer = port::sounding_after(&self.cells, count, table);
        let cells = &self.cells;
        let (model, port) = ((number, Held(&wanted)), (answer, Held(table)));
        let parted = || parted(&wanted, table) + &told(&before, cells, count);
        self.after.compare(model, port, cells.len(), parted);
        match wrong {
            Some(wrong) => {
                assert!(number == if wrong == COUNT { 21 } else { 18 }, "a list is not wrong: {}", WRONGS[wrong]);
                self.after.of_kind(wrong);
            }
            None => self.taken(count),
        }
    }

    /// Keeps the events of a list that was accepted, and counts what is to be seen of it.
    fn taken(&mut self, count: usize) {
        let mut seen = [count == 0, count == CAPACITY, false, false];
        for cells in self.cells[..WIDTH * count].chunks(WIDTH) {
            let mut row = [0; WIDTH];
            row.copy_from_slice(cells);
            self.events.push(row);
            // what a writer would refuse of it, with no payload bytes
            match kinds::refused(&row, 0, 0) {
                18 => seen[2] = true,
                19 => seen[3] = true,
                _ => {}
            }
        }
        (0..seen.len()).filter(|i| seen[*i]).for_each(|i| self.after.of_kind(WRONGS.len() + i));
    }

    fn counted(&mut self, table: &Table) {
        let wanted = counts(table);
        let all: usize = wanted.iter().map(|n| *n as usize).sum();
        self.counts.of_kind(match all {
            0 => 0,
            1..=127 => 1,
            n if n < CHANNELS * KEYS => 2,
            _ => 3,
        });
        if table.iter().any(|entry| *entry > 127) {
            self.counts.of_kind(4);
        }
        self.counts.compare((0, wanted), (0, port::sounding_counts(table)), all, || told(table, &[], 0));
    }

    /// The silencing list from any channel and key, in cells that are enough, just enough, or too few.
    fn asked(&mut self, table: &Table) {
        let (channel, key) = match self.random.below(8) {
            0 | 1 => (0, 0),
            2 => (self.random.of(&[0, 15, 16, 127, 128, 255]), self.random.of(&[0, 127, 128, 255])),
            3 => (self.random.bits() as u8, self.random.bits() as u8),
            _ => (self.random.below(CHANNELS) as u8, self.random.below(KEYS) as u8),
        };
        let wanted = silence(table, channel, key);
        let need = WIDTH * wanted.as_ref().map_or(0, |rows| rows.len());
        let few = self.random.below(need + 1);
        let room = self.random.of(&[WIDTH * CAPACITY, WIDTH * CAPACITY, need, need + 1, need.saturating_sub(1), few]);
        // some cells behind those lent are looked at too
        let lent = [CELL; WIDTH * CAPACITY + 1 + MORE];
        let (mut model_cells, mut port_cells) = (lent, lent);
        let model = match wanted {
            None => (18, 0),
            Some(rows) if room < WIDTH * rows.len() => (20, 0),
            Some(rows) => {
                let cells = model_cells.chunks_mut(WIDTH);
                cells.zip(&rows).for_each(|(cells, row)| cells.copy_from_slice(row));
                self.silence.of_kind((rows.len() > 0) as usize + (rows.len() == CAPACITY) as usize);
                (0, rows.len())
            }
        };
        let (answer, count) = port::sounding_silence(table, channel, key, &mut port_cells[..room]);
        let shown = room + MORE;
        self.silence.compare(
            (model.0, (model.1, Cells(&model_cells[..shown]))),
            (answer, (count, Cells(&port_cells[..shown]))),
            need,
            || format!("{}, from channel {} and key {} in {} cells", told(table, &[], 0), channel, key, room),
        );
    }

    /// All keys silenced, list by list, each from the key behind the last one named: as many events as keys sound, and
    /// after them none does.
    fn list_by_list(&mut self, table: &Table) {
        let sum = counts(table).iter().map(|n| *n as usize).sum::<usize>();
        let (mut left, mut total, mut worst) = (*table, 0, 0);
        let (mut from, mut lists) = (Some((0, 0)), 0);
        let mut cells = [CELL; WIDTH * CAPACITY];
        while let (Some((channel, key)), true) = (from, lists <= CHANNELS) {
            let (answer, count) = port::sounding_silence(table, channel, key, &mut cells);
            worst = worst.max(answer).max(port::sounding_after(&cells, count, &mut left));
            total += count;
            lists += 1;
            from = if count == CAPACITY { behind(&cells[WIDTH * (CAPACITY - 1)..]) } else { None };
        }
        self.silenced.of_kind((sum > CAPACITY) as usize);
        let (model, port) = ((0, (sum, Held(&FRESH))), (worst, (total, Held(&left))));
        self.silenced.compare(model, port, sum, || told(table, &[], 0));
    }
}

/// The channel and key behind those of a row; none behind the last.
fn behind(row: &[u64]) -> Option<(u8, u8)> {
    match (row[2] as u8, row[3] as u8) {
        (15, 127) => None,
        (channel, 127) => Some((channel + 1, 0)),
        (channel, key) => Some((channel, key + 1)),
    }
}

// ---- document 02, Q-1

/// The number, and the table after so many rows: 21, then 18 for a delta or restricted field of any event above its
/// width, for a row that is no event's or is not all there; then the table is as it came.
fn after(before: &Table, cells: &[u64], count: usize) -> (u8, Table) {
    if count > CAPACITY {
        return (21, *before);
    }
    let is_right = |index: usize| {
        let row = cells.get(WIDTH * index..WIDTH * (index + 1));
        row.map_or(false, |row| row[0] < 1 << 28 && kinds::within(row))
    };
    if !(0..count).all(is_right) {
        return (18, *before);
    }
    (0, left(before, cells[..WIDTH * count].chunks(WIDTH)))
}

/// Each entry is the velocity of the last note message for it, 0 after a `NoteOff`, and as before if there was none:
/// from the end, the first message that is met for a channel and key is the one that counts.
fn left<'a>(before: &Table, rows: impl DoubleEndedIterator<Item = &'a [u64]>) -> Table {
    let (mut table, mut is_met) = (*before, [[false; KEYS]; CHANNELS]);
    for row in rows.rev() {
        let velocity = match row[1] {
            8 => 0,
            9 => row[4] as u8,
            _ => continue,
        };
        let (channel, key) = (row[2] as usize, row[3] as usize);
        if !is_met[channel][key] {
            is_met[channel][key] = true;
            table[128 * channel + key] = velocity;
        }
    }
    table
}

/// Of each channel, how many of its keys have an entry that is not 0.
fn counts(table: &Table) -> [u8; CHANNELS] {
    let mut counts = [0; CHANNELS];
    for (channel, keys) in table.chunks(KEYS).enumerate() {
        counts[channel] = keys.iter().filter(|velocity| **velocity != 0).count() as u8;
    }
    counts
}

/// A `NoteOff` with delta 0 and velocity 0 for each sounding key, by channel, then key, the first 128 from a channel
/// and key; none where one of these is above its width.
fn silence(table: &Table, channel: u8, key: u8) -> Option<Vec<Row>> {
    if channel > 15 || key > 127 {
        return None;
    }
    let mut rows = Vec::new();
    for c in channel as usize..16 {
        let first = if c == channel as usize { key as usize } else { 0 };
        for k in first..128 {
            if table[128 * c + k] != 0 && rows.len() < CAPACITY {
                rows.push([0, 8, c as u64, k as u64, 0, 0, 0, 0, 0, 0]);
            }
        }
    }
    Some(rows)
}

/// How many bits a kind's fields have, as the first number that each may not hold; of a time the bytes alone.
fn ends(kind: u64) -> &'static [u64] {
    match kind {
        8..=11 => &[16, 128, 128],
        12 | 13 => &[16, 128],
        14 => &[16, 1 << 14],
        0x100 => &[2, 1 << 16],
        0x120 => &[16],
        0x121 => &[128],
        0x151 => &[1 << 24],
        0x154 => &[256; 5],
        0x158 => &[256; 4],
        0x159 | 0x200 => &[256],
        _ => &[],
    }
}

// ---- the program

/// The program on tracks of many notes, nearly right, some of them spoilt or cut, against what the Rust reads of them.
fn program(random: &mut Random, tracks: usize) -> Entry {
    let mut entry = Entry::new("./sounding", &[0, 8, 9]);
    for _ in 0..tracks {
        let bytes = track(random);
        let port = listing::port("sounding", &bytes);
        entry.compare(text(&bytes), port, bytes.len(), || format!("{:?}", Bytes(&bytes)));
    }
    entry
}

/// Up to 500 events, most of them notes of a few channels.
fn track(random: &mut Random) -> Vec<u8> {
    let mut bytes = Vec::new();
    let mut running = 0;
    for _ in 0..random.below(501) {
        if random.below(50) == 0 {
            running = listing::event(random, running, &mut bytes);
            continue;
        }
        let status = random.of(&[0x80, 0x90, 0x90, 0x90, 0x83, 0x93, 0x93, 0x9F, 0xA0]);
        bytes.push(random.byte() & 0x7F);
        if status != running || random.below(4) == 0 {
            bytes.push(status);
        }
        running = status;
        bytes.push(random.byte() & 0x7F);
        bytes.push(random.byte() & 0x7F);
    }
    listing::spoil(random, &mut bytes);
    bytes
}

/// Says what still sounds of standard input as the Rust reads it.
pub fn sounds() -> i32 {
    listing::print(text)
}

/// What is to be printed, with the number of the refusal at which reading stopped, or 0.
fn text(bytes: &[u8]) -> (u8, String) {
    if bytes.len() > listing::LONGEST {
        return (0, String::from("too long\n"));
    }
    let (mut left, mut running) = (bytes, None);
    let mut number = 0;
    let mut sounding = BTreeMap::new();
    while !left.is_empty() {
        let before = left;
        match TrackEvent::read(&mut left, &mut running) {
            Ok(TrackEvent { kind: TrackEventKind::Midi { channel, message }, .. }) => match message {
                MidiMessage::NoteOn { key, vel } if vel.as_int() > 0 => {
                    sounding.insert((channel.as_int(), key.as_int()), vel.as_int());
                }
                MidiMessage::NoteOn { key, .. } | MidiMessage::NoteOff { key, .. } => {
                    sounding.remove(&(channel.as_int(), key.as_int()));
                }
                _ => {}
            },
            Ok(_) => {}
            Err(error) => {
                left = before;
                number = refusal::of(&error);
                break;
            }
        }
    }
    let stop = if number == 0 { String::from("end") } else { number.to_string() };
    let lines = sounding.iter().map(|((channel, key), velocity)| format!("{} {} {}\n", channel, key, velocity));
    let first = format!("sounding {} stop {} at {}\n", sounding.len(), stop, bytes.len() - left.len());
    (number, first + &lines.collect::<String>())
}

// ---- what is shown of a difference

/// A table: its first sounding keys, and how many there are.
#[derive(PartialEq)]
struct Held<'a>(&'a Table);

impl fmt::Debug for Held<'_> {
    fn fmt(&self, f: &mut fmt::Formatter) -> fmt::Result {
        let sounding: Vec<usize> = (0..CHANNELS * KEYS).filter(|place| self.0[*place] != 0).collect();
        write!(f, "{} sounding [", sounding.len())?;
        for place in sounding.iter().take(12) {
            write!(f, " {}/{}:{}", place / KEYS, place % KEYS, self.0[*place])?;
        }
        write!(f, "{} ]", if sounding.len() > 12 { " .." } else { "" })
    }
}

/// Cells: the first rows.
#[derive(PartialEq)]
struct Cells<'a>(&'a [u64]);

impl fmt::Debug for Cells<'_> {
    fn fmt(&self, f: &mut fmt::Formatter) -> fmt::Result {
        let rows: Vec<_> = self.0.chunks(WIDTH).take(4).collect();
        write!(f, "{} cells {:X?}{}", self.0.len(), rows, if self.0.len() > 4 * WIDTH { " .." } else { "" })
    }
}

/// Where two tables part first.
fn parted(a: &Table, b: &Table) -> String {
    let place = (0..CHANNELS * KEYS).find(|place| a[*place] != b[*place]);
    place.map_or(String::new(), |place| format!("parted at channel {} and key {}; ", place / KEYS, place % KEYS))
}

fn told(table: &Table, cells: &[u64], count: usize) -> String {
    format!("{:?}, {} rows, {:?}", Held(table), count, Cells(cells))
}
