//! Lists: read into rows against `TrackEvent::read`, event by event; measured and written against `TrackEvent::write`;
//! compared against the Rust's own equality of events.

use super::{
    events, kinds, listing,
    padding::PADDED,
    port::{self, Laid, Sheet},
    random::Random,
    reads::{Reads, Rows, CELL, HOW},
    refusal,
    report::{Bytes, Entry},
    shrink,
    sizes::{Row, CAPACITY, WIDTH},
    strings::Strings,
};
use crate::{event::TrackEvent, io::Cursor, prelude::*};

/// Around none, around what a list holds and twice that.
const COUNTS: [usize; 14] = [
    0, 1, 2, 3, CAPACITY - 2, CAPACITY - 1, CAPACITY, CAPACITY + 1, CAPACITY + 2, 2 * CAPACITY - 2, 2 * CAPACITY - 1,
    2 * CAPACITY, 2 * CAPACITY + 1, 300,
];
/// Around the ends of the fields' widths, and of the integers that hold them.
const FIELDS: [u64; 14] =
    [15, 16, 24, 31, 60, 100, 127, 128, 255, 256, 65_536, 0x100_0000, 0x1_0000_0000, u64::MAX];
/// The longest payload, and bytes to take payloads from.
const LONGEST: usize = 20_000;
const POOL: usize = 64_000;
/// Room for the longest list.
const OUT: usize = 400_000;
/// As many bytes behind a lent buffer are looked at too.
const BEHIND: usize = 8;
/// As many cells stand behind a list's rows.
const MORE: usize = 11;

struct Lists {
    random: Random,
    strings: Strings,
    reads: Reads,
    read: Entry,
    string: Entry,
    none: Entry,
    length: Entry,
    write: Entry,
    back: Entry,
    illegal: Entry,
    illegal_length: Entry,
    same: Entry,
    events_same: Entry,
    pool: &'static [u8],
    /// The bytes that are read, and the lists that are written and compared, made anew in the same place.
    bytes: Vec<u8>,
    list: List,
    other: List,
    spoiled: Vec<u64>,
    back_rows: Vec<u64>,
    /// A lent buffer as it came, as the Rust left it, and as the port did.
    lent: Vec<u8>,
    rust_out: Vec<u8>,
    port_out: Vec<u8>,
}

pub fn run(random: Random, full: bool) -> Vec<Entry> {
    let mut it = Lists::new(random);
    let every: Vec<u8> = Some(0).into_iter().chain(0x80..=0xEF).collect();
    let rounds = if full { 27_000 } else { 450 };
    for _ in 0..rounds {
        every.iter().for_each(|&running| it.reading(running));
        every.iter().for_each(|&running| it.writing(running));
    }
    (0x01..=0x7F).chain(0xF0..=0xFF).for_each(|running| it.no_running_status(running));
    (0..if full { 100_000_000 } else { 200_000 }).for_each(|_| it.string());
    vec![
        it.read, it.string, it.none, it.length, it.write, it.back, it.illegal, it.illegal_length, it.same,
        it.events_same,
    ]
}

impl Lists {
    fn new(mut random: Random) -> Lists {
        let due: &[u8] = if cfg!(feature = "strict") {
            &[0, 2, 3, 4, 5, 6, 7, 8, 9, 10, 11, 12, 13, 14, 20]
        } else {
            &[0, 4, 5, 6, 7, 8, 9, 10, 13, 14, 20]
        };
        let pool: Vec<u8> = (0..POOL).map(|_| random.byte()).collect();
        let lent: Vec<u8> = (0..OUT).map(|i| (i * 37) as u8).collect();
        let refused = &[1, 18, 19, 21, 23];
        Lists {
            strings: Strings::new(&mut random),
            random,
            reads: Reads::new(),
            read: Reads::entry("apk_list_read, up to 300 events", due),
            string: Reads::entry("apk_list_read, up to 600 bytes", due),
            none: Entry::new("apk_list_read, from a running status that is none", &[1]),
            length: Entry::new("apk_list_length", &[0]),
            write: Entry::new("apk_list_write", &[0, 20]).of_kinds(&["empty lists", "full lists"]),
            back: back("apk_list_read, of what was written"),
            illegal: Entry::new("apk_list_write, refused (by document 01's rule)", refused),
            illegal_length: Entry::new("apk_list_length, refused (by document 01's rule)", refused),
            same: Entry::new("apk_list_same", &[0, 18, 21]).of_kinds(&["the same", "not the same"]),
            events_same: Entry::new("apk_event_same", &[0, 18]).of_kinds(&["the same", "not the same"]),
            pool: pool.leak(),
            bytes: Vec::new(),
            list: List::default(),
            other: List::default(),
            spoiled: Vec::new(),
            back_rows: vec![0; WIDTH * CAPACITY],
            rust_out: lent.clone(),
            port_out: lent.clone(),
            lent,
        }
    }
}

/// Of what was written, which counts what `Reads` does: it need not see each, and sees no padding.
fn back(name: &'static str) -> Entry {
    Entry::new(name, &[0]).counting(&HOW).counting(&kinds::KINDS).counting(&PADDED)
}

// ---- what is compared

impl Lists {
    fn count(&mut self) -> usize {
        match self.random.below(3) {
            0 => self.random.of(&COUNTS),
            1 => self.random.below(301),
            _ => self.random.below(20),
        }
    }

    /// A payload of the pool, some of them long.
    fn load(&mut self) -> &'static [u8] {
        let most = match self.random.below(2000) {
            0 => LONGEST,
            1..=100 => 300,
            _ => 9,
        };
        let length = self.random.below(most + 1);
        let start = self.random.below(POOL - length);
        &self.pool[start..start + length]
    }

    fn event(&mut self, running: u8) -> TrackEvent<'static> {
        let kind = self.random.below(kinds::KINDS.len());
        let load = self.load();
        kinds::event(kind, running, load, &mut self.random)
    }

    /// The bytes of up to 300 events, legal ones or such as are nearly right; some are damaged or cut.
    fn make_bytes(&mut self, running: u8) {
        let mut bytes = core::mem::take(&mut self.bytes);
        bytes.clear();
        let mut status = running;
        let legal = self.random.below(2) == 0;
        for _ in 0..self.count() {
            if legal {
                let mut after = option(status);
                self.event(status).write(&mut after, &mut bytes).unwrap();
                status = after.unwrap_or(0);
            } else {
                status = listing::event(&mut self.random, status, &mut bytes);
            }
        }
        listing::spoil(&mut self.random, &mut bytes);
        self.bytes = bytes;
    }

    /// Up to 300 events, list by list.
    fn reading(&mut self, running: u8) {
        self.make_bytes(running);
        let length = self.bytes.len();
        let at = self.random.of(&[0, 0, 0, 0, 0, 0, 1, length, length + 1, usize::MAX]);
        self.reads.list_by_list(&mut self.read, &mut self.random, &self.bytes, at, running);
    }

    /// A string of up to 600 bytes, list by list.
    fn string(&mut self) {
        let (bytes, running) = self.strings.next(&mut self.random);
        self.reads.list_by_list(&mut self.string, &mut self.random, bytes, 0, running);
    }

    /// A legal list in a room that it fills, one that is a byte short, one that is larger, and any other; then the same
    /// with something wrong; then compared with others.
    fn writing(&mut self, running: u8) {
        let count = self.count();
        let list = self.list(running, count.min(CAPACITY));
        let need = self.measured(&list);
        let (more, any) = (1 + self.random.below(8), self.random.below(need + 1));
        for room in [need, need.saturating_sub(1), need + more, any].iter() {
            self.written(&list, *room);
        }
        self.wrong(&list, count);
        self.compared(&list);
        self.list = list;
    }

    /// Every running status that is none, of lists that are right, and of lists that are wrong in other ways too.
    fn no_running_status(&mut self, running: u8) {
        for &count in [0, 1, 3, CAPACITY, CAPACITY + 1].iter() {
            let list = self.list(0, count.min(CAPACITY));
            self.refused(Sheet { count, ..list.sheet(0) }, running, 40);
            let bytes = [0, 0x90, 0x3C, 0x40, 0x60, 0x3C, 0];
            self.reads.compare(&mut self.none, &bytes[..7.min(count)], 0, running, |_| WIDTH);
            self.list = list;
        }
    }
}

/// Events as the Rust has them, with their rows, one behind the other, over the bytes that hold their payloads. Behind
/// the rows stand more cells, which are no event's.
#[derive(Default)]
struct List {
    events: Vec<TrackEvent<'static>>,
    rows: Vec<u64>,
    payload: &'static [u8],
    running: u8,
}

impl List {
    /// As the port is given it, with so many of the cells behind the rows.
    fn sheet(&self, more: usize) -> Sheet<'_> {
        let count = self.events.len();
        Sheet { rows: &self.rows[..WIDTH * count + more], count, payload: self.payload }
    }

    /// How many bytes the Rust writes for it, and the running status after them.
    fn need(&self) -> (usize, u8) {
        let (mut counter, mut status) = (WriteCounter(0), option(self.running));
        self.events.iter().for_each(|event| event.write(&mut status, &mut counter).unwrap());
        (counter.0 as usize, status.unwrap_or(0))
    }

    /// With some of its events.
    fn only(&self, kept: &[usize]) -> List {
        let rows = kept.iter().flat_map(|at| self.rows[WIDTH * at..WIDTH * (at + 1)].iter().copied());
        List { events: kept.iter().map(|at| self.events[*at]).collect(), rows: rows.collect(), ..*self }
    }
}

impl Lists {
    /// A list of so many legal events, in the place of the last.
    fn list(&mut self, running: u8, count: usize) -> List {
        let mut list = core::mem::take(&mut self.list);
        list.events.clear();
        list.rows.clear();
        list.payload = self.pool;
        list.running = running;
        let mut status = running;
        for _ in 0..count {
            let event = self.event(status);
            let mut after = option(status);
            event.write(&mut after, &mut WriteCounter(0)).unwrap();
            status = after.unwrap_or(0);
            let mut row = events::row(&event, list.payload);
            self.soil(&mut row);
            list.events.push(event);
            list.rows.extend_from_slice(&row);
        }
        list.rows.extend_from_slice(&[CELL; MORE]);
        list
    }

    /// Makes what a row's kind does not use anything.
    fn soil(&mut self, row: &mut Row) {
        if self.random.below(8) > 0 {
            return;
        }
        (2 + kinds::used(row)..8).for_each(|i| row[i] = self.random.of(&FIELDS));
        if !kinds::is_loaded(row) {
            row[8] = self.random.of(&FIELDS);
            row[9] = self.random.of(&FIELDS);
        }
    }

    /// Rows that are too few for the count, a count above what a list holds, or an event that is made illegal.
    fn wrong(&mut self, list: &List, count: usize) {
        let (mut rows, mut count) = (core::mem::take(&mut self.spoiled), count);
        rows.clear();
        rows.extend_from_slice(list.sheet(0).rows);
        match self.random.below(8) {
            0 => rows.truncate(self.random.below(rows.len() + 1)),
            1 => count = self.random.of(&[129, 130, 255, 256, 257, 1 << 32, (1 << 60) + 3, usize::MAX]),
            2 => count = list.events.len() + 1 + self.random.below(3),
            _ => (0..=self.random.below(2)).for_each(|_| self.spoil(&mut rows)),
        }
        let room = self.random.below(300);
        self.refused(Sheet { rows: &rows, count, payload: list.payload }, list.running, room);
        self.spoiled = rows;
    }

    fn spoil(&mut self, rows: &mut [u64]) {
        if rows.is_empty() {
            return;
        }
        let row = WIDTH * self.random.below(rows.len() / WIDTH);
        let row = &mut rows[row..row + WIDTH];
        match self.random.below(8) {
            0 => row[0] = self.random.of(&[1 << 28, 0xFFFF_FFFF, 1 << 32, u64::MAX]),
            1 => row[1] = self.random.bits() % 0x202,
            2 => row[8] = self.random.of(&[POOL as u64, POOL as u64 + 1, 1 << 63, u64::MAX]),
            3 => row[9] = self.random.of(&[POOL as u64, POOL as u64 + 1, 1 << 28, u64::MAX]),
            4 => {
                row[1] = 0x200;
                row[2] = self.random.of(&[0x00, 0x09, 0x2F, 0x51, 0x59, 0x7F, 0x60]);
                row[8] = self.random.below(POOL / 2) as u64;
                row[9] = self.random.below(6) as u64;
            }
            _ => row[2 + self.random.below(6)] = self.random.of(&FIELDS),
        }
    }

    /// With itself as it is read back from its own bytes, and with that list changed.
    fn compared(&mut self, list: &List) {
        let mut back = core::mem::take(&mut self.back_rows);
        self.bytes.clear();
        let mut status = option(list.running);
        list.events.iter().for_each(|event| event.write(&mut status, &mut self.bytes).unwrap());
        let (_, (count, ..)) = port::list_read(&self.bytes, 0, list.running, &mut back);
        let bytes = core::mem::take(&mut self.bytes);
        self.lists_same(list, &list.events, Sheet { rows: &back, count: count.unwrap(), payload: &bytes });
        self.bytes = bytes;
        self.back_rows = back;

        let mut other = core::mem::take(&mut self.other);
        other.events.clone_from(&list.events);
        other.rows.clone_from(&list.rows);
        other.payload = list.payload;
        if !other.events.is_empty() && self.random.below(4) > 0 {
            let at = self.random.below(other.events.len());
            self.change(&mut other, at);
            self.one_same(list, &other, at);
        } else if other.events.pop().is_some() {
            other.rows.truncate(WIDTH * other.events.len() + MORE);
        }
        self.lists_same(list, &other.events, other.sheet(0));
        let short = self.random.below(other.sheet(0).rows.len() + 1);
        let count = self.random.of(&[0, 1, 2, CAPACITY - 1, CAPACITY, CAPACITY + 1, usize::MAX]);
        self.none_same(list, Sheet { rows: &other.rows[..short], count, payload: other.payload });
        self.other = other;
    }

    /// Another event there, or another delta alone, or the same payload from another place.
    fn change(&mut self, list: &mut List, at: usize) {
        match self.random.below(3) {
            0 => list.events[at] = self.event(0),
            1 => list.events[at].delta = u28::new(list.events[at].delta.as_int() ^ 1 << self.random.below(28)),
            _ => {}
        }
        list.rows[WIDTH * at..WIDTH * (at + 1)].copy_from_slice(&events::row(&list.events[at], list.payload));
    }
}

// ---- one comparison each

impl Lists {
    /// Answers how many bytes the Rust's list has.
    fn measured(&mut self, list: &List) -> usize {
        let (need, after) = list.need();
        let port = port::list_length(list.sheet(0), list.running);
        let rust: (u8, Laid) = (0, (Some(need), after, None));
        self.length.compare(rust, port, list.events.len(), || told(list.sheet(0), list.running));
        need
    }

    /// Writes into a room. What the Rust leaves behind when it refuses is taken back: the port promises the bytes as
    /// they came, and the running status as given. What both wrote is read back.
    fn written(&mut self, list: &List, room: usize) {
        let rust = rust_writes(list, &mut self.rust_out[..room], &self.lent);
        let sheet = list.sheet(self.random.below(MORE + 1));
        let port = port::list_write(sheet, list.running, &mut self.port_out[..room]);
        let whole = room + BEHIND;
        match list.events.len() {
            0 => self.write.of_kind(0),
            CAPACITY => self.write.of_kind(1),
            _ => {}
        }
        let differs = self.write.compare(
            (rust.0, (rust.1, Bytes(&self.rust_out[..whole]))),
            (port.0, (port.1, Bytes(&self.port_out[..whole]))),
            list.events.len() + room,
            || format!("{} in {}", told(sheet, list.running), room),
        );
        if differs && self.write.is_new((rust.0, port.0)) {
            self.fewer(list, room);
        } else if let (false, (0, (Some(length), after, _))) = (differs, rust) {
            let bytes = &self.port_out[..length];
            let read = self.reads.compare(&mut self.back, bytes, 0, list.running, |_| WIDTH * sheet.count);
            assert!(read.is_whole(sheet.count, length, after), "the Rust reads another list than it wrote, or padding");
        }
        self.rust_out[..whole].copy_from_slice(&self.lent[..whole]);
        self.port_out[..whole].copy_from_slice(&self.lent[..whole]);
    }

    /// Shows a list of fewer events that has the same two answers and still differs, in a room that is as much too small
    /// or too large.
    #[cold]
    fn fewer(&mut self, list: &List, room: usize) {
        let all: Vec<usize> = (0..list.events.len()).collect();
        let lent = &self.lent;
        let asked = |kept: &[usize]| {
            let less = list.only(kept);
            let room = (less.need().0 + room).saturating_sub(list.need().0);
            let (mut rust_out, mut port_out) = (lent[..room + BEHIND].to_vec(), lent[..room + BEHIND].to_vec());
            let rust = rust_writes(&less, &mut rust_out[..room], lent);
            let port = port::list_write(less.sheet(0), less.running, &mut port_out[..room]);
            ((rust.0, (rust.1, rust_out)), (port.0, (port.1, port_out)), room)
        };
        let answers = |kept: &[usize]| {
            let (rust, port, _) = asked(kept);
            Some((rust.0, port.0)).filter(|_| rust != port)
        };
        let whole = answers(&all);
        let kept = shrink::things(&all, |kept| answers(kept) == whole);
        let (rust, port, room) = asked(&kept);
        let less = list.only(&kept);
        self.write.show(
            (rust.0, ((rust.1).0, Bytes(&(rust.1).1))),
            (port.0, ((port.1).0, Bytes(&(port.1).1))),
            kept.len() + room,
            || format!("{} in {}", told(less.sheet(0), less.running), room),
        );
    }

    /// What may not be written: nothing is, whatever the room. A sheet that may be is let go.
    fn refused(&mut self, sheet: Sheet, running: u8, room: usize) {
        let (number, index) = refused(sheet, running);
        if number == 0 {
            return;
        }
        let wanted: Laid = (None, running, Some(index));
        let port = port::list_write(sheet, running, &mut self.port_out[..room]);
        let whole = room + BEHIND;
        self.illegal.compare(
            (number, (wanted, Bytes(&self.lent[..whole]))),
            (port.0, (port.1, Bytes(&self.port_out[..whole]))),
            sheet.rows.len(),
            || format!("{} in {}", told(sheet, running), room),
        );
        self.port_out[..whole].copy_from_slice(&self.lent[..whole]);
        let port = port::list_length(sheet, running);
        self.illegal_length.compare((number, wanted), port, sheet.rows.len(), || told(sheet, running));
    }

    /// One event of a list, and the one in its place of another.
    fn one_same(&mut self, list: &List, other: &List, at: usize) {
        let row = |list: &List| {
            let mut row = [0; WIDTH];
            row.copy_from_slice(&list.rows[WIDTH * at..WIDTH * (at + 1)]);
            row
        };
        let (a, b) = (row(list), row(other));
        let rust = (list.events[at] == other.events[at]) as u8;
        self.events_same.of_kind(1 - rust as usize);
        let port = port::event_same(&a, list.payload, &b, other.payload);
        self.events_same.compare((0, rust), port, 1, || format!("rows {:X?} and {:X?}", a, b));
        let none = [0; WIDTH];
        let other = self.random.of(&[a, none]);
        let port = port::event_same(&other, list.payload, &none, list.payload);
        self.events_same.compare((18, 0xFF), port, 1, || format!("rows {:X?} and {:X?}", other, none));
    }

    fn lists_same(&mut self, list: &List, others: &[TrackEvent], other: Sheet) {
        let rust = (list.events[..] == *others) as u8;
        self.same.of_kind(1 - rust as usize);
        let there = port::list_same(list.sheet(0), other);
        let back = port::list_same(other, list.sheet(0));
        let port = (there.0.max(back.0), (there, back));
        self.same.compare((0, ((0, rust), (0, rust))), port, list.events.len(), || told(other, 0));
    }

    /// A sheet that is no list is refused, on either side: for its count, or for a row that is not all there.
    fn none_same(&mut self, list: &List, other: Sheet) {
        let number = match other.count {
            count if count > CAPACITY => 21,
            count if other.rows.len() < WIDTH * count => 18,
            _ => return,
        };
        let there = port::list_same(list.sheet(0), other);
        let back = port::list_same(other, list.sheet(0));
        let wanted = (number, ((number, 0xFF), (number, 0xFF)));
        self.same.compare(wanted, (there.0.max(back.0), (there, back)), list.events.len(), || told(other, 0));
    }
}

// ---- what the Rust answers, and document 01

fn option(running: u8) -> Option<u8> {
    Some(running).filter(|running| *running != 0)
}

fn rust_writes(list: &List, out: &mut [u8], lent: &[u8]) -> (u8, Laid) {
    let room = out.len();
    let mut status = option(list.running);
    let mut cursor = Cursor::from_parts(out, 0);
    let mut number = 0;
    for event in &list.events {
        if let Err(error) = event.write(&mut status, &mut cursor) {
            number = refusal::of_write(&error);
            break;
        }
    }
    let length = cursor.cursor();
    if number == 0 {
        return (0, (Some(length), status.unwrap_or(0), None));
    }
    out.copy_from_slice(&lent[..room]);
    (number, (None, list.running, Some(0)))
}

/// The number and the index: 1, 21 where the count is above what a list holds, then the first illegal event; a row whose
/// cells are not all there is no event's, 18.
fn refused(sheet: Sheet, running: u8) -> (u8, usize) {
    if running != 0 && !(0x80..=0xEF).contains(&running) {
        return (1, 0);
    }
    if sheet.count > CAPACITY {
        return (21, 0);
    }
    for index in 0..sheet.count {
        if sheet.rows.len() < WIDTH * (index + 1) {
            return (18, index);
        }
        let mut row = [0; WIDTH];
        row.copy_from_slice(&sheet.rows[WIDTH * index..WIDTH * (index + 1)]);
        let number = kinds::refused(&row, sheet.payload.len(), 0);
        if number > 0 {
            return (number, index);
        }
    }
    (0, 0)
}

fn told(sheet: Sheet, running: u8) -> String {
    format!("{:?} of {}, {} bytes, running {:02X}", Rows(sheet.rows), sheet.count, sheet.payload.len(), running)
}
