//! The port beside the Rust, in one process, turn by turn; the best of several turns counts.

use super::{
    port::{self, Entries, PLAIN, PORT},
    tracks::{self, Track},
};
use crate::{
    event::{MetaMessage, TrackEvent, TrackEventKind},
    io::Cursor,
    prelude::*,
};
use std::{hint::black_box, time::Instant};

/// Turns of each; a turn is as many passes as take about this long.
const TURNS: usize = 7;
const TURN: f64 = 0.05;

/// Seconds of one pass of each, the best of several turns, one after the other.
fn seconds(works: [&mut dyn FnMut() -> usize; 3]) -> [f64; 3] {
    let mut works = works.map(|work| {
        let start = Instant::now();
        black_box(work());
        let passes = (TURN / start.elapsed().as_secs_f64()).ceil().max(1.0) as usize;
        (work, passes, f64::MAX)
    });
    for _ in 0..TURNS {
        for (work, passes, best) in &mut works {
            let start = Instant::now();
            (0..*passes).for_each(|_| drop(black_box(work())));
            *best = best.min(start.elapsed().as_secs_f64() / *passes as f64);
        }
    }
    works.map(|(_, _, best)| best)
}

// ---- one event after the other

fn rust_events(bytes: &[u8]) -> usize {
    let (mut raw, mut running, mut count) = (bytes, None, 0);
    while !raw.is_empty() {
        match TrackEvent::read(&mut raw, &mut running) {
            Ok(event) => black_box(event),
            Err(_) => break,
        };
        count += 1;
    }
    count
}

#[inline(always)]
fn port_events(entries: Entries, bytes: &[u8]) -> usize {
    let (mut at, mut running, mut count) = (0, 0, 0);
    let mut row = [0; port::WIDTH];
    while at < bytes.len() {
        let (answer, used, after, padding) = entries.event_read(bytes, at, running, &mut row);
        if answer != 0 {
            break;
        }
        black_box((&row, padding));
        at += used;
        running = after;
        count += 1;
    }
    count
}

fn rust_write_events(events: &[TrackEvent], out: &mut [u8]) -> usize {
    let (mut running, mut cursor) = (None, Cursor::new(out));
    for event in events {
        if event.write(&mut running, &mut cursor).is_err() {
            break;
        }
    }
    cursor.cursor()
}

#[inline(always)]
fn port_write_events(entries: Entries, rows: &[port::Row], bytes: &[u8], out: &mut [u8]) -> usize {
    let (mut at, mut running) = (0, 0);
    for row in rows {
        let (answer, next, after) = entries.event_write(row, bytes, running, out, at);
        if answer != 0 {
            break;
        }
        at = next;
        running = after;
    }
    at
}

// ---- full lists, continued; neither side clears its records before it reads, and the port fills rows

fn rust_lists(bytes: &[u8]) -> usize {
    let (mut raw, mut running, mut count) = (bytes, None, 0);
    let filler = TrackEvent { delta: 0.into(), kind: TrackEventKind::Meta(MetaMessage::EndOfTrack) };
    let mut records = [filler; port::CAPACITY];
    while !raw.is_empty() {
        let mut n = 0;
        while n < port::CAPACITY && !raw.is_empty() {
            match TrackEvent::read(&mut raw, &mut running) {
                Ok(event) => records[n] = event,
                Err(_) => return count + n,
            }
            n += 1;
        }
        black_box(&records);
        count += n;
    }
    count
}

#[inline(always)]
fn port_lists(entries: Entries, bytes: &[u8]) -> usize {
    let (mut at, mut running, mut count) = (0, 0, 0);
    let mut rows = [[0; port::WIDTH]; port::CAPACITY];
    loop {
        let (answer, n, place, after, padding) = entries.list_read(bytes, at, running, &mut rows);
        black_box((&rows, padding));
        count += n;
        at = place;
        running = after;
        if answer != port::FULL {
            return count;
        }
    }
}

fn rust_write_lists(events: &[TrackEvent], out: &mut [u8]) -> usize {
    let (mut running, mut at) = (None, 0);
    for list in events.chunks(port::CAPACITY) {
        let mut cursor = Cursor::new(&mut out[at..]);
        for event in list {
            if event.write(&mut running, &mut cursor).is_err() {
                return at;
            }
        }
        at += cursor.cursor();
    }
    at
}

#[inline(always)]
fn port_write_lists(entries: Entries, rows: &[port::Row], bytes: &[u8], out: &mut [u8]) -> usize {
    let (mut running, mut at) = (0, 0);
    for list in rows.chunks(port::CAPACITY) {
        let (answer, length, after) = entries.list_write(list, bytes, running, &mut out[at..]);
        if answer != 0 {
            return at;
        }
        at += length;
        running = after;
    }
    at
}

// ---- what is printed

fn line(what: &str, track: &Track, events: usize, [rust, port, plain]: [f64; 3]) {
    let rate = |seconds: f64| events as f64 / seconds / 1e6;
    println!(
        "{:14} {:18} {:>9} {:>8}  {:>8.2} {:>8.2} {:>8.2}  {:>8.0}  {:>7.2} {:>7.2}",
        what,
        track.name,
        track.bytes.len(),
        events,
        rate(rust),
        rate(port),
        rate(plain),
        track.bytes.len() as f64 / port / 1e6,
        rust / port,
        plain / port
    );
}

/// The rows of a track, and the padding of each.
#[inline(always)]
fn rows_of(entries: Entries, bytes: &[u8]) -> (Vec<port::Row>, Vec<usize>) {
    let (mut at, mut running, mut rows, mut paddings) = (0, 0, Vec::new(), Vec::new());
    while at < bytes.len() {
        let mut row = [0; port::WIDTH];
        let (answer, used, after, padding) = entries.event_read(bytes, at, running, &mut row);
        if answer != 0 {
            break;
        }
        rows.push(row);
        paddings.push(padding);
        at += used;
        running = after;
    }
    (rows, paddings)
}

/// The padding of a track, list by list.
#[inline(always)]
fn padding_of(entries: Entries, bytes: &[u8]) -> usize {
    let (mut at, mut running, mut sum) = (0, 0, 0);
    let mut rows = [[0; port::WIDTH]; port::CAPACITY];
    loop {
        let (answer, _, place, after, padding) = entries.list_read(bytes, at, running, &mut rows);
        sum += padding;
        at = place;
        running = after;
        if answer != port::FULL {
            return sum;
        }
    }
}

fn all(bytes: &[u8]) -> (Vec<TrackEvent>, Vec<port::Row>) {
    let (mut raw, mut running, mut events) = (bytes, None, Vec::new());
    while !raw.is_empty() {
        match TrackEvent::read(&mut raw, &mut running) {
            Ok(event) => events.push(event),
            Err(_) => break,
        }
    }
    let read = rows_of(PORT, bytes);
    assert!(read == rows_of(PLAIN, bytes));
    let (rows, paddings) = read;
    assert_eq!(events.len(), rows.len());
    let sum = paddings.iter().sum::<usize>();
    assert!(padding_of(PORT, bytes) == sum && padding_of(PLAIN, bytes) == sum);
    (events, rows)
}

fn one(track: &Track) {
    let bytes = &track.bytes[..];
    let (events, rows) = all(bytes);
    let count = events.len();
    let outs = || vec![0; bytes.len() + 64];
    let (mut rust_out, mut port_out, mut plain_out) = (outs(), outs(), outs());
    let mut same = |ends: [usize; 3], outs: [&[u8]; 3]| {
        assert!(ends[0] == ends[1] && ends[0] == ends[2]);
        assert!(outs[0][..ends[0]] == outs[1][..ends[0]] && outs[0][..ends[0]] == outs[2][..ends[0]]);
    };

    line("read events", track, count, seconds([&mut || rust_events(bytes), &mut || port_events(PORT, bytes), &mut || port_events(PLAIN, bytes)]));
    let ends = [
        rust_write_events(&events, &mut rust_out),
        port_write_events(PORT, &rows, bytes, &mut port_out),
        port_write_events(PLAIN, &rows, bytes, &mut plain_out),
    ];
    same(ends, [&rust_out, &port_out, &plain_out]);
    line(
        "write events",
        track,
        count,
        seconds([
            &mut || rust_write_events(&events, &mut rust_out),
            &mut || port_write_events(PORT, &rows, bytes, &mut port_out),
            &mut || port_write_events(PLAIN, &rows, bytes, &mut plain_out),
        ]),
    );

    assert!(rust_lists(bytes) == port_lists(PORT, bytes) && port_lists(PORT, bytes) == port_lists(PLAIN, bytes));
    line("read lists", track, count, seconds([&mut || rust_lists(bytes), &mut || port_lists(PORT, bytes), &mut || port_lists(PLAIN, bytes)]));
    let ends = [
        rust_write_lists(&events, &mut rust_out),
        port_write_lists(PORT, &rows, bytes, &mut port_out),
        port_write_lists(PLAIN, &rows, bytes, &mut plain_out),
    ];
    same(ends, [&rust_out, &port_out, &plain_out]);
    line(
        "write lists",
        track,
        count,
        seconds([
            &mut || rust_write_lists(&events, &mut rust_out),
            &mut || port_write_lists(PORT, &rows, bytes, &mut port_out),
            &mut || port_write_lists(PLAIN, &rows, bytes, &mut plain_out),
        ]),
    );
}

pub fn run(folder: Option<String>) {
    println!(
        "{:14} {:18} {:>9} {:>8}  {:>26}  {:>8}  {:>15}",
        "", "", "", "", "million events/s", "MB/s", "port's speed to"
    );
    println!(
        "{:14} {:18} {:>9} {:>8}  {:>8} {:>8} {:>8}  {:>8}  {:>7} {:>7}",
        "what", "track", "bytes", "events", "Rust", "port", "plain C", "port", "Rust", "plain C"
    );
    for track in tracks::of_size(64 << 10) {
        one(&track);
    }
    println!("how cost grows");
    for (name, size) in [("1 KB", 1 << 10), ("64 KB", 64 << 10), ("16 MB", 16 << 20)] {
        one(&tracks::mixed(name, size));
    }
    for track in folder.iter().flat_map(|folder| tracks::of_folder(folder)) {
        one(&track);
    }
}
