//! The port's exported entries. A slice goes over as its start and its length; the answer is a refusal's number, or
//! 0. Beside the answer stands each value that an entry is to set: `None` where it left the value as it was.

use super::sizes::{Ranges, Row, Table, CHANNELS, WIDTH};

// An answer of eight or 16 bits is declared as 32 and cut. The port's code leaves the bits above it as they come, and
// Rust on x86-64 would take them for zeros.
extern "C" {
    fn apk_number_read(
        bytes: *const u8, length: usize, at: usize, rules: u8, value: *mut u32, next: *mut usize, padding: *mut usize,
    ) -> u32;
    fn apk_number_length(value: u32) -> usize;
    fn apk_number_write(value: u32, out: *mut u8, length: usize, at: usize, next: *mut usize) -> u32;
    fn apk_payload_read(
        bytes: *const u8, length: usize, at: usize, rules: u8,
        start: *mut usize, found: *mut usize, padding: *mut usize,
    ) -> u32;
    fn apk_payload_write(
        payload: *const u8, payload_length: usize, start: usize, length: usize,
        out: *mut u8, out_length: usize, at: usize, next: *mut usize,
    ) -> u32;
    fn apk_event_read(
        bytes: *const u8, length: usize, at: usize, running: u8, rules: u8,
        row: *mut Row, used: *mut usize, after: *mut u8, padding: *mut usize,
    ) -> u32;
    fn apk_event_length(
        row: *const Row, payload: *const u8, payload_length: usize, running: u8, rules: u8,
        length: *mut usize, after: *mut u8,
    ) -> u32;
    fn apk_event_write(
        row: *const Row, payload: *const u8, payload_length: usize, running: u8, rules: u8,
        out: *mut u8, out_length: usize, at: usize, next: *mut usize, after: *mut u8,
    ) -> u32;
    fn apk_event_same(
        row_a: *const Row, bytes_a: *const u8, length_a: usize,
        row_b: *const Row, bytes_b: *const u8, length_b: usize, same: *mut u8,
    ) -> u32;
    fn apk_list_read(
        bytes: *const u8, length: usize, at: usize, running: u8, rules: u8,
        rows: *mut u64, cells: usize, count: *mut usize, place: *mut usize, after: *mut u8, padding: *mut usize,
    ) -> u32;
    fn apk_list_length(
        rows: *const u64, cells: usize, count: usize, payload: *const u8, payload_length: usize,
        running: u8, rules: u8,
        length: *mut usize, after: *mut u8, index: *mut usize,
    ) -> u32;
    fn apk_list_write(
        rows: *const u64, cells: usize, count: usize, payload: *const u8, payload_length: usize,
        running: u8, rules: u8,
        out: *mut u8, out_length: usize, length: *mut usize, after: *mut u8, index: *mut usize,
    ) -> u32;
    fn apk_list_same(
        rows_a: *const u64, cells_a: usize, count_a: usize, bytes_a: *const u8, length_a: usize,
        rows_b: *const u64, cells_b: usize, count_b: usize, bytes_b: *const u8, length_b: usize, same: *mut u8,
    ) -> u32;
    fn apk_sounding_after(rows: *const u64, cells: usize, count: usize, table: *mut Table) -> u32;
    fn apk_sounding_counts(table: *const Table, sounding: *mut [u8; CHANNELS]);
    fn apk_sounding_silence(
        table: *const Table, channel: u8, key: u8, rows: *mut u64, cells: usize, count: *mut usize,
    ) -> u32;
    fn apk_bank_read(block: *const u8, length: usize, ranges: *mut Ranges, count: *mut usize) -> u32;
    fn apk_bank_track(block: *const u8, length: usize, index: usize, start: *mut usize, found: *mut usize) -> u32;
    fn apk_bank_list(
        block: *const u8, length: usize, index: usize, rules: u8,
        rows: *mut u64, cells: usize, count: *mut usize, place: *mut usize, after: *mut u8, padding: *mut usize,
    ) -> u32;
    fn apk_bank_write(
        bytes: *const u8, length: usize, ranges: *const Ranges, count: usize,
        out: *mut u8, out_length: usize, total: *mut usize,
    ) -> u32;
    fn apk_format_read(bytes: *const u8, length: usize, format: *mut u8) -> u32;
    fn apk_format_encode(format: u8, bytes: *mut [u8; 2]) -> u32;
    fn apk_timing_read(bytes: *const u8, length: usize, ticks: *mut u16, rate: *mut u8, subframe: *mut u8) -> u32;
    fn apk_timing_encode(ticks: u16, rate: u8, subframe: u8, bytes: *mut [u8; 2]) -> u32;
    fn apk_fps_from_code(code: u8) -> u32;
    fn apk_fps_as_code(rate: u8, code: *mut u8) -> u32;
    fn apk_fps_from_int(raw: u8, rate: *mut u8) -> u32;
    fn apk_fps_as_f32(rate: u8, frames: *mut f32) -> u32;
    fn apk_smpte_new(
        hour: u8, minute: u8, second: u8, frame: u8, subframe: u8, rate: u8, rules: u8,
    ) -> u32;
    fn apk_smpte_read(
        first: u8, minute: u8, second: u8, frame: u8, subframe: u8, rules: u8, time: *mut [u8; 6],
    ) -> u32;
    fn apk_smpte_encode(
        hour: u8, minute: u8, second: u8, frame: u8, subframe: u8, rate: u8, rules: u8, bytes: *mut [u8; 5],
    ) -> u32;
    fn apk_smpte_second_f32(
        hour: u8, minute: u8, second: u8, frame: u8, subframe: u8, rate: u8, rules: u8, seconds: *mut f32,
    ) -> u32;
    fn apk_smpte_position(
        hour: u8, minute: u8, second: u8, frame: u8, subframe: u8, rate: u8, rules: u8, subframes: *mut u32,
    ) -> u32;
    fn apk_bend_min_raw_value() -> u32;
    fn apk_bend_mid_raw_value() -> u32;
    fn apk_bend_max_raw_value() -> u32;
    fn apk_bend_from_int(int: i16) -> u32;
    fn apk_bend_from_f32(float: f32) -> u32;
    fn apk_bend_from_f64(float: f64) -> u32;
    fn apk_bend_as_int(raw: u16, int: *mut i16) -> u32;
    fn apk_bend_as_f32(raw: u16, float: *mut f32) -> u32;
    fn apk_bend_as_f64(raw: u16, float: *mut f64) -> u32;
}

/// The rules of a call, a set of bits: strict where the Rust beside it is.
const RULES: u8 = cfg!(feature = "strict") as u8;

/// What a value holds before a call. No request makes an entry set it to this.
const BEFORE: usize = usize::MAX - 0x5A5A;
const BEFORE_32: u32 = u32::MAX - 0x5A5A;

fn set(value: usize) -> Option<usize> {
    Some(value).filter(|value| *value != BEFORE)
}

fn set_32(value: u32) -> Option<u32> {
    Some(value).filter(|value| *value != BEFORE_32)
}

/// The value, the place after and the padding.
pub fn number_read(bytes: &[u8], at: usize, rules: u8) -> (u8, (Option<u32>, Option<usize>, Option<usize>)) {
    let (mut value, mut next, mut padding) = (BEFORE_32, BEFORE, BEFORE);
    let answer =
        unsafe { apk_number_read(bytes.as_ptr(), bytes.len(), at, rules, &mut value, &mut next, &mut padding) };
    (answer as u8, (set_32(value), set(next), set(padding)))
}

pub fn number_length(value: u32) -> usize {
    unsafe { apk_number_length(value) }
}

pub fn number_write(value: u32, out: &mut [u8], at: usize) -> (u8, Option<usize>) {
    let mut next = BEFORE;
    let answer = unsafe { apk_number_write(value, out.as_mut_ptr(), out.len(), at, &mut next) };
    (answer as u8, set(next))
}

/// The start, the length and the padding.
pub fn payload_read(bytes: &[u8], at: usize, rules: u8) -> (u8, (Option<usize>, Option<usize>, Option<usize>)) {
    let (mut start, mut found, mut padding) = (BEFORE, BEFORE, BEFORE);
    let answer =
        unsafe { apk_payload_read(bytes.as_ptr(), bytes.len(), at, rules, &mut start, &mut found, &mut padding) };
    (answer as u8, (set(start), set(found), set(padding)))
}

pub fn payload_write(payload: &[u8], start: usize, length: usize, out: &mut [u8], at: usize) -> (u8, Option<usize>) {
    let mut next = BEFORE;
    let answer = unsafe {
        apk_payload_write(
            payload.as_ptr(), payload.len(), start, length, out.as_mut_ptr(), out.len(), at, &mut next,
        )
    };
    (answer as u8, set(next))
}

/// What a value lent to the entries below holds before a call, cut to its width. An accepted call may set it to any
/// number, this one too, so what it holds at the end is compared: after a refusal, this.
pub const HELD: u64 = 0xA5A5_A5A5_A5A5_A5A5;

pub fn format_read(bytes: &[u8]) -> (u8, u8) {
    let mut format = HELD as u8;
    let answer = unsafe { apk_format_read(bytes.as_ptr(), bytes.len(), &mut format) };
    (answer as u8, format)
}

pub fn format_encode(format: u8) -> (u8, [u8; 2]) {
    let mut bytes = [HELD as u8; 2];
    let answer = unsafe { apk_format_encode(format, &mut bytes) };
    (answer as u8, bytes)
}

/// The ticks, the rate and the subframe.
pub fn timing_read(bytes: &[u8]) -> (u8, (u16, u8, u8)) {
    let (mut ticks, mut rate, mut subframe) = (HELD as u16, HELD as u8, HELD as u8);
    let answer = unsafe { apk_timing_read(bytes.as_ptr(), bytes.len(), &mut ticks, &mut rate, &mut subframe) };
    (answer as u8, (ticks, rate, subframe))
}

pub fn timing_encode(ticks: u16, rate: u8, subframe: u8) -> (u8, [u8; 2]) {
    let mut bytes = [HELD as u8; 2];
    let answer = unsafe { apk_timing_encode(ticks, rate, subframe, &mut bytes) };
    (answer as u8, bytes)
}

pub fn fps_from_code(code: u8) -> u8 {
    unsafe { apk_fps_from_code(code) as u8 }
}

pub fn fps_as_code(rate: u8) -> (u8, u8) {
    let mut code = HELD as u8;
    let answer = unsafe { apk_fps_as_code(rate, &mut code) };
    (answer as u8, code)
}

pub fn fps_from_int(raw: u8) -> (u8, u8) {
    let mut rate = HELD as u8;
    let answer = unsafe { apk_fps_from_int(raw, &mut rate) };
    (answer as u8, rate)
}

/// A float is given by its bits, here and below.
pub fn fps_as_f32(rate: u8) -> (u8, u32) {
    let mut frames = f32::from_bits(HELD as u32);
    let answer = unsafe { apk_fps_as_f32(rate, &mut frames) };
    (answer as u8, frames.to_bits())
}

/// Hour, minute, second, frame, subframe, rate.
pub type Six = [u8; 6];

pub fn smpte_new([hour, minute, second, frame, subframe, rate]: Six) -> u8 {
    unsafe { apk_smpte_new(hour, minute, second, frame, subframe, rate, RULES) as u8 }
}

pub fn smpte_read([first, minute, second, frame, subframe]: [u8; 5]) -> (u8, Six) {
    let mut time = [HELD as u8; 6];
    let answer = unsafe { apk_smpte_read(first, minute, second, frame, subframe, RULES, &mut time) };
    (answer as u8, time)
}

pub fn smpte_encode([hour, minute, second, frame, subframe, rate]: Six) -> (u8, [u8; 5]) {
    let mut bytes = [HELD as u8; 5];
    let answer = unsafe { apk_smpte_encode(hour, minute, second, frame, subframe, rate, RULES, &mut bytes) };
    (answer as u8, bytes)
}

pub fn smpte_second_f32([hour, minute, second, frame, subframe, rate]: Six) -> (u8, u32) {
    let mut seconds = f32::from_bits(HELD as u32);
    let answer = unsafe { apk_smpte_second_f32(hour, minute, second, frame, subframe, rate, RULES, &mut seconds) };
    (answer as u8, seconds.to_bits())
}

pub fn smpte_position([hour, minute, second, frame, subframe, rate]: Six) -> (u8, u32) {
    let mut subframes = HELD as u32;
    let answer = unsafe { apk_smpte_position(hour, minute, second, frame, subframe, rate, RULES, &mut subframes) };
    (answer as u8, subframes)
}

/// The lowest, the middle and the highest.
pub fn bend_raw_values() -> [u16; 3] {
    unsafe { [apk_bend_min_raw_value() as u16, apk_bend_mid_raw_value() as u16, apk_bend_max_raw_value() as u16] }
}

pub fn bend_from_int(int: i16) -> u16 {
    unsafe { apk_bend_from_int(int) as u16 }
}

pub fn bend_from_f32(bits: u32) -> u16 {
    unsafe { apk_bend_from_f32(f32::from_bits(bits)) as u16 }
}

pub fn bend_from_f64(bits: u64) -> u16 {
    unsafe { apk_bend_from_f64(f64::from_bits(bits)) as u16 }
}

pub fn bend_as_int(raw: u16) -> (u8, i16) {
    let mut int = HELD as i16;
    let answer = unsafe { apk_bend_as_int(raw, &mut int) };
    (answer as u8, int)
}

pub fn bend_as_f32(raw: u16) -> (u8, u32) {
    let mut float = f32::from_bits(HELD as u32);
    let answer = unsafe { apk_bend_as_f32(raw, &mut float) };
    (answer as u8, float.to_bits())
}

pub fn bend_as_f64(raw: u16) -> (u8, u64) {
    let mut float = f64::from_bits(HELD);
    let answer = unsafe { apk_bend_as_f64(raw, &mut float) };
    (answer as u8, float.to_bits())
}

/// What a row holds before a call. No event is this.
const ROW: Row = [u64::MAX; WIDTH];

/// The answer, and the row, the bytes used, the running status after and the padding.
pub fn event_read(bytes: &[u8], at: usize, running: u8) -> (u8, (Option<Row>, usize, u8, usize)) {
    let (mut row, mut used, mut after, mut padding) = (ROW, BEFORE, 0xFF, BEFORE);
    let answer = unsafe {
        apk_event_read(
            bytes.as_ptr(), bytes.len(), at, running, RULES, &mut row, &mut used, &mut after, &mut padding,
        )
    };
    (answer as u8, (Some(row).filter(|row| *row != ROW), used, after, padding))
}

/// The answer, and the length and the running status after.
pub fn event_length(row: &Row, payload: &[u8], running: u8) -> (u8, (Option<usize>, Option<u8>)) {
    let (mut length, mut after) = (BEFORE, 0xFF);
    let answer =
        unsafe { apk_event_length(row, payload.as_ptr(), payload.len(), running, RULES, &mut length, &mut after) };
    (answer as u8, (set(length), Some(after).filter(|after| *after != 0xFF)))
}

/// The answer, and the place after and the running status after, which is the one given where it is refused.
pub fn event_write(
    row: &Row, payload: &[u8], running: u8, out: &mut [u8], at: usize,
) -> (u8, (Option<usize>, u8)) {
    let (mut next, mut after) = (BEFORE, 0xFF);
    let answer = unsafe {
        apk_event_write(
            row, payload.as_ptr(), payload.len(), running, RULES, out.as_mut_ptr(), out.len(), at,
            &mut next, &mut after,
        )
    };
    (answer as u8, (set(next), after))
}

/// The answer, and 1 where two events are the same, else 0; it holds 0xFF before.
pub fn event_same(a: &Row, bytes_a: &[u8], b: &Row, bytes_b: &[u8]) -> (u8, u8) {
    let mut same = 0xFF;
    let answer = unsafe {
        apk_event_same(a, bytes_a.as_ptr(), bytes_a.len(), b, bytes_b.as_ptr(), bytes_b.len(), &mut same)
    };
    (answer as u8, same)
}

/// The count, the place, the running status there, which holds 0xFF before, and the padding.
pub type ListRead = (Option<usize>, Option<usize>, u8, Option<usize>);

pub fn list_read(bytes: &[u8], at: usize, running: u8, rows: &mut [u64]) -> (u8, ListRead) {
    let (mut count, mut place, mut after, mut padding) = (BEFORE, BEFORE, 0xFF, BEFORE);
    let answer = unsafe {
        apk_list_read(
            bytes.as_ptr(), bytes.len(), at, running, RULES,
            rows.as_mut_ptr(), rows.len(), &mut count, &mut place, &mut after, &mut padding,
        )
    };
    (answer as u8, (set(count), set(place), after, set(padding)))
}

/// Rows, how many count, and the bytes that their payloads stand in.
#[derive(Clone, Copy)]
pub struct Sheet<'a> {
    pub rows: &'a [u64],
    pub count: usize,
    pub payload: &'a [u8],
}

/// The length, the running status after, which is the one given where it is refused, and the index of what is refused.
pub type Laid = (Option<usize>, u8, Option<usize>);

pub fn list_length(sheet: Sheet, running: u8) -> (u8, Laid) {
    let (mut length, mut after, mut index) = (BEFORE, 0xFF, BEFORE);
    let answer = unsafe {
        apk_list_length(
            sheet.rows.as_ptr(), sheet.rows.len(), sheet.count, sheet.payload.as_ptr(), sheet.payload.len(),
            running, RULES,
            &mut length, &mut after, &mut index,
        )
    };
    (answer as u8, (set(length), after, set(index)))
}

pub fn list_write(sheet: Sheet, running: u8, out: &mut [u8]) -> (u8, Laid) {
    let (mut length, mut after, mut index) = (BEFORE, 0xFF, BEFORE);
    let answer = unsafe {
        apk_list_write(
            sheet.rows.as_ptr(), sheet.rows.len(), sheet.count, sheet.payload.as_ptr(), sheet.payload.len(),
            running, RULES,
            out.as_mut_ptr(), out.len(), &mut length, &mut after, &mut index,
        )
    };
    (answer as u8, (set(length), after, set(index)))
}

/// The answer, and 1 where two lists are the same, else 0; it holds 0xFF before.
pub fn list_same(a: Sheet, b: Sheet) -> (u8, u8) {
    let mut same = 0xFF;
    let answer = unsafe {
        apk_list_same(
            a.rows.as_ptr(), a.rows.len(), a.count, a.payload.as_ptr(), a.payload.len(),
            b.rows.as_ptr(), b.rows.len(), b.count, b.payload.as_ptr(), b.payload.len(), &mut same,
        )
    };
    (answer as u8, same)
}

/// The table is changed in place.
pub fn sounding_after(rows: &[u64], count: usize, table: &mut Table) -> u8 {
    unsafe { apk_sounding_after(rows.as_ptr(), rows.len(), count, table) as u8 }
}

pub fn sounding_counts(table: &Table) -> [u8; CHANNELS] {
    let mut sounding = [HELD as u8; CHANNELS];
    unsafe { apk_sounding_counts(table, &mut sounding) };
    sounding
}

/// The answer, and how many rows were put.
pub fn sounding_silence(table: &Table, channel: u8, key: u8, rows: &mut [u64]) -> (u8, usize) {
    let mut count = BEFORE;
    let answer =
        unsafe { apk_sounding_silence(table, channel, key, rows.as_mut_ptr(), rows.len(), &mut count) };
    (answer as u8, count)
}

/// The answer, and the count; the ranges are put where they are lent.
pub fn bank_read(block: &[u8], ranges: &mut Ranges) -> (u8, Option<usize>) {
    let mut count = BEFORE;
    let answer = unsafe { apk_bank_read(block.as_ptr(), block.len(), ranges, &mut count) };
    (answer as u8, set(count))
}

/// The answer, and the start and the length.
pub fn bank_track(block: &[u8], index: usize) -> (u8, (Option<usize>, Option<usize>)) {
    let (mut start, mut length) = (BEFORE, BEFORE);
    let answer = unsafe { apk_bank_track(block.as_ptr(), block.len(), index, &mut start, &mut length) };
    (answer as u8, (set(start), set(length)))
}

pub fn bank_list(block: &[u8], index: usize, rows: &mut [u64]) -> (u8, ListRead) {
    let (mut count, mut place, mut after, mut padding) = (BEFORE, BEFORE, 0xFF, BEFORE);
    let answer = unsafe {
        apk_bank_list(
            block.as_ptr(), block.len(), index, RULES,
            rows.as_mut_ptr(), rows.len(), &mut count, &mut place, &mut after, &mut padding,
        )
    };
    (answer as u8, (set(count), set(place), after, set(padding)))
}

/// The answer, and the total.
pub fn bank_write(bytes: &[u8], ranges: &Ranges, count: usize, out: &mut [u8]) -> (u8, Option<usize>) {
    let mut total = BEFORE;
    let answer = unsafe {
        apk_bank_write(bytes.as_ptr(), bytes.len(), ranges, count, out.as_mut_ptr(), out.len(), &mut total)
    };
    (answer as u8, set(total))
}
