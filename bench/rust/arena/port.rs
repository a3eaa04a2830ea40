//! The entries as C sees them, twice: the port's, and those of bench/plain.c. An answer is a byte in a register whose
//! other bits may be anything.

type EventRead =
    unsafe extern "C" fn(*const u8, usize, usize, u8, u8, *mut Row, *mut usize, *mut u8, *mut usize) -> u32;
type EventWrite =
    unsafe extern "C" fn(*const Row, *const u8, usize, u8, u8, *mut u8, usize, usize, *mut usize, *mut u8) -> u32;
type ListRead = unsafe extern "C" fn(
    *const u8, usize, usize, u8, u8, *mut u64, usize, *mut usize, *mut usize, *mut u8, *mut usize,
) -> u32;
type ListWrite = unsafe extern "C" fn(
    *const u64, usize, usize, *const u8, usize, u8, u8, *mut u8, usize, *mut usize, *mut u8, *mut usize,
) -> u32;

macro_rules! entries {
    ($($event_read:ident $event_write:ident $list_read:ident $list_write:ident)*) => {
        extern "C" {
            $(
                fn $event_read(
                    bytes: *const u8, length: usize, at: usize, running: u8, rules: u8,
                    row: *mut Row, used: *mut usize, after: *mut u8, padding: *mut usize,
                ) -> u32;
                fn $event_write(
                    row: *const Row, payload: *const u8, payload_length: usize, running: u8, rules: u8,
                    out: *mut u8, out_length: usize, at: usize, next: *mut usize, after: *mut u8,
                ) -> u32;
                fn $list_read(
                    bytes: *const u8, length: usize, at: usize, running: u8, rules: u8,
                    rows: *mut u64, cells: usize, count: *mut usize, place: *mut usize, after: *mut u8,
                    padding: *mut usize,
                ) -> u32;
                fn $list_write(
                    rows: *const u64, cells: usize, count: usize, payload: *const u8, payload_length: usize,
                    running: u8, rules: u8,
                    out: *mut u8, out_length: usize, length: *mut usize, after: *mut u8, index: *mut usize,
                ) -> u32;
            )*
        }
    };
}

entries! {
    apk_event_read apk_event_write apk_list_read apk_list_write
    plain_event_read plain_event_write plain_list_read plain_list_write
}

/// One set of entries.
#[derive(Clone, Copy)]
pub struct Entries {
    event_read: EventRead,
    event_write: EventWrite,
    list_read: ListRead,
    list_write: ListWrite,
}

/// The port's, which are proved.
pub const PORT: Entries = Entries {
    event_read: apk_event_read,
    event_write: apk_event_write,
    list_read: apk_list_read,
    list_write: apk_list_write,
};

/// Plain C's, which are not.
pub const PLAIN: Entries = Entries {
    event_read: plain_event_read,
    event_write: plain_event_write,
    list_read: plain_list_read,
    list_write: plain_list_write,
};

/// The rules of a call, a set of bits: lenient.
const RULES: u8 = 0;
/// How many cells a row has, and how many events a list holds: `tools/header-check` holds both to the header's.
pub const WIDTH: usize = 10;
pub const CAPACITY: usize = 128;
/// The answer of a list that is full.
pub const FULL: u8 = 255;

pub type Row = [u64; WIDTH];

impl Entries {
    /// The event at a place: the answer, the bytes used, the running status after it and its padding.
    #[inline(always)]
    pub fn event_read(self, bytes: &[u8], at: usize, running: u8, row: &mut Row) -> (u8, usize, u8, usize) {
        let (mut used, mut after, mut padding) = (0, 0, 0);
        let answer = unsafe {
            (self.event_read)(
                bytes.as_ptr(), bytes.len(), at, running, RULES, row, &mut used, &mut after, &mut padding,
            )
        };
        (answer as u8, used, after, padding)
    }

    #[inline(always)]
    pub fn event_write(self, row: &Row, payload: &[u8], running: u8, out: &mut [u8], at: usize) -> (u8, usize, u8) {
        let (mut next, mut after) = (0, 0);
        let answer = unsafe {
            (self.event_write)(
                row, payload.as_ptr(), payload.len(), running, RULES, out.as_mut_ptr(), out.len(), at, &mut next, &mut after,
            )
        };
        (answer as u8, next, after)
    }

    /// The list at a place: the answer, the count, the place after it, the running status there and its padding.
    #[inline(always)]
    pub fn list_read(
        self, bytes: &[u8], at: usize, running: u8, rows: &mut [Row; CAPACITY],
    ) -> (u8, usize, usize, u8, usize) {
        let (mut count, mut place, mut after, mut padding) = (0, 0, 0, 0);
        let answer = unsafe {
            let cells = rows.as_mut_ptr() as *mut u64;
            (self.list_read)(
                bytes.as_ptr(), bytes.len(), at, running, RULES, cells, WIDTH * CAPACITY,
                &mut count, &mut place, &mut after, &mut padding,
            )
        };
        (answer as u8, count, place, after, padding)
    }

    /// So many rows written: the answer, the length and the running status after them.
    #[inline(always)]
    pub fn list_write(self, rows: &[Row], payload: &[u8], running: u8, out: &mut [u8]) -> (u8, usize, u8) {
        let (mut length, mut after, mut index) = (0, 0, 0);
        let answer = unsafe {
            let cells = rows.as_ptr() as *const u64;
            (self.list_write)(
                cells, WIDTH * rows.len(), rows.len(), payload.as_ptr(), payload.len(), running, RULES,
                out.as_mut_ptr(), out.len(), &mut length, &mut after, &mut index,
            )
        };
        (answer as u8, length, after)
    }
}
