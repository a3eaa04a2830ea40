//! How many cells a row has, how many events a list holds, how many channels and keys a table has, and how many tracks
//! and bytes a bank may have: `tools/header-check` holds them to the header's.

pub const WIDTH: usize = 10;
pub const CAPACITY: usize = 128;
pub const CHANNELS: usize = 16;
pub const KEYS: usize = 128;
pub const TRACKS: usize = 16;
pub const LARGEST: usize = 65_536;

/// An event's cells.
pub type Row = [u64; WIDTH];

/// A table's bytes, those of channel 0 by key first.
pub type Table = [u8; CHANNELS * KEYS];

/// The cells of a bank's ranges, the start and the length of each.
pub type Ranges = [u64; 2 * TRACKS];
