//! Stands in for midly's own `arena.rs`, as oracle/rust/arena.rs does, and holds the measurement, which thereby
//! stands inside the crate and reaches the Rust's reader and writer of one event.

use crate::prelude::*;

mod measure;
mod port;
mod tracks;

/// What `live.rs` asks of an arena, by leaking. No measurement comes here.
#[derive(Debug)]
pub struct Arena;

impl Arena {
    pub(crate) fn add(&self, bytes: &[u8]) -> &mut [u8] {
        self.add_vec(bytes.to_vec())
    }

    pub(crate) fn add_vec(&self, bytes: Vec<u8>) -> &mut [u8] {
        bytes.leak()
    }

    /// Measures the port beside the Rust on generated tracks, and on the tracks of a folder.
    pub fn bench(folder: Option<String>) {
        measure::run(folder);
    }
}
