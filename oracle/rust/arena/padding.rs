//! Padding, which the Rust does not count: the port is compared with a model that is written here from document 02,
//! Q-2, and not from the port's code. Whether a number, a payload or an event is accepted is the Rust's to say; of what
//! is, the model looks at the bytes once more.

use super::report::Entry;

/// What is counted of what was accepted: numbers with a padding above 0, by where they stand.
pub const PADDED: [&str; 2] = ["padded deltas", "padded lengths"];

/// The padding of an event's two numbers; 0 for the length where it has none.
#[derive(Clone, Copy)]
pub struct Padding {
    delta: usize,
    length: usize,
}

impl Padding {
    pub fn sum(self) -> usize {
        self.delta + self.length
    }

    /// Counts what is above 0, as two kinds from an index on.
    pub fn count(self, entry: &mut Entry, first: usize) {
        let paddings = [self.delta, self.length];
        (0..paddings.len()).filter(|i| paddings[*i] > 0).for_each(|i| entry.of_kind(first + i));
    }
}

/// The bytes used less the fewest that hold the value, and 0 where fewer were used because the bytes ended: of the
/// number that these bytes begin with.
pub fn of_number(bytes: &[u8]) -> usize {
    let used = used(bytes);
    let value = bytes[..used].iter().fold(0, |value, byte| 128 * value + (byte % 128) as u32);
    used.saturating_sub(fewest(value))
}

/// How many bytes a number has: up to one below 128, or four, or all that are left.
fn used(bytes: &[u8]) -> usize {
    let last = bytes.iter().take(4).position(|byte| *byte < 128);
    last.map_or(bytes.len().min(4), |last| last + 1)
}

/// How many bytes of seven bits hold a value, of which even 0 takes one.
fn fewest(value: u32) -> usize {
    match value {
        0..=127 => 1,
        128..=16_383 => 2,
        16_384..=2_097_151 => 3,
        _ => 4,
    }
}

/// Of the event that these bytes begin with, which the Rust has accepted: the delta's, and that of the length, which
/// stands behind F0 and F7, and behind FF and a type. Anything else is a channel message, whose status may be left out.
pub fn of_event(bytes: &[u8]) -> Padding {
    let behind = &bytes[used(bytes)..];
    let length = match behind[0] {
        0xF0 | 0xF7 => of_number(&behind[1..]),
        0xFF => of_number(&behind[2..]),
        _ => 0,
    };
    Padding { delta: of_number(bytes), length }
}
