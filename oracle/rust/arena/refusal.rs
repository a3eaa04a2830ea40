//! The Rust's errors in the numbers of the table of refusals. An error keeps its chain in a build with debug
//! assertions: what it was under, outermost first, and at the end what was wrong.

use crate::{error::Error, io::CursorError, prelude::*};

/// Of an error with its chain.
pub fn of(error: &Error) -> u8 {
    let mut last = error;
    while let Some(source) = last.source() {
        last = source;
    }
    match last.kind().message() {
        INTEGER if is_under(error, "failed to read meta message type") => 10,
        INTEGER if is_under(error, "failed to read meta event") => 14,
        wrong => number(wrong),
    }
}

/// Of an error that stands under nothing.
pub fn of_kind(kind: &ErrorKind) -> u8 {
    number(kind.message())
}

/// Three places share these words.
const INTEGER: &str = "failed to read the expected integer";

/// Whether these words are in an error's chain.
fn is_under(error: &Error, words: &str) -> bool {
    let mut next = Some(error);
    while let Some(error) = next {
        if error.kind().message() == words {
            return true;
        }
        next = error.source();
    }
    false
}

/// Of a refused write.
pub fn of_write(error: &CursorError) -> u8 {
    match error {
        CursorError::OutOfSpace => 20,
        CursorError::InvalidInput("varlen slice exceeds 28 bits") => 22,
        CursorError::InvalidInput(other) => panic!("a refused write that has no number: {}", other),
    }
}

fn number(wrong: &str) -> u8 {
    match wrong {
        "unexpected eof while reading varlen int" => 2,
        "varlen integer larger than 4 bytes" => 3,
        "failed to read status" => 4,
        "event missing status with no running status active" => 5,
        "standard midi files cannot contain system common events" => 6,
        "standard midi files cannot contain system realtime events" => 7,
        "truncated midi message" => 8,
        "invalid integer with top bits set" => 9,
        "incomplete varlen slice" => 11,
        "expected u4, found u8" | "expected u7, found u8" => 12,
        "invalid smpte time" => 13,
        "invalid smf format" => 15,
        "invalid smpte fps" => 16,
        INTEGER => 17,
        _ => panic!("a refusal that has no number: {}", wrong),
    }
}
