//! Where documents 01 and 02 decide and not the Rust: outside the domain. In the plain mode each
//! of these is what the Rust has in its place. And where the shelf of document 02, c, ends.

use crate::Error;
use acorde_core::{Metadata, Text};
use std::panic::resume_unwind;
use std::sync::atomic::{AtomicBool, Ordering};

pub const LONGEST: usize = 16_777_216;

static PLAIN: AtomicBool = AtomicBool::new(false);

static SHELF: AtomicBool = AtomicBool::new(false);

/// What a file browser shows.
pub struct Shelf {
    pub version: u16,
    pub title: Text,
    pub composer: Text,
    pub bars: usize,
    pub tracks: usize,
}

pub fn set_plain(plain: bool) {
    PLAIN.store(plain, Ordering::Relaxed);
}

pub fn set_shelf(shelf: bool) {
    SHELF.store(shelf, Ordering::Relaxed);
}

fn is_plain() -> bool {
    PLAIN.load(Ordering::Relaxed)
}

/// Document 02, e: the lowest number is "any other value below 1", so nothing wraps.
pub fn less_one(value: i32) -> i32 {
    if is_plain() {
        value - 1
    } else {
        value.saturating_sub(1)
    }
}

/// "Hundreds times major plus minor is worked out without wrapping."
pub fn version(major: u16, minor: u16) -> Option<u16> {
    if is_plain() {
        Some(major * 100 + minor)
    } else {
        u16::try_from(u32::from(major) * 100 + u32::from(minor)).ok()
    }
}

/// Refusal 5: "where a field would end past 16,777,216 in a longer file".
pub fn in_limit(data: &[u8], end: usize) -> Result<(), Error> {
    if !is_plain() && data.len() > LONGEST && end > LONGEST {
        return Err(Error::TooLong);
    }
    Ok(())
}

/// "It should stop right after the bar and track counts": where a shelf is asked for, the reading
/// unwinds from here with it, so that the Rust has no branch more.
pub fn after_counts(version: u16, metadata: &Metadata, bars: usize, tracks: usize) {
    if SHELF.load(Ordering::Relaxed) {
        resume_unwind(Box::new(Shelf {
            version,
            title: metadata.title.clone(),
            composer: metadata.composer.clone(),
            bars,
            tracks,
        }));
    }
}
