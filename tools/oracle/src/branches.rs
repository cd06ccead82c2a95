//! Which branches of the carried Rust were taken. Only the program oracle-branches counts.

use crate::from_source::BRANCHES;
use std::sync::atomic::{AtomicU64, Ordering};

static TAKEN: [AtomicU64; BRANCHES.len()] = [const { AtomicU64::new(0) }; BRANCHES.len()];

pub fn at(branch: usize) {
    TAKEN[branch].fetch_add(1, Ordering::Relaxed);
}

/// Counts the early return that a `?` after it would make.
pub trait Noted {
    fn noted(self, branch: usize) -> Self;
}

impl<T, E> Noted for Result<T, E> {
    fn noted(self, branch: usize) -> Self {
        self.inspect_err(|_| at(branch))
    }
}

impl<T> Noted for Option<T> {
    fn noted(self, branch: usize) -> Self {
        if self.is_none() {
            at(branch);
        }
        self
    }
}

/// How often each branch was taken so far.
pub fn taken() -> Vec<u64> {
    TAKEN
        .iter()
        .map(|count| count.load(Ordering::Relaxed))
        .collect()
}

pub fn describe(branch: usize) -> String {
    let (file, line, kind) = BRANCHES[branch];
    format!("{file}:{line} {kind}")
}
