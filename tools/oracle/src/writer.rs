//! Bytes of a file with what is known of them: which are passed over, of which the sign alone
//! counts, where its counts, text sizes and the beats of its rows stand.

use std::iter::repeat_n;
use std::ops::Range;

/// Document 01's six counts, by their numbers.
#[derive(Clone, Copy, PartialEq)]
pub enum Count {
    Notices = 1,
    Bars,
    Tracks,
    Strings,
    Beats,
    Points,
}

pub const COUNTS: [(Count, usize); 6] = [
    (Count::Notices, 1_000),
    (Count::Bars, 10_000),
    (Count::Tracks, 100),
    (Count::Strings, 7),
    (Count::Beats, 1_000),
    (Count::Points, 1_000),
];

pub const LONGEST_TEXT: usize = 1_048_576;

/// What long texts are made of.
pub const FILL: u8 = b'x';

#[derive(Clone, Default)]
pub struct Made {
    pub bytes: Vec<u8>,
    /// How many of the bytes are the file's; what follows is not read.
    pub used: usize,
    /// What document 01 names as passed over, in order.
    pub passed: Vec<Range<usize>>,
    /// Where the first zero byte of a kept text stands, and what follows it in the text: passed
    /// over by document 02, n.
    pub zeros: Vec<usize>,
    pub after_zeros: Vec<Range<usize>>,
    /// Where values of mix tables stand, of which the sign alone counts (document 02, n).
    pub signs: Vec<usize>,
    pub counts: Vec<(usize, Count)>,
    /// Of each row, in order, where its beat stands (document 02, f).
    pub rows: Vec<Range<usize>>,
    /// Where the four bytes of a text's size stand.
    pub sizes: Vec<usize>,
    /// Where ports, channels, lyric track and lyric starts stand.
    pub numbers_from_one: Vec<usize>,
}

impl Made {
    pub fn kept(&mut self, bytes: &[u8]) {
        self.bytes.extend_from_slice(bytes);
    }

    pub fn passed(&mut self, bytes: &[u8]) {
        let start = self.bytes.len();
        self.kept(bytes);
        if !bytes.is_empty() {
            self.passed.push(start..self.bytes.len());
        }
    }

    pub fn u8(&mut self, value: u8) {
        self.kept(&[value]);
    }

    pub fn i16(&mut self, value: i16) {
        self.kept(&value.to_le_bytes());
    }

    pub fn i32(&mut self, value: i32) {
        self.kept(&value.to_le_bytes());
    }

    pub fn number_from_one(&mut self, value: i32) {
        self.numbers_from_one.push(self.bytes.len());
        self.i32(value);
    }

    pub fn count(&mut self, count: Count, value: usize) {
        self.counts.push((self.bytes.len(), count));
        self.i32(value as i32);
    }

    pub fn size(&mut self, value: i32) {
        self.sizes.push(self.bytes.len());
        self.i32(value);
    }

    /// A kept text.
    pub fn text(&mut self, bytes: &[u8]) {
        let start = self.bytes.len();
        self.kept(bytes);
        if let Some(zero) = bytes.iter().position(|byte| *byte == 0) {
            self.zeros.push(start + zero);
            self.after_zeros.push(start + zero + 1..self.bytes.len());
        }
    }

    pub fn content(&mut self, bytes: &[u8], kept: bool) {
        if kept {
            self.text(bytes)
        } else {
            self.passed(bytes)
        }
    }

    pub fn sign(&mut self, value: u8) {
        self.signs.push(self.bytes.len());
        self.u8(value);
    }

    /// A kept beat ends: it is one row, and one more before it where it has a grace.
    pub fn end_beat(&mut self, start: usize, has_grace: bool) {
        let beat = start..self.bytes.len();
        self.rows.extend(repeat_n(beat, 1 + usize::from(has_grace)));
    }

    /// Where the counts of a kind stand, in order.
    pub fn places_of(&self, wanted: Count) -> Vec<usize> {
        let of_kind = self.counts.iter().filter(|(_, count)| *count == wanted);
        of_kind.map(|(at, _)| *at).collect()
    }

    pub fn set_i32(&mut self, at: usize, value: i32) {
        self.bytes[at..at + 4].copy_from_slice(&value.to_le_bytes());
    }

    /// Marks the end of what is read; `rest` follows it.
    pub fn finish(mut self, rest: &[u8]) -> Self {
        self.used = self.bytes.len();
        self.passed(rest);
        self
    }
}
