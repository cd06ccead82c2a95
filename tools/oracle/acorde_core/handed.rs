//! What document 01's answer and tables hold but the Rust's `Score` does not: the patches hand
//! it out here.

use crate::Text;

#[derive(Default)]
pub struct Handed {
    pub used: usize,
    pub version: u16,
    pub lyric_track: Option<usize>,
    pub lyric_lines: Vec<(usize, Text)>,
    /// Each bar's key as read: fifths and whether it is minor.
    pub keys: Vec<Option<(i8, bool)>>,
    pub tracks: Vec<HandedTrack>,
    pub rooms: Rooms,
}

pub struct HandedTrack {
    pub name: Text,
    pub tuning: Vec<i16>,
    pub capo: u8,
}

/// The two rooms that can't be counted from the score.
#[derive(Clone, Copy, Default)]
pub struct Rooms {
    pub points: usize,
    pub texts: usize,
}

impl Rooms {
    /// Over every note read with a non-empty bend, its points plus 2.
    pub fn add_bend(&mut self, points: usize) {
        if points > 0 {
            self.points += points + 2;
        }
    }
}
