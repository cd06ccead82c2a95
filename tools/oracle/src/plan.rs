//! What a made file holds: its version, its sizes and how likely each optional field is.

use crate::dice::Dice;

/// Every optional field, and three habits of its values.
#[derive(Clone, Copy)]
pub enum Field {
    Accent,
    Bend,
    Blanks,
    Break,
    Brush,
    Chord,
    Direction,
    Dot,
    DoubleBar,
    Dynamic,
    Ending,
    Finger,
    Fret,
    Ghost,
    Grace,
    Hammer,
    Harmonic,
    HeavyAccent,
    Independent,
    Key,
    LetRing,
    Lyric,
    Marker,
    MissingString,
    Mix,
    NoteEffects,
    NoteVibrato,
    Ottava,
    PalmMute,
    Percussion,
    Pick,
    Rasgueado,
    RepeatEnd,
    RepeatStart,
    Slide,
    Staccato,
    Status,
    String,
    Swell,
    Tapping,
    Text,
    Tie,
    Time,
    Tremolo,
    Trill,
    Triplet,
    Tuplet,
    Unkept,
    BeatEffects,
    BeatText,
    BeatVibrato,
    Whammy,
    Wild,
}

const FIELDS: usize = Field::Wild as usize + 1;

#[derive(Clone)]
pub struct Plan {
    /// What follows "FICHIER GUITAR PRO v", and the number that it means.
    pub version_text: &'static str,
    pub version: u16,
    pub notices: usize,
    pub bars: usize,
    pub tracks: usize,
    /// Strings of each track; any number where it is not given.
    pub strings: Option<usize>,
    /// Least and most beats in a voice, points in a bend or whammy.
    pub beats: (usize, usize),
    pub points: (usize, usize),
    /// Bytes in each notice line, each page text and each lyric line.
    pub notice_length: usize,
    pub page_lengths: Vec<usize>,
    pub lyric_lengths: Vec<usize>,
    /// Bytes after the file's end.
    pub rest: usize,
    /// The lowest i32 in a port, channel or lyric field: outside the Rust's domain.
    pub lowest: bool,
    /// A zero byte in every second text.
    pub zeros: bool,
    pub percents: [u8; FIELDS],
}

/// Versions that are read: the five of the format first, then odd ways to write one.
pub const VERSIONS: [(&str, u16); 17] = [
    ("3.00", 300),
    ("4.00", 400),
    ("4.06", 406),
    ("5.00", 500),
    ("5.10", 510),
    ("2.100", 300),
    ("+4.6", 406),
    ("4.05", 405),
    ("0.599", 599),
    ("3.99", 399),
    ("3.199", 499),
    ("5.09", 509),
    ("5.099", 599),
    ("005.10 x", 510),
    ("+005.9", 509),
    ("4.6.7", 406),
    ("5.10L", 510),
];

/// Versions that are refused; the last four are outside the Rust's domain.
pub const REFUSED_VERSIONS: [&str; 19] = [
    "5.100", "2.99", "6.00", "5.", ".5", "5", "", "-5.0", " 5.00", "++5.0", "5,00", "5.+1",
    "99999.0", "5.99999", "0.0", "656.300", "655.36", "5.65535", "65535.0",
];

impl Plan {
    /// One bar, one track, no strings, no beats, every text empty.
    pub fn smallest((version_text, version): (&'static str, u16)) -> Self {
        Self {
            version_text,
            version,
            notices: 0,
            bars: 1,
            tracks: 1,
            strings: Some(0),
            beats: (0, 0),
            points: (0, 0),
            notice_length: 0,
            page_lengths: vec![0; 11],
            lyric_lengths: vec![0; 5],
            rest: 0,
            lowest: false,
            zeros: false,
            percents: [0; FIELDS],
        }
    }

    /// A file of any kind. `percent`, where given, is every optional field's likelihood.
    pub fn random(dice: &mut Dice, percent: Option<u8>) -> Self {
        let versions = if dice.percent(85) {
            &VERSIONS[..5]
        } else {
            &VERSIONS
        };
        let mut plan = Self::smallest(dice.pick(versions));
        for chance in &mut plan.percents {
            *chance = percent.unwrap_or_else(|| dice.pick(&[0, 0, 10, 30, 60, 95]));
        }
        let large = dice.percent(4);
        plan.notices = dice.pick(&[0, 0, 0, 1, 3]);
        plan.bars = dice.within(1, if large { 24 } else { 4 });
        plan.tracks = dice.within(1, if large { 12 } else { 3 });
        plan.strings = if dice.percent(20) {
            Some(dice.below(8))
        } else {
            None
        };
        plan.beats = (0, if large { 8 } else { dice.within(1, 4) });
        plan.points = (0, dice.pick(&[1, 3, 6]));
        plan.rest = if dice.percent(10) {
            dice.within(1, 40)
        } else {
            0
        };
        plan.lowest = dice.percent(3);
        if plan.chance_of(Field::Text) > 0 {
            plan.notice_length = dice.below(12);
            plan.page_lengths = (0..11).map(|_| dice.below(9)).collect();
        }
        if plan.chance_of(Field::Lyric) > 0 {
            plan.lyric_lengths = (0..5).map(|_| dice.below(30)).collect();
        }
        plan
    }

    /// A small random file, for lists of which every byte counts.
    pub fn small(dice: &mut Dice) -> Self {
        let mut plan = Self::random(dice, None);
        plan.notices = plan.notices.min(1);
        plan.bars = plan.bars.min(3);
        plan.tracks = plan.tracks.min(2);
        plan.beats = (0, plan.beats.1.min(3));
        plan
    }

    pub fn with(mut self, field: Field, percent: u8) -> Self {
        self.percents[field as usize] = percent;
        self
    }

    pub fn chance_of(&self, field: Field) -> u8 {
        self.percents[field as usize]
    }
}
