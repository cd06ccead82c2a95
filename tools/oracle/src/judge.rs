//! Runs the Rust on one input and puts what it gives into document 01's terms.

use crate::domain::Shelf;
use crate::from_source::LOSS_CODES;
use crate::{Diagnostic, Error, domain, gp};
use acorde_core::{Measure, Note, Score, StyledText};
use std::cell::RefCell;
use std::panic::{AssertUnwindSafe, catch_unwind};

/// Bars, tracks, rows, members, curve points, texts.
pub type Six = [usize; 6];

/// The rooms that the listing program lends, and how much of its input it reads.
pub const LISTING_ROOMS: Six = [64, 8, 256, 512, 64, 32];
pub const LISTING_INPUT: usize = 32_768;

pub enum Verdict {
    Read(Answer),
    Refused(Refusal),
    NoRoom(Six),
    /// The Rust panicked: the input is outside the domain.
    Panicked(Panic),
}

#[derive(Clone, Default)]
pub struct Panic {
    pub words: String,
    /// The file in which it happened.
    pub place: String,
}

#[derive(Clone, Copy, PartialEq)]
pub struct Refusal {
    pub outcome: u8,
    pub which: u8,
    pub value: i32,
    /// Where the count's four bytes stand.
    pub offset: usize,
}

pub struct Answer {
    pub score: Score,
    pub losses: [usize; LOSS_CODES.len()],
}

/// A row of document 01, and where its members and curve points begin in their tables.
pub struct Row<'a> {
    pub bar: usize,
    pub track: usize,
    pub voice: usize,
    pub first_member: usize,
    pub first_point: usize,
    pub note: &'a Note,
}

pub struct Entry<'a> {
    pub bar: usize,
    pub track: usize,
    pub text: &'a StyledText,
}

impl Answer {
    pub fn bars(&self) -> usize {
        self.score.handed.keys.len()
    }

    pub fn tracks(&self) -> usize {
        self.score.parts.len()
    }

    pub fn measure(&self, bar: usize, track: usize) -> &Measure {
        &self.score.parts[track].staves[0].measures[bar]
    }

    /// Every bar of every track, in file order.
    fn places(&self) -> impl Iterator<Item = (usize, usize)> {
        let tracks = self.tracks();
        (0..self.bars()).flat_map(move |bar| (0..tracks).map(move |track| (bar, track)))
    }

    pub fn rows(&self) -> Vec<Row<'_>> {
        let mut rows = Vec::new();
        let (mut members, mut points) = (0, 0);
        for (bar, track) in self.places() {
            for (voice, notes) in self.measure(bar, track).voices.iter().enumerate() {
                for note in notes {
                    rows.push(Row {
                        bar,
                        track,
                        voice,
                        first_member: members,
                        first_point: points,
                        note,
                    });
                    members += note.pitches.len();
                    points += note.guitar_bend_curve.len();
                }
            }
        }
        rows
    }

    pub fn texts(&self) -> Vec<Entry<'_>> {
        self.places()
            .flat_map(|(bar, track)| {
                let texts = self.measure(bar, track).texts.iter();
                texts.map(move |text| Entry { bar, track, text })
            })
            .collect()
    }

    pub fn counts(&self) -> Six {
        let rows = self.rows();
        let members = rows.iter().map(|row| row.note.pitches.len()).sum();
        let points = rows
            .iter()
            .map(|row| row.note.guitar_bend_curve.len())
            .sum();
        [
            self.bars(),
            self.tracks(),
            rows.len(),
            members,
            points,
            self.texts().len(),
        ]
    }

    pub fn rooms(&self) -> Six {
        let [bars, tracks, rows, members, ..] = self.counts();
        let rooms = self.score.handed.rooms;
        [bars, tracks, rows, members, rooms.points, rooms.texts]
    }
}

impl Verdict {
    /// Document 01's outcome; a panic has none.
    pub fn refusal(&self) -> Option<Refusal> {
        match self {
            Verdict::Read(_) => Some(Refusal::plain(0)),
            Verdict::Refused(refusal) => Some(*refusal),
            Verdict::NoRoom(_) => Some(Refusal::plain(6)),
            Verdict::Panicked(_) => None,
        }
    }
}

impl Refusal {
    fn plain(outcome: u8) -> Self {
        Self {
            outcome,
            which: 0,
            value: 0,
            offset: 0,
        }
    }

    /// The Rust tells its refusals apart by their words alone.
    pub fn of(error: &Error) -> Self {
        match error {
            Error::Empty => Self::plain(4),
            Error::TooLong => Self::plain(5),
            Error::Xml(words) if words.starts_with("truncated") => Self::plain(1),
            Error::Xml(words) if words.starts_with("unsupported Guitar Pro version") => {
                Self::plain(2)
            }
            Error::Xml(words) => Self::of_count(words),
        }
    }

    fn of_count(words: &str) -> Self {
        const NAMES: [&str; 6] = [
            "notice line",
            "bar",
            "track",
            "string",
            "beat",
            "bend point",
        ];
        let (name, rest) = words
            .strip_prefix("Guitar Pro ")
            .and_then(|rest| rest.split_once(" count "))
            .expect("a refused count");
        let (value, offset) = rest
            .split_once(" is out of range at ")
            .expect("a refused count");
        let place = NAMES
            .iter()
            .position(|known| *known == name)
            .expect("a known count");
        Self {
            outcome: 3,
            which: place as u8 + 1,
            value: value.parse().expect("an i32"),
            offset: offset.parse().expect("a position"),
        }
    }
}

fn losses_of(diagnostics: &[Diagnostic]) -> [usize; LOSS_CODES.len()] {
    let mut losses = [0; LOSS_CODES.len()];
    for diagnostic in diagnostics {
        let place = LOSS_CODES.iter().position(|code| *code == diagnostic.code);
        let count = diagnostic.preserved_value.as_ref().expect("a count");
        losses[place.expect("one of the seventeen codes")] = count.parse().expect("a count");
    }
    losses
}

/// Reads `data`, into tables of the rooms lent; where none are given there is always room.
pub fn judge(data: &[u8], lent: Option<Six>) -> Verdict {
    let parsed = catch_unwind(AssertUnwindSafe(|| gp::parse(data)));
    let (score, diagnostics) = match parsed {
        Err(_) => return Verdict::Panicked(LAST_PANIC.take()),
        Ok(Err(error)) => return Verdict::Refused(Refusal::of(&error)),
        Ok(Ok(parsed)) => parsed,
    };
    let answer = Answer {
        score,
        losses: losses_of(&diagnostics),
    };
    match lent {
        Some(lent) if is_short(lent, answer.rooms()) => Verdict::NoRoom(answer.rooms()),
        _ => Verdict::Read(answer),
    }
}

/// Reads `data` as far as the counts: what is shown of it, or why nothing is.
pub fn shelf(data: &[u8]) -> Result<Shelf, Verdict> {
    domain::set_shelf(true);
    let parsed = catch_unwind(AssertUnwindSafe(|| gp::parse(data)));
    domain::set_shelf(false);
    match parsed {
        Err(ended) => match ended.downcast() {
            Ok(shelf) => Ok(*shelf),
            Err(_) => Err(Verdict::Panicked(LAST_PANIC.take())),
        },
        Ok(Err(error)) => Err(Verdict::Refused(Refusal::of(&error))),
        Ok(Ok(_)) => panic!("the reading of a shelf ends after the counts"),
    }
}

fn is_short(lent: Six, needed: Six) -> bool {
    lent.iter().zip(needed).any(|(lent, needed)| *lent < needed)
}

thread_local! {
    static LAST_PANIC: RefCell<Panic> = RefCell::default();
}

/// Keeps what a panic says, for the verdict, instead of printing it.
pub fn quiet_panics() {
    std::panic::set_hook(Box::new(|info| {
        let path = info.location().map_or("", |location| location.file());
        let panic = Panic {
            words: info.payload_as_str().unwrap_or_default().to_string(),
            place: path.rsplit('/').next().unwrap_or_default().to_string(),
        };
        LAST_PANIC.set(panic);
    }));
}

/// What the last panic said: for one of the oracle's own.
pub fn last_panic() -> String {
    let panic = LAST_PANIC.take();
    format!("panic in {}: {}", panic.place, panic.words)
}

/// Reads as `set_plain` asks for the time of one input.
pub fn judge_plain(data: &[u8]) -> Verdict {
    domain::set_plain(true);
    let verdict = judge(data, None);
    domain::set_plain(false);
    verdict
}
