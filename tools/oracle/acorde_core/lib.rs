//! A stand-in for the crate `acorde_core`, which can't be had: plain data under the names that
//! gp5.rs and gp/mod.rs use, and the handful of methods that they call. Nothing here reads a
//! file. What it decides by itself is listed in docs/DIFFERENCES.md.

mod handed;
mod text;

use std::ops::Range;

pub use handed::{Handed, HandedTrack, Rooms};
pub use text::Text;

#[derive(Clone, Copy, Debug, PartialEq)]
pub enum Articulation {
    Accent,
    Doit,
    DownBow,
    Falloff,
    Harmonic,
    Marcato,
    Plop,
    Scoop,
    Staccato,
    Tap,
    Tremolo(u8),
    Trill,
    UpBow,
    Vibrato,
}

#[derive(Clone, Copy, Debug, Default, PartialEq)]
pub enum Barline {
    #[default]
    Normal,
    Double,
    RepeatStart,
    RepeatEnd,
}

#[derive(Clone, Copy, Debug, PartialEq)]
pub enum Clef {
    Treble,
    Bass,
    Percussion,
}

#[derive(Clone, Copy, Debug, PartialEq)]
pub enum Duration {
    Whole,
    Half,
    Quarter,
    Eighth,
    Sixteenth,
    ThirtySecond,
    SixtyFourth,
}

/// Numbered as document 01 numbers a dynamic.
#[derive(Clone, Copy, Debug, PartialEq)]
pub enum Dynamic {
    Ppp = 1,
    Pp,
    P,
    Mp,
    Mf,
    F,
    Ff,
    Fff,
}

#[derive(Clone, Copy, Debug, PartialEq)]
pub enum GuitarTechnique {
    Bend,
    HammerOn,
    PullOff,
    Slide,
}

#[derive(Clone, Copy, Debug, Default, PartialEq)]
pub enum NoteHead {
    #[default]
    Normal,
    X,
}

#[derive(Clone, Copy, Debug, PartialEq)]
pub enum OttavaKind {
    Va8,
    Vb8,
    Ma15,
    Mb15,
}

#[derive(Clone, Copy, Debug, Default, PartialEq)]
pub enum StaffKind {
    #[default]
    Standard,
    Tablature,
    Percussion,
}

#[derive(Clone, Debug)]
pub enum TextStyle {
    Generic,
}

/// A chord name, kept as text: parsing it is left behind.
#[derive(Clone, Debug)]
pub struct ChordSymbol {
    pub name: Text,
    pub placement: Option<String>,
}

impl ChordSymbol {
    pub fn named(name: Text) -> Self {
        Self {
            name,
            placement: None,
        }
    }
}

#[derive(Clone, Copy, Debug)]
pub struct GuitarBendPoint {
    pub position_per_mille: u16,
    pub alter_cents: i16,
}

#[derive(Clone, Debug)]
pub struct KeySignature {
    pub fifths: i8,
    pub mode: String,
}

/// A MIDI key and the flat preference; spelling is left behind.
#[derive(Clone, Debug)]
pub struct Pitch {
    key: u8,
    pub prefer_flat: bool,
}

impl Pitch {
    pub fn from_midi(key: u8, prefer_flat: bool) -> Self {
        Self { key, prefer_flat }
    }

    pub fn to_midi(&self) -> u8 {
        self.key
    }
}

#[derive(Clone, Debug)]
pub struct StyledText {
    pub position_beats: Option<f64>,
    pub style: TextStyle,
    pub text: Text,
    pub placement: Option<String>,
    pub offset_x: Option<f64>,
    pub offset_y: Option<f64>,
    pub relative_x: Option<f64>,
    pub relative_y: Option<f64>,
}

#[derive(Clone, Debug)]
pub struct TabPosition {
    pub string: u8,
    pub fret: u8,
}

#[derive(Clone, Debug)]
pub struct TablatureConfig {
    pub lines: u8,
    pub tuning_midi: Vec<i16>,
    pub capo: u8,
}

#[derive(Clone, Copy, Debug)]
pub struct TimeSignature {
    pub numerator: u8,
    pub denominator: u8,
}

#[derive(Clone, Copy, Debug)]
pub struct TupletInfo {
    pub actual_notes: u8,
    pub normal_notes: u8,
}

#[derive(Clone, Debug)]
pub struct VoltaBracket {
    pub number: u8,
    pub kind: String,
    pub numbers: Vec<u8>,
}

/// One row: its members are `pitches`; the other lists are per member or empty.
#[derive(Clone, Debug)]
pub struct Note {
    pub duration: Duration,
    pub dot_count: u8,
    pub tuplet: Option<TupletInfo>,
    pub is_rest: bool,
    pub is_grace: bool,
    pub grace_slash: bool,
    pub is_unpitched: bool,
    pub pitches: Vec<Pitch>,
    pub tab_position: Option<TabPosition>,
    pub tab_positions: Vec<TabPosition>,
    pub parenthesized: Vec<bool>,
    pub tie_starts: Vec<bool>,
    pub tie_ends: Vec<bool>,
    /// The plain finger: that of the first member.
    pub fingering: Option<u8>,
    pub pitch_fingerings: Vec<Option<u8>>,
    pub guitar_technique: Option<GuitarTechnique>,
    pub technique_text: Option<String>,
    pub guitar_bend_curve: Vec<GuitarBendPoint>,
    pub guitar_bend_alter_cents: Option<i16>,
    pub dynamic: Option<Dynamic>,
    pub articulations: Vec<Articulation>,
    pub arpeggiate: Option<bool>,
    pub note_head: NoteHead,
    pub ottava_start: Option<OttavaKind>,
    pub ottava_end: bool,
    pub chord_symbol: Option<ChordSymbol>,
    /// Where its beat stands in the input.
    pub beat: Range<usize>,
}

impl Note {
    pub fn rest(duration: Duration) -> Self {
        Self {
            duration,
            dot_count: 0,
            tuplet: None,
            is_rest: true,
            is_grace: false,
            grace_slash: false,
            is_unpitched: false,
            pitches: Vec::new(),
            tab_position: None,
            tab_positions: Vec::new(),
            parenthesized: Vec::new(),
            tie_starts: Vec::new(),
            tie_ends: Vec::new(),
            fingering: None,
            pitch_fingerings: Vec::new(),
            guitar_technique: None,
            technique_text: None,
            guitar_bend_curve: Vec::new(),
            guitar_bend_alter_cents: None,
            dynamic: None,
            articulations: Vec::new(),
            arpeggiate: None,
            note_head: NoteHead::Normal,
            ottava_start: None,
            ottava_end: false,
            chord_symbol: None,
            beat: 0..0,
        }
    }

    pub fn new(pitch: Pitch, duration: Duration) -> Self {
        Self {
            is_rest: false,
            pitches: vec![pitch],
            ..Self::rest(duration)
        }
    }

    pub fn set_parenthesized(&mut self, member: usize, on: bool) {
        set_at(&mut self.parenthesized, member, on);
    }

    pub fn set_pitch_fingering(&mut self, member: usize, finger: u8) {
        if member == 0 {
            self.fingering = Some(finger);
        }
        set_at(&mut self.pitch_fingerings, member, Some(finger));
    }

    pub fn set_pitch_ties(&mut self, starts: &[bool], ends: &[bool]) {
        self.tie_starts = starts.to_vec();
        self.tie_ends = ends.to_vec();
    }

    /// One flag for each member: the stand-in knows no uniform tie, so none is set by default.
    pub fn pitch_tie_starts_or_uniform(&self) -> Vec<bool> {
        for_each_member(&self.tie_starts, self.pitches.len())
    }

    pub fn pitch_tie_ends_or_uniform(&self) -> Vec<bool> {
        for_each_member(&self.tie_ends, self.pitches.len())
    }
}

fn set_at<T: Clone + Default>(list: &mut Vec<T>, place: usize, value: T) {
    if list.len() <= place {
        list.resize(place + 1, T::default());
    }
    list[place] = value;
}

fn for_each_member(flags: &[bool], members: usize) -> Vec<bool> {
    let mut all = flags.to_vec();
    all.resize(members, false);
    all
}

#[derive(Clone, Debug)]
pub struct Measure {
    pub number: u32,
    /// The bar's time as it is in force, whether or not it changed.
    pub time: TimeSignature,
    pub voices: [Vec<Note>; 4],
    pub texts: Vec<StyledText>,
    pub time_sig: Option<TimeSignature>,
    pub key_sig: Option<KeySignature>,
    pub barline_left: Barline,
    pub barline_right: Barline,
    pub volta: Option<VoltaBracket>,
    pub rehearsal: Option<Text>,
    pub navigation: Option<String>,
    pub tempo: Option<u16>,
}

impl Measure {
    pub fn empty(numerator: u8, denominator: u8) -> Self {
        Self {
            number: 0,
            time: TimeSignature {
                numerator,
                denominator,
            },
            voices: [vec![], vec![], vec![], vec![]],
            texts: Vec::new(),
            time_sig: None,
            key_sig: None,
            barline_left: Barline::Normal,
            barline_right: Barline::Normal,
            volta: None,
            rehearsal: None,
            navigation: None,
            tempo: None,
        }
    }
}

#[derive(Default)]
pub struct StaffPresentation {
    pub kind: StaffKind,
    pub lines: u8,
}

pub struct Staff {
    pub clef: Clef,
    pub tablature: Option<TablatureConfig>,
    pub presentation: StaffPresentation,
    pub measures: Vec<Measure>,
}

impl Staff {
    pub fn new(clef: Clef) -> Self {
        Self {
            clef,
            tablature: None,
            presentation: StaffPresentation::default(),
            measures: Vec::new(),
        }
    }
}

pub struct Part {
    pub name: String,
    pub midi_program: u8,
    pub midi_channel: u8,
    pub staves: Vec<Staff>,
}

impl Part {
    pub fn new(name: &str, _abbreviation: &str) -> Self {
        Self {
            name: name.to_string(),
            midi_program: 0,
            midi_channel: 0,
            staves: Vec::new(),
        }
    }
}

#[derive(Default)]
pub struct Metadata {
    pub title: Text,
    pub movement_title: Text,
    pub composer: Text,
    pub lyricist: Text,
    pub copyright: Text,
}

pub struct Settings {
    pub time_signature: TimeSignature,
    pub key_signature: KeySignature,
    /// 0 is no tempo: gp5.rs sets only 1 to 999.
    pub tempo_bpm: u16,
}

impl Default for Settings {
    fn default() -> Self {
        Self {
            time_signature: TimeSignature {
                numerator: 4,
                denominator: 4,
            },
            key_signature: KeySignature {
                fifths: 0,
                mode: "major".to_string(),
            },
            tempo_bpm: 0,
        }
    }
}

#[derive(Default)]
pub struct Score {
    pub parts: Vec<Part>,
    pub metadata: Metadata,
    pub settings: Settings,
    pub handed: Handed,
}
