"""Every change made to the Rust before it is compiled, with its reason.

A patch is (how often its text is found, text, replacement, reason). A text found any other
number of times is an error. A replacement keeps the number of lines, so that a line number of
the patched file is one of the original.
"""

GP5 = [
    # Left behind: finish_measures, apply_lyrics, parse_chord_label.
    (1, "finish_bend_curve, finish_measures, gp_dynamic", "finish_bend_curve, gp_dynamic",
     "finish_measures is not carried across"),
    (1, "finish_measures(&mut score, false);", "",
     "finish_measures is not carried across"),
    (1, "KeySignature, Lyric,", "KeySignature,",
     "apply_lyrics is not carried across"),
    (1, "apply_lyrics(track_measures, &lyric_lines);", "",
     "apply_lyrics is not carried across"),
    (1, "crate::chord_label::parse_chord_label(&name)", "Some(acorde_core::ChordSymbol::named(name))",
     "a chord name is text and its loss uncounted"),

    # Texts carry their range in the input.
    (1, "use std::collections::BTreeMap;", "use acorde_core::Text as String; use std::collections::BTreeMap;",
     "a text is a decoded string with its range"),
    (1, "fn decode_ansi(bytes: &[u8]) -> String {", "fn decode_ansi(bytes: &[u8]) -> std::string::String {",
     "the Rust's own decoding stays as it is; its callers add the range"),
    (1, "Ok(decode_ansi(self.bytes(length)?))",
     "let bytes = self.bytes(length)?; Ok(String::of(self.data, bytes, decode_ansi(bytes)))",
     "the range of a text"),
    (1, "Ok(decode_ansi(&field[..length.min(width)]))",
     "let bytes = &field[..length.min(width)]; Ok(String::of(self.data, bytes, decode_ansi(bytes)))",
     "the range of a fixed field's text"),
    (1, "let name = name.trim().to_string();", "assert_eq!(name.trim(), &*name);",
     "the second trim of a trimmed text changes nothing; it would drop the range"),

    # Outside the domain documents 01 and 02 decide (in the mode --plain these are what they replace).
    (3, "self.bin.i32()? - 1", "crate::domain::less_one(self.bin.i32()?)",
     "lyric track, port and channel at the lowest i32"),
    (1, "start - 1", "crate::domain::less_one(start)",
     "a lyric start at the lowest i32"),
    (1, "Some(major.parse::<u16>().ok()? * 100 + minor.parse::<u16>().ok()?)",
     "crate::domain::version(major.parse::<u16>().ok()?, minor.parse::<u16>().ok()?)",
     "the version number is worked out without wrapping"),
    (1, "let slice = self.data.get(self.pos..end).ok_or_else(truncated)?;",
     "crate::domain::in_limit(self.data, end)?; let slice = self.data.get(self.pos..end).ok_or_else(truncated)?;",
     "refusal 5, before the bytes are sought"),

    # Where the count went wrong (document 02, k): the position before its four bytes were read.
    (1, "let value = self.i32()?;\n        usize::try_from(value)", "let at = self.pos; let value = self.i32()?;\n        usize::try_from(value)",
     "the offset of a count"),
    (1, 'format!("Guitar Pro {what} count {value} is out of range")', 'format!("Guitar Pro {what} count {value} is out of range at {at}")',
     "the offset of a count that is refused"),

    # Where a beat stands (document 02, f): the positions before its flags and after its last byte.
    (1, "let flags = self.bin.u8()?;\n        let dotted", "let start = self.bin.pos; let flags = self.bin.u8()?;\n        let dotted",
     "the first byte of a beat"),
    (1, "if empty {", "let beat = start..self.bin.pos; if empty {",
     "the end of a beat: nothing of it is read from here on"),
    (1, "note.dot_count = u8::from(dotted);", "note.beat = beat.clone(); note.dot_count = u8::from(dotted);",
     "the range of a row's beat"),
    (1, "grace_note.is_grace = true;", "grace_note.is_grace = true; grace_note.beat = beat;",
     "a grace row has the range of its beat"),

    # The shelf (document 02, c): the reading's end right after the counts and their tests.
    (1, "let mut headers: Vec<Header> = Vec::with_capacity(bar_count);",
     "crate::domain::after_counts(v, &score.metadata, bar_count, track_count);"
     " let mut headers: Vec<Header> = Vec::with_capacity(bar_count);",
     "a shelf has the texts as they stand here, and no byte more is read for it"),

    # Handing out what the answer and the tables hold but Score does not.
    (1, "version: u16,", "version: u16, rooms: acorde_core::Rooms,",
     "room for the two counts below"),
    (1, "version: 0,", "version: 0, rooms: Default::default(),",
     "room for the two counts below"),
    (1, "for _ in 0..points {", "self.rooms.add_bend(points); for _ in 0..points {",
     "room for curve points: every note that is read"),
    (1, "if let Some(text) = text.filter(|text| !text.is_empty()) {",
     "if let Some(text) = text.filter(|text| !text.is_empty()) { self.rooms.texts += 1;",
     "room for texts: the non-empty texts of kept beats, repeats included"),
    (1, "self.assemble(",
     "score.handed = acorde_core::Handed { version: v, lyric_track: lyrics_track,"
     " lyric_lines: lyric_lines.clone(), keys: headers.iter().map(|header| header.key).collect(),"
     " tracks: tracks.iter().map(|track| acorde_core::HandedTrack { name: track.name.clone(),"
     " tuning: track.tuning.clone(), capo: track.capo }).collect(), rooms: self.rooms, used: self.bin.pos };"
     " self.assemble(",
     "bytes used, version, lyric lines, keys as read, all names, tunings and capos, rooms"),
]

# Functions of gp5.rs that are left behind.
GP5_DROPPED = ["fn apply_lyrics"]

# The items of gp/mod.rs that gp5.rs uses.
MOD_TAKEN = [
    "struct Losses",
    "impl Losses",
    "fn gp_dynamic",
    "const HOPO_MARK",
    "fn push_articulation",
    "fn finish_bend_curve",
    "pub(super) fn gp_slide_marks",
    "pub(super) fn drop_single_pitch_fingerings",
    "type OttavaRun",
    "pub(super) fn resolve_beat_ottavas",
    "fn resolve_hammer_pull",
]

# What stands before those items in the place of mod.rs's own beginning.
MOD_HEAD = """mod gp5;
use crate::{Diagnostic, Error};
use acorde_core::*;
use std::collections::BTreeMap;
pub fn is_gp5_family(data: &[u8]) -> bool { gp5::is_gp5_family(data) }
pub fn parse(data: &[u8]) -> Result<(Score, Vec<Diagnostic>), Error> { gp5::parse_gp5(data) }
"""
