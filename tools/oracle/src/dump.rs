//! The text form of an answer and its tables (DUMP.md), and the lines of the programs listing and
//! shelf.

use crate::from_source::LOSS_CODES;
use crate::gp;
use crate::judge::{self, Answer, LISTING_INPUT, LISTING_ROOMS, Row, Six, Verdict, judge};
use acorde_core::{
    Articulation, Barline, Clef, Duration, GuitarTechnique, NoteHead, OttavaKind, Text,
};
use std::fmt::{Display, Write};

/// Never fails: the output is a `String`.
macro_rules! line {
    ($out:expr, $($words:tt)*) => { writeln!($out, $($words)*).expect("a string grows") };
}

pub fn dump(data: &[u8], verdict: &Verdict) -> String {
    let mut out = String::new();
    line!(out, "family {}", u8::from(gp::is_gp5_family(data)));
    if let Some(told) = verdict.refusal() {
        line!(
            out,
            "outcome {} which={} value={} offset={}",
            told.outcome,
            told.which,
            told.value,
            told.offset
        );
    }
    match verdict {
        Verdict::Read(answer) => put_answer(&mut out, answer),
        Verdict::NoRoom(rooms) => put_six(&mut out, "rooms", *rooms),
        Verdict::Panicked(panic) => line!(out, "outcome panic {}", panic.words.replace('\n', " ")),
        Verdict::Refused(_) => {}
    }
    line!(out, "end");
    out
}

/// The listing program's line: outcome, bytes used, bars, tracks, rows, members.
pub fn listing(data: &[u8]) -> String {
    let verdict = judge(&data[..data.len().min(LISTING_INPUT)], Some(LISTING_ROOMS));
    match &verdict {
        Verdict::Read(answer) => {
            let [bars, tracks, rows, members, ..] = answer.counts();
            format!(
                "0 {} {bars} {tracks} {rows} {members}",
                answer.score.handed.used
            )
        }
        Verdict::Panicked(panic) => format!("panic {}", panic.words),
        _ => format!(
            "{} 0 0 0 0 0",
            verdict.refusal().map_or(0, |told| told.outcome)
        ),
    }
}

/// The program shelf's line: the outcome, and what is shown of a file.
pub fn shelf(data: &[u8]) -> String {
    match judge::shelf(data) {
        Ok(shelf) => format!(
            "shelf outcome=0 which=0 value=0 offset=0 version={} title={} composer={} bars={} tracks={}",
            shelf.version,
            range(&shelf.title),
            range(&shelf.composer),
            shelf.bars,
            shelf.tracks
        ),
        Err(Verdict::Refused(told)) => format!(
            "shelf outcome={} which={} value={} offset={} version=0 title=0,0 composer=0,0 bars=0 tracks=0",
            told.outcome, told.which, told.value, told.offset
        ),
        Err(Verdict::Panicked(panic)) => format!("panic {}", panic.words),
        Err(_) => unreachable!("a shelf lends no tables"),
    }
}

fn put_answer(out: &mut String, answer: &Answer) {
    put_six(out, "counts", answer.counts());
    put_six(out, "rooms", answer.rooms());
    put_song(out, answer);
    (0..answer.bars()).for_each(|bar| put_bar(out, answer, bar));
    (0..answer.tracks()).for_each(|track| put_track(out, answer, track));
    let rows = answer.rows();
    rows.iter()
        .enumerate()
        .for_each(|(place, row)| put_row(out, place, row));
    rows.iter().for_each(|row| put_members(out, row));
    let points = rows.iter().flat_map(|row| &row.note.guitar_bend_curve);
    for (place, point) in points.enumerate() {
        line!(
            out,
            "point {place} permille={} cents={}",
            point.position_per_mille,
            point.alter_cents
        );
    }
    for (place, entry) in answer.texts().iter().enumerate() {
        let text = range(&entry.text.text);
        line!(
            out,
            "text {place} bar={} track={} range={text}",
            entry.bar,
            entry.track
        );
    }
    for (place, (code, count)) in LOSS_CODES.iter().zip(answer.losses).enumerate() {
        line!(out, "loss {place} code={code} count={count}");
    }
}

fn put_six(out: &mut String, name: &str, six: Six) {
    let [bars, tracks, rows, members, points, texts] = six;
    line!(
        out,
        "{name} bars={bars} tracks={tracks} rows={rows} members={members} points={points} texts={texts}"
    );
}

fn put_song(out: &mut String, answer: &Answer) {
    let (handed, data) = (&answer.score.handed, &answer.score.metadata);
    let tempo = answer.score.settings.tempo_bpm;
    line!(
        out,
        "song used={} version={} title={} subtitle={} composer={} lyricist={} copyright={} lyrictrack={} tempo={}",
        handed.used,
        handed.version,
        range(&data.title),
        range(&data.movement_title),
        range(&data.composer),
        range(&data.lyricist),
        range(&data.copyright),
        or_none(handed.lyric_track),
        or_none((tempo > 0).then_some(tempo)),
    );
    for (place, (start, text)) in handed.lyric_lines.iter().enumerate() {
        line!(out, "lyric {place} start={start} text={}", range(text));
    }
}

fn put_bar(out: &mut String, answer: &Answer, bar: usize) {
    let measure = answer.measure(bar, 0);
    let key = answer.score.handed.keys[bar];
    let volta = measure.volta.as_ref();
    line!(
        out,
        "bar {bar} time={}/{} timechanged={} key={} keychanged={} repeatstart={} repeatend={} double={} ending={} passes={} place={} marker={} direction={} tempo={}",
        measure.time.numerator,
        measure.time.denominator,
        u8::from(measure.time_sig.is_some()),
        or_none(
            key.map(|(fifths, minor)| format!(
                "{fifths},{}",
                if minor { "minor" } else { "major" }
            ))
        ),
        u8::from(measure.key_sig.is_some()),
        u8::from(measure.barline_left == Barline::RepeatStart),
        u8::from(measure.barline_right == Barline::RepeatEnd),
        u8::from(measure.barline_right == Barline::Double),
        or_none(volta.map(|volta| volta.number)),
        list(volta.map_or(&[], |volta| &volta.numbers)),
        volta.map_or("none", |volta| &volta.kind),
        measure.rehearsal.as_ref().map_or("0,0".to_string(), range),
        measure.navigation.as_deref().unwrap_or("none"),
        or_none(measure.tempo),
    );
}

fn put_track(out: &mut String, answer: &Answer, track: usize) {
    let part = &answer.score.parts[track];
    let staff = &part.staves[0];
    let handed = &answer.score.handed.tracks[track];
    let percussion = staff.clef == Clef::Percussion;
    line!(
        out,
        "track {track} name={} tunings={} capo={} percussion={} tablature={} clef={} channel={} program={}",
        range(&handed.name),
        list(&handed.tuning),
        handed.capo,
        u8::from(percussion),
        u8::from(staff.tablature.is_some()),
        match staff.clef {
            Clef::Treble => "treble",
            Clef::Bass => "bass",
            Clef::Percussion => "percussion",
        },
        part.midi_channel,
        or_none((!percussion).then_some(part.midi_program)),
    );
}

fn put_row(out: &mut String, place: usize, row: &Row) {
    let note = row.note;
    let marks: Vec<String> = note.articulations.iter().map(articulation).collect();
    line!(
        out,
        "row {place} bar={} track={} voice={} kind={} rest={} duration={} dot={} tuplet={} members={} technique={} text={} curve={} height={} dynamic={} articulations={} arpeggio={} head={} ottavastart={} ottavaend={} chord={} finger={} beat={},{}",
        row.bar,
        row.track,
        row.voice,
        if note.is_grace { "grace" } else { "beat" },
        u8::from(note.is_rest),
        duration(note.duration),
        note.dot_count,
        or_none(
            note.tuplet
                .map(|tuplet| format!("{}:{}", tuplet.actual_notes, tuplet.normal_notes))
        ),
        part(row.first_member, note.pitches.len()),
        note.guitar_technique.map_or("none", technique),
        note.technique_text
            .as_deref()
            .map_or("none", technique_text),
        part(row.first_point, note.guitar_bend_curve.len()),
        or_none(note.guitar_bend_alter_cents),
        or_none(note.dynamic.map(|dynamic| dynamic as u8)),
        list(&marks),
        note.arpeggiate
            .map_or("none", |down| if down { "down" } else { "up" }),
        if note.note_head == NoteHead::X {
            "x"
        } else {
            "normal"
        },
        note.ottava_start.map_or("none", ottava),
        u8::from(note.ottava_end),
        note.chord_symbol
            .as_ref()
            .map_or("0,0".to_string(), |chord| range(&chord.name)),
        or_none(note.fingering.filter(|_| note.pitches.len() == 1)),
        note.beat.start,
        note.beat.end,
    );
}

fn put_members(out: &mut String, row: &Row) {
    let note = row.note;
    let starts = note.pitch_tie_starts_or_uniform();
    let ends = note.pitch_tie_ends_or_uniform();
    for (index, pitch) in note.pitches.iter().enumerate() {
        let tab = note.tab_positions.get(index);
        line!(
            out,
            "member {} key={} flat={} string={} fret={} ghost={} tiestart={} tieend={} finger={}",
            row.first_member + index,
            pitch.to_midi(),
            u8::from(pitch.prefer_flat),
            or_none(tab.map(|tab| tab.string)),
            or_none(tab.map(|tab| tab.fret)),
            u8::from(note.parenthesized.get(index) == Some(&true)),
            u8::from(starts[index]),
            u8::from(ends[index]),
            or_none(note.pitch_fingerings.get(index).copied().flatten()),
        );
    }
}

fn or_none(value: Option<impl Display>) -> String {
    value.map_or("none".to_string(), |value| value.to_string())
}

fn list(values: &[impl Display]) -> String {
    let words: Vec<String> = values.iter().map(ToString::to_string).collect();
    if words.is_empty() {
        "none".to_string()
    } else {
        words.join(",")
    }
}

fn range(text: &Text) -> String {
    format!("{},{}", text.start, text.end)
}

/// A row with none refers to 0 of them at place 0.
fn part(first: usize, count: usize) -> String {
    format!("{},{count}", if count == 0 { 0 } else { first })
}

fn duration(duration: Duration) -> &'static str {
    match duration {
        Duration::Whole => "whole",
        Duration::Half => "half",
        Duration::Quarter => "quarter",
        Duration::Eighth => "8th",
        Duration::Sixteenth => "16th",
        Duration::ThirtySecond => "32nd",
        Duration::SixtyFourth => "64th",
    }
}

fn technique(technique: GuitarTechnique) -> &'static str {
    match technique {
        GuitarTechnique::Bend => "bend",
        GuitarTechnique::HammerOn => "hammer",
        GuitarTechnique::PullOff => "pull",
        GuitarTechnique::Slide => "slide",
    }
}

/// The hammer mark is gone once the passes have run.
fn technique_text(words: &str) -> &'static str {
    match words {
        "P.M." => "palmmute",
        "let ring" => "letring",
        other => panic!("the oracle left the technique text {other:?}"),
    }
}

fn articulation(articulation: &Articulation) -> String {
    match articulation {
        Articulation::Marcato => "marcato",
        Articulation::Accent => "accent",
        Articulation::Vibrato => "vibrato",
        Articulation::Staccato => "staccato",
        Articulation::Harmonic => "harmonic",
        Articulation::Trill => "trill",
        Articulation::Tremolo(marks) => return format!("tremolo{marks}"),
        Articulation::UpBow => "upbow",
        Articulation::DownBow => "downbow",
        Articulation::Tap => "tap",
        Articulation::Falloff => "falloff",
        Articulation::Doit => "doit",
        Articulation::Scoop => "scoop",
        Articulation::Plop => "plop",
    }
    .to_string()
}

fn ottava(kind: OttavaKind) -> &'static str {
    match kind {
        OttavaKind::Va8 => "8va",
        OttavaKind::Vb8 => "8vb",
        OttavaKind::Ma15 => "15ma",
        OttavaKind::Mb15 => "15mb",
    }
}
