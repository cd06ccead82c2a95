//! Writes files of the format, each field as document 01 has it, and marks which bytes are passed
//! over.

use crate::dice::Dice;
use crate::plan::{Field, Plan};
use crate::writer::{Count, FILL, Made};

const BLANKS: [u8; 7] = [9, 10, 11, 12, 13, 32, 160];

pub struct Maker<'a> {
    out: Made,
    dice: &'a mut Dice,
    plan: Plan,
    /// Texts that beats share, so that a bar meets the same one again.
    shared: Vec<Vec<u8>>,
    ottava: i16,
}

/// The file that `plan` asks for.
pub fn make(plan: &Plan, dice: &mut Dice) -> Made {
    let mut maker = Maker {
        out: Made::default(),
        dice,
        plan: plan.clone(),
        shared: Vec::new(),
        ottava: 0,
    };
    maker.shared = (0..3).map(|_| maker.text(8)).collect();
    maker.song();
    let rest = maker.dice.bytes(plan.rest);
    maker.out.finish(&rest)
}

impl Maker<'_> {
    fn v(&self, least: u16) -> bool {
        self.plan.version >= least
    }

    fn chance(&mut self, field: Field) -> bool {
        let percent = self.plan.chance_of(field);
        self.dice.percent(percent)
    }

    fn flag(&mut self, field: Field, mask: u8) -> u8 {
        if self.chance(field) { mask } else { 0 }
    }

    /// Writes a byte of flags; bits that no field has are set now and then.
    fn flags(&mut self, fields: &[(Field, u8)]) -> u8 {
        let mut flags = self.unnamed(!fields.iter().map(|(_, mask)| mask).sum::<u8>());
        for (field, mask) in fields {
            flags |= self.flag(*field, *mask);
        }
        self.out.u8(flags);
        flags
    }

    fn unnamed(&mut self, mask: u8) -> u8 {
        if self.chance(Field::Wild) {
            self.dice.byte() & mask
        } else {
            0
        }
    }

    /// One of the usual values, or now and then any byte.
    fn byte_of(&mut self, usual: &[i8]) -> u8 {
        if self.chance(Field::Wild) {
            return self.dice.byte();
        }
        self.dice.pick(usual) as u8
    }

    fn number_of(&mut self, usual: &[i32]) -> i32 {
        if self.chance(Field::Wild) {
            return self.dice.wild();
        }
        self.dice.pick(usual)
    }

    /// A port, channel, lyric track or lyric start: the lowest i32 only where the plan says so.
    fn number_from_one(&mut self, usual: &[i32]) {
        let mut value = self.number_of(usual);
        if value == i32::MIN {
            value += 1;
        }
        if self.plan.lowest && self.dice.percent(50) {
            value = i32::MIN;
        }
        self.out.number_from_one(value);
    }

    fn skip(&mut self, count: usize) {
        let bytes = self.dice.bytes(count);
        self.out.passed(&bytes);
    }

    // Texts.

    /// Up to `most` bytes, or none where texts are off.
    fn text(&mut self, most: usize) -> Vec<u8> {
        if !self.chance(Field::Text) {
            return Vec::new();
        }
        let length = self.dice.below(most + 1);
        self.text_of(length)
    }

    /// A text longer than a length byte can say takes no choices, so that two plans that differ
    /// in such lengths alone give files alike in all else.
    fn text_of(&mut self, length: usize) -> Vec<u8> {
        let blanks = self.chance(Field::Blanks);
        let wild = self.chance(Field::Wild);
        if length > 255 {
            return vec![FILL; length];
        }
        let mut text: Vec<u8> = (0..length)
            .map(|_| match self.dice.below(6) {
                0 if blanks => self.dice.pick(&BLANKS),
                1 if wild => 0x80 + self.dice.below(0x20) as u8,
                2 if wild => self.dice.pick(&[0, 0x85, 0xa0, 0xff, 1, 14, 31, 127]),
                _ => b'a' + self.dice.below(26) as u8,
            })
            .collect();
        if self.plan.zeros && length > 0 && self.dice.percent(50) {
            text[self.dice.below(length)] = 0;
        }
        text
    }

    /// A field size that no one reads, a length byte, the text.
    fn byte_text(&mut self, text: &[u8], kept: bool) {
        self.skip(4);
        self.out.u8(text.len() as u8);
        self.out.content(text, kept);
    }

    /// A size of one more than the text's length, a length byte that no one reads, the text.
    fn sized_text(&mut self, text: &[u8], kept: bool) {
        let size_of_none = self.dice.pick(&[0, 1, -1, i32::MIN]);
        let size = if text.is_empty() {
            size_of_none
        } else {
            text.len() as i32 + 1
        };
        self.out.size(size);
        self.skip(1);
        self.out.content(text, kept);
    }

    /// A length byte and a field of fixed width; past the length it is passed over.
    fn fixed_text(&mut self, text: &[u8], width: usize) {
        let mut field = text[..text.len().min(width)].to_vec();
        let mut length = field.len();
        if self.chance(Field::Wild) && length < width {
            field.push(0);
            length = self.dice.within(field.len(), 255);
        }
        self.out.u8(length as u8);
        let kept = length.min(width);
        while field.len() < width {
            field.push(self.dice.byte());
        }
        self.out.text(&field[..kept]);
        self.out.passed(&field[kept..]);
    }

    // The song.

    fn song(&mut self) {
        self.version();
        self.credits();
        self.lyrics();
        self.page();
        self.channels();
        self.directions();
        self.out.count(Count::Bars, self.plan.bars);
        self.out.count(Count::Tracks, self.plan.tracks);
        for _ in 0..self.plan.bars {
            self.header();
        }
        let strings: Vec<usize> = (0..self.plan.tracks).map(|_| self.track()).collect();
        for _ in 0..self.plan.bars {
            for strings in &strings {
                self.bar(*strings);
            }
        }
    }

    fn version(&mut self) {
        let mut text = Vec::new();
        if self.chance(Field::Blanks) && self.plan.version_text.len() < 9 {
            text.push(self.dice.pick(&BLANKS));
        }
        text.extend_from_slice(b"FICHIER GUITAR PRO v");
        text.extend_from_slice(self.plan.version_text.as_bytes());
        self.fixed_text(&text, 30);
    }

    fn credits(&mut self) {
        // Title, subtitle, artist, album, words, music (v500 on), copyright, tab author, instructions.
        for (place, kept) in [true, true, true, false, true, true, true, false, false]
            .into_iter()
            .enumerate()
        {
            if place != 5 || self.v(500) {
                let text = self.text(24);
                self.byte_text(&text, kept);
            }
        }
        self.out.count(Count::Notices, self.plan.notices);
        for _ in 0..self.plan.notices {
            let text = self.text_of(self.plan.notice_length);
            self.byte_text(&text, false);
        }
        if !self.v(500) {
            let triplet = self.flag(Field::Triplet, 1);
            self.out.u8(triplet);
        }
    }

    fn lyrics(&mut self) {
        if !self.v(400) {
            return;
        }
        self.number_from_one(&[0, 1, 1, 2, 9]);
        for length in self.plan.lyric_lengths.clone() {
            self.number_from_one(&[0, 1, 1, 3, -1]);
            let text = self.text_of(length);
            self.out.size(text.len() as i32);
            self.out.text(&text);
        }
    }

    fn page(&mut self) {
        if self.v(510) {
            self.skip(19);
        }
        if self.v(500) {
            self.skip(28 + 2); // size and margins; header flags
            for length in self.plan.page_lengths.clone() {
                let text = self.text_of(length);
                self.sized_text(&text, false);
            }
        }
        let tempo = self.number_of(&[120, 1, 999, 0, 1000, -1]);
        self.out.i32(tempo);
        if self.v(510) {
            self.skip(1); // hide-tempo
        }
        self.skip(4); // global key
        if self.v(400) {
            self.skip(1); // octave
        }
    }

    fn channels(&mut self) {
        for _ in 0..64 {
            let program = self.number_of(&[0, 24, 25, 127, 128, -1]);
            self.out.i32(program);
            self.skip(8);
        }
    }

    fn directions(&mut self) {
        if !self.v(500) {
            return;
        }
        for _ in 0..19 {
            let bar = if self.chance(Field::Direction) {
                self.direction_bar()
            } else {
                self.dice.pick(&[0, -1])
            };
            self.out.i16(bar);
        }
        self.skip(4);
    }

    /// Mostly a bar that exists, so that several fall on one.
    fn direction_bar(&mut self) -> i16 {
        if self.chance(Field::Wild) {
            return self.dice.pick(&[i16::MIN, -1, 0, 1, 9_999, i16::MAX]);
        }
        self.dice.within(1, self.plan.bars + 1) as i16
    }

    fn header(&mut self) {
        let fields = [
            (Field::Time, 0x01),
            (Field::Time, 0x02),
            (Field::RepeatStart, 0x04),
            (Field::RepeatEnd, 0x08),
            (Field::Ending, 0x10),
            (Field::Marker, 0x20),
            (Field::Key, 0x40),
            (Field::DoubleBar, 0x80),
        ];
        let flags = self.flags(&fields);
        self.header_fields(flags);
        if self.v(500) {
            self.header_end(flags);
        }
    }

    fn header_fields(&mut self, flags: u8) {
        if flags & 0x01 != 0 {
            let numerator = self.byte_of(&[4, 4, 3, 6, 0, 12]);
            self.out.u8(numerator);
        }
        if flags & 0x02 != 0 {
            let denominator = self.byte_of(&[4, 4, 8, 2, 1, 0, 6, -128]);
            self.out.u8(denominator);
        }
        if flags & 0x08 != 0 {
            let times = self.byte_of(&[0, 1, 2, 3]);
            self.out.u8(times);
        }
        if flags & 0x10 != 0 && !self.v(500) {
            let ending = self.byte_of(&[0, 1, 1, 2, 2, 3, -1]);
            self.out.u8(ending);
        }
        if flags & 0x20 != 0 {
            let marker = self.text(12);
            self.sized_text(&marker, true);
            self.skip(4); // colour
        }
        if flags & 0x40 != 0 {
            let fifths = self.byte_of(&[0, 1, -1, 7, -7, 8, -8]);
            let minor = self.byte_of(&[0, 0, 1, 2]);
            self.out.kept(&[fifths, minor]);
        }
    }

    fn header_end(&mut self, flags: u8) {
        if flags & 0x03 != 0 {
            self.skip(4); // beams
        }
        let masks = [0x01, 0x01, 0x02, 0x03, 0x04, 0x06, 0x7f, -128];
        let mask = if self.chance(Field::Ending) {
            self.byte_of(&masks)
        } else {
            0
        };
        let triplet = self.flag(Field::Triplet, 1);
        self.out.kept(&[mask, triplet]);
        self.skip(1); // a header's last byte
    }

    fn track(&mut self) -> usize {
        self.flags(&[(Field::Percussion, 0x01)]);
        let name = self.text(44);
        self.fixed_text(&name, 40);
        let strings = self
            .plan
            .strings
            .unwrap_or_else(|| self.dice.pick(&[6, 6, 4, 7, 5, 1, 0]));
        self.out.count(Count::Strings, strings);
        for _ in 0..strings {
            let tuning = self.number_of(&[64, 59, 55, 50, 45, 40, 35, 34, 28, 0, 127]);
            self.out.i32(tuning);
        }
        self.skip((7 - strings) * 4);
        self.number_from_one(&[1, 1, 2, 4, 5, 0]);
        self.number_from_one(&[1, 2, 10, 16, 17, 0]);
        self.skip(8); // effect channel, fret count
        let capo = self.number_of(&[0, 0, 2, 24, 25, -1]);
        self.out.i32(capo);
        self.skip(4); // colour
        if self.v(500) {
            self.track_end();
        }
        strings
    }

    fn track_end(&mut self) {
        let staff = self.byte_of(&[1, 1, 1, 3, 0, 2]);
        self.out.u8(staff);
        self.skip(4);
        let clef = self.number_of(&[0, 12, 1]);
        self.out.i32(clef);
        self.skip(20 + 16);
        if self.v(510) {
            self.skip(4);
            for _ in 0..2 {
                let text = self.text(6);
                self.sized_text(&text, false);
            }
        }
    }

    // Bars.

    fn bar(&mut self, strings: usize) {
        let voices = if self.v(500) { 2 } else { 1 };
        if self.v(500) {
            self.skip(1); // the byte before a bar's voices
        }
        for _ in 0..voices {
            let beats = self.dice.within(self.plan.beats.0, self.plan.beats.1);
            self.out.count(Count::Beats, beats);
            for _ in 0..beats {
                self.beat(strings);
            }
        }
    }

    fn beat(&mut self, strings: usize) {
        let fields = [
            (Field::Dot, 0x01),
            (Field::Chord, 0x02),
            (Field::BeatText, 0x04),
            (Field::BeatEffects, 0x08),
            (Field::Mix, 0x10),
            (Field::Tuplet, 0x20),
            (Field::Status, 0x40),
        ];
        let start = self.out.bytes.len();
        let flags = self.flags(&fields);
        let kept = self.beat_status(flags);
        self.beat_time(flags);
        self.beat_fields(flags);
        let has_grace = self.notes(strings);
        if self.v(500) {
            self.beat_end();
        }
        if kept {
            self.out.end_beat(start, has_grace);
        }
    }

    /// Whether the beat is kept.
    fn beat_status(&mut self, flags: u8) -> bool {
        if flags & 0x40 == 0 {
            return true;
        }
        let kept = !self.chance(Field::Unkept);
        let status = self.unnamed(!0x02) | if kept { 0x02 } else { 0 };
        self.out.u8(status);
        kept
    }

    fn beat_time(&mut self, flags: u8) {
        let duration = self.byte_of(&[-2, -1, 0, 1, 2, 3, 4, 5, -3]);
        self.out.u8(duration);
        if flags & 0x20 != 0 {
            let tuplet = self.number_of(&[3, 3, 5, 6, 7, 9, 10, 11, 12, 13, 0, 2, 4, 8, 14]);
            self.out.i32(tuplet);
        }
    }

    fn beat_fields(&mut self, flags: u8) {
        if flags & 0x02 != 0 {
            self.chord();
        }
        if flags & 0x04 != 0 {
            let text = self.beat_text();
            self.byte_text(&text, true);
        }
        if flags & 0x08 != 0 {
            self.beat_effects();
        }
        if flags & 0x10 != 0 {
            self.mix_table();
        }
    }

    /// One of the shared texts, with blanks around it now and then.
    fn beat_text(&mut self) -> Vec<u8> {
        let place = self.dice.below(self.shared.len());
        let mut text = self.shared[place].clone();
        if self.chance(Field::Blanks) {
            text.insert(0, self.dice.pick(&BLANKS));
            text.push(self.dice.pick(&[0, 32, 160]));
        }
        text
    }

    fn chord(&mut self) {
        let name = self.text(24);
        if self.v(500) {
            return self.chord_grid(17, &name);
        }
        let grid = self.dice.percent(50);
        let first = if grid {
            self.dice.pick(&[1, 1, 255])
        } else {
            0
        };
        self.out.u8(first);
        match (grid, self.v(400)) {
            (true, true) => self.chord_grid(16, &name),
            (true, false) => {
                self.skip(25);
                self.fixed_text(&name, 34);
                self.skip(28 + 36);
            }
            (false, _) => self.old_chord(&name),
        }
    }

    fn chord_grid(&mut self, before: usize, name: &[u8]) {
        self.skip(before);
        self.fixed_text(name, 21);
        self.skip(4 + 32 + 32);
    }

    fn old_chord(&mut self, name: &[u8]) {
        self.sized_text(name, true);
        let fret = self.number_of(&[0, 1, 5, -1]);
        self.out.i32(fret);
        if fret > 0 {
            self.skip(if self.v(406) { 28 } else { 24 });
        }
    }

    fn beat_effects(&mut self) {
        let fields = [
            (Field::BeatVibrato, 0x01),
            (Field::BeatVibrato, 0x02),
            (Field::Harmonic, 0x04),
            (Field::Harmonic, 0x08),
            (Field::Swell, 0x10),
            (Field::Tapping, 0x20),
            (Field::Brush, 0x40),
        ];
        let flags = self.flags(&fields);
        let more = [
            (Field::Rasgueado, 0x01),
            (Field::Pick, 0x02),
            (Field::Whammy, 0x04),
        ];
        let mut flags2 = 0;
        if self.v(400) {
            flags2 = self.flags(&more);
        }
        if flags & 0x20 != 0 {
            let kind = self.byte_of(&[0, 1, 1, 2, 3, 4]);
            self.out.u8(kind);
            self.skip(if self.v(400) { 0 } else { 4 });
        }
        if flags2 & 0x04 != 0 {
            self.whammy();
        }
        if flags & 0x40 != 0 {
            let (first, second) = (self.byte_of(&[0, 0, 1, 4]), self.byte_of(&[0, 0, 1, 4]));
            self.out.kept(&[first, second]);
        }
        if flags2 & 0x02 != 0 {
            let pick = self.byte_of(&[0, 1, 2, 3]);
            self.out.u8(pick);
        }
    }

    fn whammy(&mut self) {
        self.skip(5); // type and value
        let points = self.points();
        self.skip(points * 9);
    }

    fn points(&mut self) -> usize {
        let points = self.dice.within(self.plan.points.0, self.plan.points.1);
        self.out.count(Count::Points, points);
        points
    }

    fn mix_table(&mut self) {
        let instrument = self.byte_of(&[-1, -1, 0, 25]);
        self.out.sign(instrument);
        if self.v(500) {
            self.skip(16);
        }
        let values: Vec<u8> = (0..6)
            .map(|_| self.byte_of(&[-1, -1, -1, -128, 0, 127]))
            .collect();
        values.iter().for_each(|value| self.out.sign(*value));
        if self.v(500) {
            let text = self.text(6);
            self.sized_text(&text, false);
        }
        let tempo = self.number_of(&[-1, 120, 60, 0, 1, 999, 1000]);
        self.out.i32(tempo);
        self.skip(values.iter().filter(|value| **value < 128).count()); // durations
        if tempo >= 0 {
            self.skip(if self.v(510) { 2 } else { 1 });
        }
        self.mix_end();
    }

    fn mix_end(&mut self) {
        if self.v(400) {
            self.skip(1); // which tracks it is for
        }
        if self.v(500) {
            let wah = self.byte_of(&[-1, 0, 100, -2]);
            self.out.u8(wah);
        }
        if self.v(510) {
            for _ in 0..2 {
                let text = self.text(6);
                self.sized_text(&text, false);
            }
        }
    }

    fn beat_end(&mut self) {
        if !self.chance(Field::Ottava) {
            self.ottava = self
                .dice
                .pick(&[0, 0, 0x10, 0x20, 0x40, 0x100, 0x30, 0x150]);
        }
        let low = i16::from(self.unnamed(!0x70));
        let high = i16::from(self.unnamed(!0x09)) << 8;
        let breaks = if self.chance(Field::Break) { 0x800 } else { 0 };
        self.out.i16(self.ottava | low | high | breaks);
        if breaks != 0 {
            self.skip(1);
        }
    }

    // Notes.

    /// Whether there is a grace on a string that the track has.
    fn notes(&mut self, strings: usize) -> bool {
        let mut bits = self.unnamed(0x80);
        for string in 0..7 {
            let field = if string < strings {
                Field::String
            } else {
                Field::MissingString
            };
            bits |= self.flag(field, 0x40 >> string);
        }
        self.out.u8(bits);
        let mut has_grace = false;
        for string in (0..7).filter(|string| bits & 0x40 >> string != 0) {
            has_grace |= self.note() && string < strings;
        }
        has_grace
    }

    /// Whether the note has a grace.
    fn note(&mut self) -> bool {
        let fields = [
            (Field::Independent, 0x01),
            (Field::HeavyAccent, 0x02),
            (Field::Ghost, 0x04),
            (Field::NoteEffects, 0x08),
            (Field::Dynamic, 0x10),
            (Field::Fret, 0x20),
            (Field::Accent, 0x40),
            (Field::Finger, 0x80),
        ];
        let flags = self.flags(&fields);
        if flags & 0x20 != 0 {
            let kind = if self.chance(Field::Tie) {
                2
            } else {
                self.byte_of(&[1, 1, 2, 3, 0])
            };
            self.out.u8(kind);
        }
        if flags & 0x01 != 0 && !self.v(500) {
            self.skip(2);
        }
        self.note_values(flags);
        if self.v(500) {
            self.skip(if flags & 0x01 != 0 { 8 } else { 0 });
            let accidental = self.byte_of(&[0, 0, 2]);
            self.out.u8(accidental);
        }
        flags & 0x08 != 0 && self.note_effects()
    }

    fn note_values(&mut self, flags: u8) {
        if flags & 0x10 != 0 {
            let dynamic = self.byte_of(&[1, 2, 3, 4, 5, 6, 6, 7, 8, 0, 9]);
            self.out.u8(dynamic);
        }
        if flags & 0x20 != 0 {
            let fret = self.byte_of(&[0, 1, 2, 3, 5, 7, 12, 27, 28, 32, 99, 100]);
            self.out.u8(fret);
        }
        if flags & 0x80 != 0 {
            let fingers = [
                self.byte_of(&[-1, 0, 1, 4, 5, -2]),
                self.byte_of(&[-1, -1, 0, 2]),
            ];
            self.out.kept(&fingers);
        }
    }

    /// Whether a grace is among them.
    fn note_effects(&mut self) -> bool {
        let fields = [
            (Field::Bend, 0x01),
            (Field::Hammer, 0x02),
            (Field::Slide, 0x04),
            (Field::LetRing, 0x08),
            (Field::Grace, 0x10),
        ];
        let flags = self.flags(&fields);
        let more = [
            (Field::Staccato, 0x01),
            (Field::PalmMute, 0x02),
            (Field::Tremolo, 0x04),
            (Field::Slide, 0x08),
            (Field::Harmonic, 0x10),
            (Field::Trill, 0x20),
            (Field::NoteVibrato, 0x40),
        ];
        let mut flags2 = 0;
        if self.v(400) {
            flags2 = self.flags(&more);
        }
        if flags & 0x01 != 0 {
            self.bend();
        }
        if flags & 0x10 != 0 {
            self.grace();
        }
        self.later_effects(flags2);
        flags & 0x10 != 0
    }

    fn bend(&mut self) {
        self.skip(5); // type and value
        for _ in 0..self.points() {
            let offset = self.number_of(&[0, 0, 15, 30, 30, 45, 59, 60, 61, -1]);
            let value = self.number_of(&[0, 50, 100, -100, 200, -200, 1200, 1201, -1201]);
            self.out.i32(offset);
            self.out.i32(value);
            self.skip(1); // vibrato
        }
    }

    fn grace(&mut self) {
        let fret = self.byte_of(&[0, 2, 3, 5, 12, 99, 100, -1]);
        self.out.u8(fret);
        self.skip(1); // dynamic
        let transition = self.byte_of(&[0, 1, 2, 3]);
        self.out.u8(transition);
        self.skip(1); // duration
        if self.v(500) {
            let flags = self.byte_of(&[0, 0, 1, 2, 3]);
            self.out.u8(flags);
        }
    }

    fn later_effects(&mut self, flags2: u8) {
        if flags2 & 0x04 != 0 {
            let marks = self.byte_of(&[0, 1, 2, 3, 4]);
            self.out.u8(marks);
        }
        if flags2 & 0x08 != 0 {
            let new = [0x01, 0x02, 0x04, 0x08, 0x10, 0x20, 0x3c, 0x40, -128, 0];
            let old = [-3, -2, -1, 0, 1, 2, 3, 4, 5];
            let kind = if self.v(500) {
                self.byte_of(&new)
            } else {
                self.byte_of(&old)
            };
            self.out.u8(kind);
        }
        if flags2 & 0x10 != 0 {
            let kind = self.byte_of(&[0, 1, 1, 2, 3, 4, 5]);
            self.out.u8(kind);
            self.skip(match kind {
                2 if self.v(500) => 3,
                3 if self.v(500) => 1,
                _ => 0,
            });
        }
        if flags2 & 0x20 != 0 {
            self.skip(2);
        }
    }
}
