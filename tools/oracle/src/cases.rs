//! Named files: the smallest, those at and past each limit, those refused in each way, and texts.

use crate::dice::Dice;
use crate::domain::LONGEST;
use crate::generate::make;
use crate::plan::{Field, Plan, REFUSED_VERSIONS, VERSIONS};
use crate::writer::{COUNTS, Count, FILL, LONGEST_TEXT, Made};

pub struct Case {
    pub name: String,
    pub bytes: Vec<u8>,
}

fn case(name: impl Into<String>, bytes: Vec<u8>) -> Case {
    Case {
        name: name.into(),
        bytes,
    }
}

/// The versions 3.00, 4.00, 5.00 and 5.10 of document 01's smallest files.
const SMALLEST: [usize; 4] = [0, 1, 3, 4];

pub fn smallest() -> Vec<Case> {
    SMALLEST
        .iter()
        .map(|place| {
            case(
                format!("smallest-v{}", VERSIONS[*place].0),
                plain(&Plan::smallest(VERSIONS[*place])).bytes,
            )
        })
        .collect()
}

/// The file of a plan, its passed-over bytes 0.
fn plain(plan: &Plan) -> Made {
    let mut made = make(plan, &mut Dice::new(0));
    for at in made.passed.clone().into_iter().flatten() {
        made.bytes[at] = 0;
    }
    made
}

/// A v5.00 file with one of every count, each 1.
fn one_of_each() -> Made {
    let mut plan = Plan::smallest(("5.00", 500));
    plan.notices = 1;
    plan.strings = Some(1);
    plan.beats = (1, 1);
    plan.points = (1, 1);
    for field in [Field::String, Field::NoteEffects, Field::Bend, Field::Fret] {
        plan = plan.with(field, 100);
    }
    plain(&plan)
}

fn place_of(made: &Made, wanted: Count) -> usize {
    *made
        .places_of(wanted)
        .first()
        .expect("the file has this count")
}

fn with_count(made: &Made, count: Count, value: i32) -> Vec<u8> {
    let mut made = made.clone();
    made.set_i32(place_of(&made, count), value);
    made.bytes
}

/// Outcome 3 for each count, below 0 and past its limit; outcome 4 in each way; and that both
/// counts are read before "empty".
pub fn refused_counts() -> Vec<Case> {
    let made = one_of_each();
    let mut cases = Vec::new();
    for (count, most) in COUNTS {
        for value in [-1, i32::MIN, most as i32 + 1, i32::MAX] {
            cases.push(case(
                format!("count-{}-is-{value}", count as u8),
                with_count(&made, count, value),
            ));
        }
        cases.push(case(
            format!("count-{}-is-its-limit", count as u8),
            with_count(&made, count, most as i32),
        ));
    }
    cases.push(case("no-bars", with_count(&made, Count::Bars, 0)));
    cases.push(case("no-tracks", with_count(&made, Count::Tracks, 0)));
    let mut none = made.clone();
    none.set_i32(place_of(&none, Count::Bars), 0);
    for (name, tracks) in [
        ("no-bars-no-tracks", 0),
        ("no-bars-101-tracks", 101),
        ("no-bars-negative-tracks", -1),
    ] {
        cases.push(case(name, with_count(&none, Count::Tracks, tracks)));
    }
    none.bytes.truncate(place_of(&made, Count::Tracks) + 3);
    cases.push(case("no-bars-cut-in-tracks", none.bytes));
    cases
}

pub fn versions() -> Vec<Case> {
    let mut cases: Vec<Case> = REFUSED_VERSIONS
        .iter()
        .map(|text| {
            case(
                format!("version-{text:?}-refused"),
                version_field(text.as_bytes(), 20 + text.len() as u8),
            )
        })
        .collect();
    for (text, number) in VERSIONS {
        cases.push(case(
            format!("version-{text:?}"),
            plain(&Plan::smallest((text, number))).bytes,
        ));
    }
    cases.push(case(
        "version-cut-by-its-length",
        version_field(b"5.10", 22),
    ));
    cases.push(case("version-length-0", version_field(b"5.00", 0)));
    cases.push(case("version-other-prefix", vec![24; 31]));
    let mut long = plain(&Plan::smallest(VERSIONS[0])).bytes;
    long[0] = 255;
    cases.push(case("version-length-255", long.clone()));
    long[0] = 22;
    cases.push(case("version-ends-at-its-length", long));
    cases
}

/// The first 31 bytes alone: what follows is never read where the version is refused.
fn version_field(text: &[u8], length: u8) -> Vec<u8> {
    let mut bytes = vec![length];
    bytes.extend_from_slice(b"FICHIER GUITAR PRO v");
    bytes.extend_from_slice(text);
    bytes.resize(31, 0);
    bytes
}

/// Text sizes at, past and below what a text may have, where that stays small.
pub fn sizes() -> Vec<Case> {
    let made = one_of_each();
    let longest = LONGEST_TEXT as i32;
    let values = [-1, i32::MIN, longest, longest + 1, longest + 2, i32::MAX];
    // The first five sizes are the lyric lines', the next are the page's.
    let fields = [("lyric", made.sizes[0]), ("page", made.sizes[5])];
    fields
        .iter()
        .flat_map(|(name, at)| {
            let made = made.clone();
            values.map(move |value| {
                let mut made = made.clone();
                made.set_i32(*at, value);
                case(format!("{name}-size-{value}"), made.bytes)
            })
        })
        .collect()
}

/// The title of a v3.00 file given as each of these texts.
pub fn texts() -> Vec<Case> {
    let made = plain(&Plan::smallest(VERSIONS[0]));
    let high: Vec<u8> = (0x80..=0x9f).collect();
    let blanks = [9, 10, 11, 12, 13, 32, 160];
    let mut all: Vec<(String, Vec<u8>)> = vec![
        ("document-01".into(), vec![32, 65, 160, 0, 66]),
        ("only-blanks".into(), blanks.to_vec()),
        ("starts-with-zero".into(), vec![0, 65, 66]),
        ("blank-zero-letter".into(), vec![32, 0, 65]),
        ("codes-80-to-9f".into(), high),
        ("ellipsis-stays".into(), vec![32, 0x85, 65, 0x85, 32]),
        ("all-bytes".into(), (1..=255).collect()),
        ("blanks-inside".into(), vec![65, 32, 160, 9, 66]),
        ("not-blanks".into(), vec![8, 14, 31, 33, 127, 159, 161]),
    ];
    for blank in blanks {
        all.push((format!("between-{blank}"), vec![blank, 65, blank]));
    }
    all.into_iter()
        .map(|(name, text)| case(format!("text-{name}"), with_title(&made, &text)))
        .collect()
}

fn with_title(made: &Made, text: &[u8]) -> Vec<u8> {
    let mut bytes = made.bytes.clone();
    bytes[35] = text.len() as u8;
    bytes.splice(36..36, text.iter().copied());
    bytes
}

/// Files that are read, with one count at its limit; those of more than 32,768 bytes are `large`.
pub fn at_limits(large: bool) -> Vec<Case> {
    let three = Plan::smallest(VERSIONS[0]);
    let four = Plan::smallest(VERSIONS[1])
        .with(Field::BeatEffects, 100)
        .with(Field::Whammy, 100);
    let beat = three.clone().with(Field::String, 100);
    let bend = beat
        .clone()
        .with(Field::NoteEffects, 100)
        .with(Field::Bend, 100);
    let unkept = three
        .clone()
        .with(Field::Status, 100)
        .with(Field::Unkept, 100);
    let plans = [
        (
            false,
            "1000-notice-lines",
            Plan {
                notices: 1_000,
                ..three.clone()
            },
        ),
        (
            false,
            "100-tracks",
            Plan {
                tracks: 100,
                ..three.clone()
            },
        ),
        (
            false,
            "7-strings",
            Plan {
                strings: Some(7),
                beats: (2, 2),
                ..beat.clone()
            },
        ),
        (
            false,
            "1000-beats",
            Plan {
                beats: (1_000, 1_000),
                ..three.clone()
            },
        ),
        (
            false,
            "1000-unkept-beats",
            Plan {
                beats: (1_000, 1_000),
                ..unkept
            },
        ),
        (
            false,
            "1000-bend-points",
            Plan {
                strings: Some(1),
                beats: (1, 1),
                points: (1_000, 1_000),
                ..bend
            },
        ),
        (
            false,
            "1000-whammy-points",
            Plan {
                beats: (1, 1),
                points: (1_000, 1_000),
                ..four.clone()
            },
        ),
        (
            true,
            "10000-bars",
            Plan {
                bars: 10_000,
                ..three.clone()
            },
        ),
        (
            true,
            "10000-bars-100-tracks",
            Plan {
                bars: 10_000,
                tracks: 100,
                ..three
            },
        ),
        (
            true,
            "longest-lyric",
            Plan {
                lyric_lengths: vec![LONGEST_TEXT; 1].into_iter().chain([0; 4]).collect(),
                ..four
            },
        ),
    ];
    let plans = plans
        .into_iter()
        .filter(|(is_large, ..)| *is_large == large);
    plans
        .map(|(_, name, plan)| case(format!("at-limit-{name}"), plain(&plan).bytes))
        .collect()
}

/// Inputs that each tell a wrong reading from the right one where no other of the fixed list does:
/// bend positions that are rounded, an ottava run left open by a rest, the limit of texts, unset
/// ports, the offset of a count that is not the first of its kind.
pub fn telling() -> Vec<Case> {
    let mut cases = vec![
        case("bend-at-every-offset", bend_at_every_offset()),
        case(
            "ottava-run-and-rest-of-another-kind",
            ottava_run(OCTAVE_DOWN),
        ),
        case("ottava-run-and-rest-of-no-kind", ottava_run(0)),
    ];
    for length in [LONGEST_TEXT, LONGEST_TEXT + 1] {
        cases.push(case(format!("lyric-of-{length}-bytes"), with_lyric(length)));
        cases.push(case(
            format!("page-text-of-{length}-bytes"),
            with_page_text(length),
        ));
        cases.push(case(
            format!("marker-of-{length}-bytes"),
            with_marker(length),
        ));
    }
    cases.extend(unset());
    cases.extend(later_counts());
    cases
}

/// Strings, beats and points one over their limit: the second count of each kind, which of the
/// points is a bend's behind a whammy's, and the last.
fn later_counts() -> Vec<Case> {
    let mut plan = Plan::smallest(("5.00", 500));
    (plan.bars, plan.tracks) = (2, 3);
    plan.strings = Some(1);
    plan.beats = (1, 1);
    plan.points = (1, 1);
    for field in [
        Field::String,
        Field::NoteEffects,
        Field::Bend,
        Field::BeatEffects,
        Field::Whammy,
    ] {
        plan = plan.with(field, 100);
    }
    let made = plain(&plan);
    let mut cases = Vec::new();
    for (wanted, most) in &COUNTS[3..] {
        let places = made.places_of(*wanted);
        for (said, at) in [("second", places[1]), ("last", places[places.len() - 1])] {
            let mut made = made.clone();
            made.set_i32(at, *most as i32 + 1);
            cases.push(case(
                format!("{said}-count-{}-is-{}", *wanted as u8, most + 1),
                made.bytes,
            ));
        }
    }
    cases
}

/// Where each number stands among those from one: lyric track, five starts, port, channel.
const FROM_ONE: [(&str, usize); 4] = [
    ("lyric-track", 0),
    ("lyric-start", 1),
    ("port", 6),
    ("channel", 7),
];

/// Each number from one at the lowest number, 0 and 1, the others 3. The channel table has a
/// program of its own in each entry, so that the track's program tells its port and channel.
fn unset() -> Vec<Case> {
    let mut made = plain(&Plan::smallest(VERSIONS[2]));
    let table = place_of(&made, Count::Bars) - 64 * 12;
    for entry in 0..64 {
        made.set_i32(table + 12 * entry, entry as i32);
    }
    for at in made.numbers_from_one.clone() {
        made.set_i32(at, 3);
    }
    let with = |(name, place): (&str, usize), value: i32, said: &str| {
        let mut made = made.clone();
        made.set_i32(made.numbers_from_one[place], value);
        case(format!("{name}-{said}"), made.bytes)
    };
    FROM_ONE
        .into_iter()
        .flat_map(|field| {
            [(i32::MIN, "unset"), (0, "0"), (1, "1")].map(|(value, said)| with(field, value, said))
        })
        .collect()
}

/// A bend with a point at each offset from 0 to 60, each of another height.
fn bend_at_every_offset() -> Vec<u8> {
    let mut plan = Plan::smallest(VERSIONS[0]);
    plan.strings = Some(1);
    plan.beats = (1, 1);
    plan.points = (61, 61);
    for field in [Field::String, Field::NoteEffects, Field::Bend] {
        plan = plan.with(field, 100);
    }
    let mut made = plain(&plan);
    let first = place_of(&made, Count::Points) + 4;
    for offset in 0..61 {
        made.set_i32(first + 9 * offset, offset as i32);
        made.set_i32(first + 9 * offset + 4, 10 * offset as i32);
    }
    made.bytes
}

/// The bits of a beat that is played an octave higher, and lower.
const OCTAVE_UP: u8 = 0x10;
const OCTAVE_DOWN: u8 = 0x20;

/// Two notes an octave higher, and between them a rest with these bits.
fn ottava_run(rest: u8) -> Vec<u8> {
    let mut plan = Plan::smallest(VERSIONS[3]);
    plan.strings = Some(1);
    let mut made = plain(&plan);
    let beats = place_of(&made, Count::Beats);
    made.set_i32(beats, 3);
    // Flags, duration, strings, of a note its flags and accidental, and two bytes of beat flags.
    let note = [0, 0, 0x40, 0, 0, OCTAVE_UP, 0];
    let three = [&note[..], &[0, 0, 0, rest, 0], &note[..]].concat();
    made.bytes.splice(beats + 4..beats + 4, three);
    made.bytes
}

fn with_lyric(length: usize) -> Vec<u8> {
    let mut plan = Plan::smallest(VERSIONS[1]);
    plan.lyric_lengths[0] = length;
    plain(&plan).bytes
}

/// The size before a page text is one more than its length.
fn with_page_text(length: usize) -> Vec<u8> {
    let mut made = plain(&Plan::smallest(VERSIONS[3]));
    let size = made.sizes[5];
    made.set_i32(size, length as i32 + 1);
    made.bytes.splice(size + 5..size + 5, vec![FILL; length]);
    made.bytes
}

/// A marker's text is kept, and its size is one more than its length too.
fn with_marker(length: usize) -> Vec<u8> {
    let mut made = plain(&Plan::smallest(VERSIONS[0]));
    let header = place_of(&made, Count::Tracks) + 4;
    made.bytes[header] = 0x20;
    let mut marker = (length as i32 + 1).to_le_bytes().to_vec();
    marker.push(0);
    marker.extend(vec![FILL; length]);
    marker.extend([0; 4]); // colour
    made.bytes.splice(header + 1..header + 1, marker);
    made.bytes
}

/// A small file of each of the five versions with nearly every optional field.
pub fn rich() -> Vec<Case> {
    let make_one = |place: usize| {
        let mut dice = Dice::new(place as u64);
        let mut plan = Plan::random(&mut dice, Some(85));
        (plan.version_text, plan.version) = VERSIONS[place];
        (
            plan.notices,
            plan.bars,
            plan.tracks,
            plan.beats,
            plan.points,
        ) = (1, 2, 1, (1, 2), (1, 2));
        plan.strings = Some(3);
        plan.lowest = false;
        plan = plan
            .with(Field::MissingString, 15)
            .with(Field::Unkept, 15)
            .with(Field::Wild, 15);
        case(
            format!("rich-v{}", plan.version_text),
            make(&plan, &mut dice).bytes,
        )
    };
    (0..5).map(make_one).collect()
}

/// Each of the smallest and the rich files, cut at every byte.
pub fn cuts() -> Vec<Case> {
    let cut = |whole: &Case, end: usize| {
        case(
            format!("{}-cut-at-{end}", whole.name),
            whole.bytes[..end].to_vec(),
        )
    };
    let all: Vec<Case> = smallest().into_iter().chain(rich()).collect();
    all.iter()
        .flat_map(|whole| (0..=whole.bytes.len()).map(move |end| cut(whole, end)))
        .collect()
}

/// Every named file but the long ones.
pub fn named(with_large: bool) -> Vec<Case> {
    let mut cases = smallest();
    for more in [
        refused_counts(),
        versions(),
        sizes(),
        texts(),
        at_limits(false),
    ] {
        cases.extend(more);
    }
    if with_large {
        cases.extend(at_limits(true));
    }
    cases
}

// Files of about 16,777,216 bytes: lyric and page texts of full length put that place anywhere in
// what follows the page setup.

/// How far past the limit the bytes used go, one after the other; then any number.
const PAST: [isize; 8] = [0, -1, 1, 2, 3, 4, 5, 9];

/// `wanted` long files: those with one field at the limit, then random ones.
pub fn long(dice: &mut Dice, wanted: usize) -> Vec<Case> {
    let mut cases = long_fields();
    let mut number = 0;
    while cases.len() < wanted {
        let seed = dice.number();
        let mut plan = Plan::small(dice);
        (plan.version_text, plan.version) = dice.pick(&VERSIONS[3..5]);
        plan.rest = 0;
        plan.lowest = false;
        empty_texts(&mut plan);
        let short = make(&plan, &mut Dice::new(seed)).used;
        let past = PAST
            .get(number)
            .copied()
            .unwrap_or(dice.below(short) as isize);
        let used = LONGEST.strict_add_signed(past);
        let made = make(&filled(plan, used - short), &mut Dice::new(seed));
        assert_eq!(made.used, used, "a long file is as long as planned");
        cases.extend(long_copies(&made, past));
        number += 1;
    }
    cases.truncate(wanted);
    cases
}

fn empty_texts(plan: &mut Plan) {
    plan.page_lengths = vec![0; 11];
    plan.lyric_lengths = vec![0; 5];
}

/// The plan with so many bytes more in its lyric and page texts.
fn filled(mut plan: Plan, mut bytes: usize) -> Plan {
    for length in plan.page_lengths.iter_mut().chain(&mut plan.lyric_lengths) {
        *length = bytes.min(LONGEST_TEXT);
        bytes -= *length;
    }
    plan
}

/// The file whole, cut at the limit, cut one byte later, and with bytes after its end.
fn long_copies(made: &Made, past: isize) -> Vec<Case> {
    let mut longer = made.bytes.clone();
    longer.extend([7; 5]);
    let name = format!("long-past-by-{past}");
    let mut cases = vec![case(name.clone(), made.bytes.clone())];
    for end in [LONGEST, LONGEST + 1] {
        cases.push(case(
            format!("{name}-cut-at-{end}"),
            longer[..end.min(longer.len())].to_vec(),
        ));
    }
    cases.push(case(format!("{name}-and-rest"), longer));
    cases
}

/// A count or a text's size that ends at the limit or past it, with a value that is refused: which
/// refusal comes first (docs/RULES.md 3).
fn long_fields() -> Vec<Case> {
    let plan = Plan::smallest(VERSIONS[4]);
    let short = plain(&plan);
    let (bars, tracks) = (
        place_of(&short, Count::Bars),
        place_of(&short, Count::Tracks),
    );
    let effect_name = short.sizes[16];
    let too_long = LONGEST_TEXT as i32 + 2;
    let fields = [
        ("bars", bars, 10_001, [4, 3]),
        ("no-bars", bars, 0, [4, 8]),
        ("tracks", tracks, 101, [4, 3]),
        ("no-tracks", tracks, 0, [4, 3]),
        ("effect-name", effect_name, too_long, [5, 4]),
        ("empty-effect-name", effect_name, -1, [5, 4]),
    ];
    let mut cases = Vec::new();
    for (name, place, value, ways) in fields {
        for before in ways {
            let mut made = plain(&filled(plan.clone(), LONGEST - before - place));
            made.set_i32(LONGEST - before, value);
            cases.push(case(
                format!("long-{name}-{before}-before-the-limit"),
                made.bytes,
            ));
        }
    }
    cases
}
