//! The fixed list: small inputs with the oracle's answers, in the form of tests/README.md.

use crate::branches;
use crate::cases::{self, Case};
use crate::damage::{blanked, damaged, overdone, scrubbed};
use crate::dump::dump;
use crate::fail;
use crate::from_source::{BRANCHES, LOSS_CODES};
use crate::generate::make;
use crate::judge::{Verdict, judge};
use crate::plan::Plan;
use crate::trial::dice_of;
use crate::writer::FILL;
use std::fmt::Write;
use std::ops::Range;
use std::path::Path;

const MAGIC: &[u8; 4] = b"GPFL";
const SEED: u64 = 3;
const CANDIDATES: usize = 12_000;
/// No candidate is longer: the list stays small.
const LONGEST: usize = 3_000;
/// Each branch is reached by so many of the inputs that are read, where so many reach it; what
/// these leave is reached by one that is refused.
const TIMES: usize = 2;
const BLANKED: usize = 8;
/// Files with zero bytes in their texts, each as it is, scrubbed and overdone (document 02, n).
const SCRUBBED: usize = 6;
/// Files of several bars and at least so many members, for ties, pull-offs and ottavas over bars.
const VARIED: usize = 110;
const VARIED_MEMBERS: usize = 8;
/// Words of a record before the input's bytes.
const WORDS: usize = 21 + LOSS_CODES.len();
/// A longer input is written in short: its longest run of filling bytes is left out.
const WHOLE: usize = 32_768;

/// Writes the list and, one line to a record, what each input is.
pub fn write(list: &Path, index: &Path) -> bool {
    if BRANCHES.is_empty() {
        fail("the fixed list is chosen by branches: use oracle-branches");
    }
    let cases = all();
    let (whole, short): (Vec<&Case>, Vec<&Case>) =
        cases.iter().partition(|case| case.bytes.len() <= WHOLE);
    let mut bytes = MAGIC.to_vec();
    let mut lines = String::new();
    push_word(&mut bytes, whole.len());
    for (number, case) in whole.iter().enumerate() {
        push_record(&mut bytes, &record(number, &case.bytes), &case.bytes);
        line(&mut lines, number, case);
    }
    push_word(&mut bytes, short.len());
    for (number, case) in (whole.len()..).zip(&short) {
        let run = longest_run(&case.bytes);
        let left = [&case.bytes[..run.start], &case.bytes[run.end..]].concat();
        push_word(&mut bytes, run.start);
        push_word(&mut bytes, run.len());
        push_record(&mut bytes, &short_record(number, &case.bytes, &left), &left);
        line(&mut lines, number, case);
    }
    let written = std::fs::write(list, &bytes).and_then(|()| std::fs::write(index, &lines));
    written.unwrap_or_else(|error| fail(&error.to_string()));
    report(&cases, bytes.len());
    crate::trial::report_branches();
    true
}

fn push_word(bytes: &mut Vec<u8>, word: usize) {
    let word = u32::try_from(word).expect("a word");
    bytes.extend_from_slice(&word.to_le_bytes());
}

fn push_record(bytes: &mut Vec<u8>, words: &[u32], input: &[u8]) {
    words
        .iter()
        .for_each(|word| bytes.extend_from_slice(&word.to_le_bytes()));
    bytes.extend_from_slice(input);
}

/// What is said of an input: how long it is, what comes of it, its name.
fn line(lines: &mut String, number: usize, case: &Case) {
    let words = record(number, &case.bytes);
    let (length, outcome) = (words[1], words[2]);
    writeln!(
        lines,
        "{number} {length} bytes, outcome {outcome}: {}",
        case.name
    )
    .expect("a string grows");
}

/// The first of the longest runs of filling bytes.
fn longest_run(bytes: &[u8]) -> Range<usize> {
    let (mut best, mut start) = (0..0, 0);
    for (at, byte) in bytes.iter().enumerate() {
        if *byte != FILL {
            start = at + 1;
        } else if at + 1 - start > best.len() {
            best = start..at + 1;
        }
    }
    best
}

/// The words of an input that is written in short: its length is that of what is left.
fn short_record(number: usize, input: &[u8], left: &[u8]) -> Vec<u32> {
    let mut words = record(number, input);
    words[1] = left.len() as u32;
    words
}

/// What a program that replays the list must have room for.
fn report(cases: &[Case], bytes: usize) {
    let read = cases.iter().filter(|case| is_read(&case.bytes)).count();
    let longest = cases.iter().map(|case| case.bytes.len()).max().unwrap_or(0);
    let mut rooms = [0; 6];
    for case in cases {
        if let Verdict::Read(answer) = judge(&case.bytes, None) {
            let needed = answer.rooms();
            rooms = std::array::from_fn(|table| rooms[table].max(needed[table]));
        }
    }
    println!(
        "{} inputs, {read} of them read, {bytes} bytes in all",
        cases.len()
    );
    println!("longest input {longest} bytes, largest rooms {rooms:?}");
}

fn all() -> Vec<Case> {
    let named: Vec<Case> = cases::named(false)
        .into_iter()
        .chain(blanked_pairs())
        .chain(varied())
        .collect();
    let chosen = choose(&named, candidates());
    named
        .into_iter()
        .chain(chosen)
        .chain(cases::telling())
        .chain(scrubbed_copies())
        .collect()
}

fn scrubbed_copies() -> Vec<Case> {
    let copies = |number: usize| {
        let mut dice = dice_of(SEED + 3, number);
        let mut plan = Plan::small(&mut dice);
        plan.zeros = true;
        let made = make(&plan, &mut dice);
        let after = scrubbed(&made, &mut dice);
        let (too_much, ..) = overdone(&made, &mut dice)?;
        let named = [
            ("before", made.bytes),
            ("after", after),
            ("overdone", too_much),
        ];
        Some(named.map(|(name, bytes)| Case {
            name: format!("scrubbed-{number}-{name}"),
            bytes,
        }))
    };
    let fit = |cases: &[Case; 3]| cases[0].bytes.len() <= LONGEST;
    let chosen = (0..).filter_map(copies).filter(fit).take(SCRUBBED);
    chosen.flatten().collect()
}

fn blanked_pairs() -> Vec<Case> {
    let pair = |number: usize| {
        let mut dice = dice_of(SEED + 1, number);
        let made = make(&Plan::small(&mut dice), &mut dice);
        let after = blanked(&made, &mut dice);
        [("before", made.bytes), ("after", after)].map(|(name, bytes)| Case {
            name: format!("blanked-{number}-{name}"),
            bytes,
        })
    };
    (0..BLANKED).flat_map(pair).collect()
}

fn varied() -> Vec<Case> {
    let make_one = |number: usize| {
        let mut dice = dice_of(SEED + 2, number);
        Case {
            name: format!("varied-{number}"),
            bytes: make(&Plan::small(&mut dice), &mut dice).bytes,
        }
    };
    (0..).map(make_one).filter(is_varied).take(VARIED).collect()
}

fn is_varied(case: &Case) -> bool {
    let Verdict::Read(answer) = judge(&case.bytes, None) else {
        return false;
    };
    let [bars, _, _, members, ..] = answer.counts();
    case.bytes.len() <= LONGEST && bars > 1 && members >= VARIED_MEMBERS
}

/// Small valid files, damaged copies of them, and small files cut anywhere; the shortest first.
fn candidates() -> Vec<Case> {
    let pair = |number: usize| {
        let mut dice = dice_of(SEED, number);
        let made = make(&Plan::small(&mut dice), &mut dice);
        let damaged = damaged(&made, &mut dice);
        [("valid", made.bytes), ("damaged", damaged)].map(|(name, bytes)| Case {
            name: format!("{name}-{number}"),
            bytes,
        })
    };
    let mut cases: Vec<Case> = (0..CANDIDATES)
        .flat_map(pair)
        .chain(cases::cuts())
        .collect();
    cases.retain(|case| case.bytes.len() <= LONGEST);
    cases.sort_by_key(|case| case.bytes.len());
    cases
}

/// Which branches one input takes.
fn reached(bytes: &[u8]) -> Vec<usize> {
    let before = branches::taken();
    judge(bytes, None);
    let after = branches::taken();
    (0..after.len())
        .filter(|branch| after[*branch] > before[*branch])
        .collect()
}

/// Candidates that are read first, then refused ones.
fn choose(named: &[Case], candidates: Vec<Case>) -> Vec<Case> {
    let mut times = vec![0; BRANCHES.len()];
    for case in named {
        reached(&case.bytes)
            .iter()
            .for_each(|branch| times[*branch] += 1);
    }
    let (read, refused): (Vec<Case>, Vec<Case>) = candidates
        .into_iter()
        .partition(|case| is_read(&case.bytes));
    let mut chosen = choose_for(read, &mut times, TIMES);
    chosen.extend(choose_for(refused, &mut times, 1));
    chosen
}

/// The candidates that reach a branch that fewer than `wanted` inputs before them reach.
fn choose_for(candidates: Vec<Case>, times: &mut [usize], wanted: usize) -> Vec<Case> {
    let mut chosen = Vec::new();
    for case in candidates {
        let branches = reached(&case.bytes);
        if branches.iter().any(|branch| times[*branch] < wanted) {
            branches.iter().for_each(|branch| times[*branch] += 1);
            chosen.push(case);
        }
    }
    chosen
}

fn is_read(bytes: &[u8]) -> bool {
    matches!(judge(bytes, None), Verdict::Read(_))
}

/// The words of a record: see tests/README.md.
fn record(number: usize, input: &[u8]) -> Vec<u32> {
    let verdict = judge(input, None);
    let told = verdict.refusal().expect("no panic in the documents' mode");
    let mut words = vec![
        number,
        input.len(),
        told.outcome.into(),
        told.which.into(),
        told.value as u32 as usize,
        told.offset,
    ];
    match &verdict {
        Verdict::Read(answer) => {
            words.push(answer.score.handed.used);
            words.extend(answer.counts());
            words.extend(answer.rooms());
            words.extend(answer.losses);
        }
        _ => words.resize(WORDS - 2, 0),
    }
    let digest = fnv1a(dump(input, &verdict).as_bytes());
    let words = words
        .into_iter()
        .map(|word| u32::try_from(word).expect("a word"));
    words
        .chain([digest as u32, (digest >> 32) as u32])
        .collect()
}

/// FNV-1a, 64 bits.
fn fnv1a(bytes: &[u8]) -> u64 {
    let step =
        |digest: u64, byte: &u8| (digest ^ u64::from(*byte)).wrapping_mul(0x0000_0100_0000_01b3);
    bytes.iter().fold(0xcbf2_9ce4_8422_2325, step)
}

/// Holds the oracle to a list that was written before.
pub fn replay(list: &[u8]) -> bool {
    let words_at = |at: usize, count: usize| -> Vec<u32> {
        let bytes = list
            .get(at..at + count * 4)
            .unwrap_or_else(|| fail("the list ends too soon"));
        bytes
            .chunks(4)
            .map(|four| u32::from_le_bytes([four[0], four[1], four[2], four[3]]))
            .collect()
    };
    if !list.starts_with(MAGIC) {
        fail("this is no fixed list");
    }
    let (mut at, mut number, mut wrong) = (4, 0, 0);
    for in_short in [false, true] {
        let count = words_at(at, 1)[0];
        at += 4;
        for _ in 0..count {
            let mut run = vec![0, 0];
            if in_short {
                run = words_at(at, 2);
                at += 8;
            }
            let words = words_at(at, WORDS);
            at += WORDS * 4;
            let left = &list[at..at + words[1] as usize];
            at += left.len();
            let mut input = left.to_vec();
            let place = run[0] as usize;
            input.splice(place..place, vec![FILL; run[1] as usize]);
            if short_record(number, &input, left) != words {
                println!("record {number} differs");
                wrong += 1;
            }
            number += 1;
        }
    }
    println!(
        "{number} records, {wrong} differ, {} bytes left over",
        list.len() - at
    );
    wrong == 0 && at == list.len()
}
