//! Runs the oracle over files made in memory and holds it to what is known of them.

use crate::branches;
use crate::cases;
use crate::damage::{Guarded, blanked, damaged, overdone, refused_count, scrubbed};
use crate::dice::Dice;
use crate::dump::dump;
use crate::from_source::BRANCHES;
use crate::generate::make;
use crate::judge::{self, Verdict, judge, judge_plain};
use crate::plan::Plan;
use crate::writer::Made;
use std::collections::BTreeMap;

#[derive(Default)]
pub struct Trial {
    files: usize,
    outcomes: BTreeMap<String, usize>,
    blanked_alike: usize,
    /// Copies with a zero byte altered, and with a sign: how many of them are told apart.
    overdone: [(usize, usize); 2],
    findings: Vec<String>,
}

/// The dice of one file: any file of a run can be made again by its number.
pub fn dice_of(seed: u64, number: usize) -> Dice {
    let mut dice = Dice::new(seed);
    Dice::new(dice.number() ^ (number as u64).wrapping_mul(0xd6e8_feb8_6659_fd93))
}

/// The long files that `run` tries: one field at the limit, then bytes used about the limit.
const LONG: usize = 24;

/// Every named file, and for each number a valid file, a beginning of it, its blanked copy, one with
/// a count that is refused and a damaged one; then one with zero bytes, scrubbed and overdone.
pub fn run(seed: u64, count: usize, percent: Option<u8>) -> Trial {
    let mut trial = Trial::default();
    let long = cases::long(&mut dice_of(seed, 0), LONG);
    for case in cases::named(true)
        .into_iter()
        .chain(cases::cuts())
        .chain(long)
    {
        trial.both(&case.name, &case.bytes);
    }
    for number in 0..count {
        let mut dice = dice_of(seed, number);
        let made = make(&Plan::random(&mut dice, percent), &mut dice);
        trial.valid(&format!("valid {number}"), &made);
        trial.cut(
            &format!("cut {number}"),
            &made.bytes[..dice.below(made.used)],
        );
        trial.blanked(
            &format!("blanked {number}"),
            &made.bytes,
            &blanked(&made, &mut dice),
        );
        trial.both(&format!("damaged {number}"), &damaged(&made, &mut dice));
        trial.refused(&format!("counts {number}"), &made, &mut dice);
        trial.scrubbed(number, seed, percent);
    }
    trial
}

impl Trial {
    fn find(&mut self, name: &str, words: &str) {
        self.findings.push(format!("{name}: {words}"));
    }

    /// A valid file is read, and to its last byte; each row's beat is where it was written.
    fn valid(&mut self, name: &str, made: &Made) {
        let Verdict::Read(answer) = self.both(name, &made.bytes) else {
            return self.find(name, "not read");
        };
        let used = answer.score.handed.used;
        if used != made.used {
            self.find(name, &format!("used {used}, not {}", made.used));
        }
        let rows = answer.rows();
        if !rows.iter().map(|row| &row.note.beat).eq(&made.rows) {
            self.find(name, "the rows' beats are not where they were written");
        }
    }

    /// Demand 3: every shorter beginning of a file that is read is refused as truncated.
    fn cut(&mut self, name: &str, beginning: &[u8]) {
        if self
            .both(name, beginning)
            .refusal()
            .map(|told| told.outcome)
            != Some(1)
        {
            self.find(name, "a shorter beginning is not refused as truncated");
        }
    }

    /// Document 02, k: which count is refused, and where, is what was damaged.
    fn refused(&mut self, name: &str, made: &Made, dice: &mut Dice) {
        let (bytes, which, at) = refused_count(made, dice);
        let told = self.both(name, &bytes).refusal();
        let as_told = told.map(|told| (told.outcome, told.which, told.offset));
        if as_told != Some((3, which as u8, at)) {
            self.find(
                name,
                &format!("the count {} at {at} is not told", which as u8),
            );
        }
    }

    /// Document 02, n: what a scrubber may alter reaches no dump; what it must leave mostly does.
    fn scrubbed(&mut self, number: usize, seed: u64, percent: Option<u8>) {
        let mut dice = dice_of(seed + 1, number);
        let mut plan = Plan::random(&mut dice, percent);
        plan.zeros = true;
        let made = make(&plan, &mut dice);
        let copy = scrubbed(&made, &mut dice);
        self.blanked(&format!("scrubbed {number}"), &made.bytes, &copy);
        if let Some((bytes, which, _)) = overdone(&made, &mut dice) {
            let verdict = self.both(&format!("overdone {number}"), &bytes);
            let same = dump(&made.bytes, &judge(&made.bytes, None)) == dump(&bytes, &verdict);
            let (told, all) = &mut self.overdone[usize::from(which == Guarded::Sign)];
            *told += usize::from(!same);
            *all += 1;
        }
    }

    fn blanked(&mut self, name: &str, before: &[u8], after: &[u8]) {
        let verdict = self.both(name, after);
        if dump(before, &judge(before, None)) == dump(after, &verdict) {
            self.blanked_alike += 1;
        } else {
            self.find(name, "the blanked copy's dump differs");
        }
    }

    /// Reads as the documents say, and as the Rust does: they agree but outside the domain, where
    /// the Rust panics as document 01 says or reads on past the limit.
    fn both(&mut self, name: &str, data: &[u8]) -> Verdict {
        self.files += 1;
        let verdict = judge(data, None);
        let told = verdict.refusal().expect("no panic in the documents' mode");
        let plain = judge_plain(data);
        match &plain {
            Verdict::Panicked(panic) if panic.place == "domain.rs" => {
                self.count(&format!("panic {}", panic.words))
            }
            Verdict::Panicked(panic) => {
                self.find(name, &format!("panic in {}: {}", panic.place, panic.words))
            }
            _ if told.outcome == 5 => {}
            _ if dump(data, &plain) != dump(data, &verdict) => {
                self.find(name, "plain and the documents differ")
            }
            _ => {}
        }
        self.count(&format!("outcome {}", told.outcome));
        self.shelved(name, data, &verdict);
        verdict
    }

    /// Document 02, c: a file that is read has its own values on the shelf, and what the shelf
    /// refuses is refused alike; a file that is refused further on is shown.
    fn shelved(&mut self, name: &str, data: &[u8], verdict: &Verdict) {
        let told = verdict.refusal();
        let alike = match (judge::shelf(data), verdict) {
            (Ok(shelf), Verdict::Read(answer)) => {
                let song = &answer.score.metadata;
                shelf.version == answer.score.handed.version
                    && (shelf.title.start, shelf.title.end) == (song.title.start, song.title.end)
                    && (shelf.composer.start, shelf.composer.end)
                        == (song.composer.start, song.composer.end)
                    && (shelf.bars, shelf.tracks) == (answer.bars(), answer.tracks())
            }
            (Ok(_), _) => true,
            (Err(refused), _) => refused.refusal() == told,
        };
        if !alike {
            self.find(name, "the shelf is not what the reading gives");
        }
    }

    fn count(&mut self, what: &str) {
        *self.outcomes.entry(what.to_string()).or_default() += 1;
    }

    /// The findings and a line of figures; whether there were no findings.
    pub fn report(&self) -> bool {
        self.findings
            .iter()
            .for_each(|finding| println!("{finding}"));
        for (what, count) in &self.outcomes {
            println!("{what}: {count}");
        }
        let [(zeros, with_zeros), (signs, with_signs)] = self.overdone;
        println!(
            "told apart: {zeros} of {with_zeros} with a zero byte altered, {signs} of {with_signs} with a sign altered"
        );
        println!(
            "{} files, {} blanked copies alike, {} findings",
            self.files,
            self.blanked_alike,
            self.findings.len()
        );
        self.findings.is_empty()
    }
}

/// The branches that nothing run so far has reached, where they are counted.
pub fn report_branches() {
    let taken = branches::taken();
    if taken.is_empty() {
        return;
    }
    let missed: Vec<usize> = (0..taken.len())
        .filter(|branch| taken[*branch] == 0)
        .collect();
    missed
        .iter()
        .for_each(|branch| println!("not reached: {}", branches::describe(*branch)));
    println!(
        "{} of {} branches reached",
        BRANCHES.len() - missed.len(),
        BRANCHES.len()
    );
}
