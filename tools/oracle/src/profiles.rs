//! The kinds of files that `oracle make` writes.

use crate::cases::{self, Case};
use crate::damage::{Guarded, blanked, damaged, overdone, refused_count, scrubbed};
use crate::fail;
use crate::generate::make;
use crate::plan::Plan;
use crate::trial::dice_of;
use std::path::Path;

pub fn write(profile: &str, seed: u64, count: usize, folder: &Path) {
    let write = |name: &str, bytes: &[u8]| {
        let path = folder.join(format!("{name}.gp"));
        std::fs::write(&path, bytes)
            .unwrap_or_else(|error| fail(&format!("{}: {error}", path.display())));
    };
    std::fs::create_dir_all(folder).unwrap_or_else(|error| fail(&error.to_string()));
    match profile {
        "valid" | "unset" | "damaged" | "counts" | "blanked" | "scrubbed" | "overdone" => {
            write_random(profile, seed, count, write)
        }
        "cuts" => write_cases(cases::cuts(), count, write),
        "limits" => write_cases(cases::named(true), count, write),
        "long" => write_cases(cases::long(&mut dice_of(seed, 0), count), count, write),
        _ => fail(&format!("no profile {profile}")),
    }
}

fn write_cases(cases: Vec<Case>, count: usize, write: impl Fn(&str, &[u8])) {
    for (number, case) in cases.iter().take(count).enumerate() {
        write(
            &format!("{number:05}-{}", plain_name(&case.name)),
            &case.bytes,
        );
    }
}

/// A case's name with nothing in it that a path or a list of words would mind.
fn plain_name(name: &str) -> String {
    name.chars()
        .map(|c| {
            if c.is_ascii_alphanumeric() || "-.".contains(c) {
                c
            } else {
                '_'
            }
        })
        .collect()
}

fn write_random(profile: &str, seed: u64, count: usize, write: impl Fn(&str, &[u8])) {
    for number in 0..count {
        let mut dice = dice_of(seed, number);
        let mut plan = Plan::random(&mut dice, None);
        plan.lowest |= profile == "unset";
        plan.zeros = matches!(profile, "scrubbed" | "overdone");
        let made = make(&plan, &mut dice);
        let name = format!("{profile}-{seed}-{number:05}");
        match profile {
            "valid" | "unset" => write(&name, &made.bytes),
            "damaged" => write(&name, &damaged(&made, &mut dice)),
            "counts" => {
                let (bytes, which, at) = refused_count(&made, &mut dice);
                write(&format!("{name}-which-{}-at-{at}", which as u8), &bytes);
            }
            "overdone" => {
                if let Some((bytes, which, at)) = overdone(&made, &mut dice) {
                    let which = if which == Guarded::Zero {
                        "zero"
                    } else {
                        "sign"
                    };
                    write(&format!("{name}-{which}-at-{at}-before"), &made.bytes);
                    write(&format!("{name}-{which}-at-{at}-after"), &bytes);
                }
            }
            _ => {
                let alter = if profile == "blanked" {
                    blanked
                } else {
                    scrubbed
                };
                write(&format!("{name}-before"), &made.bytes);
                write(&format!("{name}-after"), &alter(&made, &mut dice));
            }
        }
    }
}
