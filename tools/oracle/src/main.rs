//! The oracle: the Rust of the GP3/4/5 reader itself, as document 01 carries it across, with the
//! files made to try readers. See README.md.

// The program oracle counts nothing.
#[allow(dead_code)]
mod branches;
mod cases;
mod damage;
mod dice;
mod domain;
mod dump;
mod fixed_list;
mod from_source;
mod generate;
#[allow(warnings)]
mod gp;
mod judge;
mod plan;
mod profiles;
mod trial;
mod writer;

use judge::{Six, judge};
use std::hint::black_box;
use std::io::{BufWriter, Read, Write, stdin, stdout};
use std::path::{Path, PathBuf};

const USAGE: &str = "\
oracle dump [--plain] [--rooms B,T,R,M,P,X] PATH...    the dump of each file (DUMP.md)
oracle listing PATH...                                 the listing program's line for each file
oracle shelf PATH...                                   the program shelf's line for each file
    PATH is a file, a folder, - for standard input, or @LIST, a file of paths, one to a line
oracle make PROFILE SEED COUNT FOLDER                  writes files: valid damaged blanked cuts limits long
oracle try SEED COUNT [PERCENT]                        runs over files made in memory
oracle again COUNT PATH                                reads a file COUNT times (tools/bench)
oracle fixed-list FILE INDEX                           writes the fixed list (oracle-branches alone)
oracle replay FILE                                     holds the oracle to the fixed list";

/// The Rust's error, with refusal 5 beside it.
#[derive(Debug)]
pub enum Error {
    Xml(String),
    Empty,
    TooLong,
}

/// The Rust's report of a loss: its code, and how often it was met.
pub struct Diagnostic {
    pub code: &'static str,
    pub preserved_value: Option<String>,
}

impl Diagnostic {
    pub fn warning(code: &'static str, _reason: &'static str) -> Self {
        Self {
            code,
            preserved_value: None,
        }
    }
}

fn fail(words: &str) -> ! {
    eprintln!("oracle: {words}");
    std::process::exit(2);
}

fn read(path: &Path) -> Vec<u8> {
    if path == Path::new("-") {
        let mut data = Vec::new();
        stdin()
            .read_to_end(&mut data)
            .unwrap_or_else(|error| fail(&error.to_string()));
        return data;
    }
    std::fs::read(path).unwrap_or_else(|error| fail(&format!("{}: {error}", path.display())))
}

/// The files that a word of the command line names, in order.
fn paths_of(word: &str) -> Vec<PathBuf> {
    if let Some(list) = word.strip_prefix('@') {
        let lines = String::from_utf8(read(Path::new(list)))
            .unwrap_or_else(|_| fail("the list is no text"));
        return lines.lines().map(PathBuf::from).collect();
    }
    let path = PathBuf::from(word);
    if !path.is_dir() {
        return vec![path];
    }
    let entries =
        std::fs::read_dir(&path).unwrap_or_else(|error| fail(&format!("{word}: {error}")));
    let mut paths: Vec<PathBuf> = entries
        .flatten()
        .map(|entry| entry.path())
        .filter(|path| path.is_file())
        .collect();
    paths.sort();
    paths
}

/// Writes what `show` makes of each file; a `file NAME` line goes before each where the words
/// name more than one plain file.
fn show_files(words: &[String], show: impl Fn(&[u8]) -> String) {
    let paths: Vec<PathBuf> = words.iter().flat_map(|word| paths_of(word)).collect();
    let single = words.len() == 1 && paths.len() == 1 && paths[0].as_os_str() == words[0].as_str();
    let mut out = BufWriter::new(stdout().lock());
    for path in paths {
        let heading = if single {
            String::new()
        } else {
            format!("file {}\n", path.display())
        };
        let shown = show(&read(&path));
        write!(out, "{heading}{shown}").unwrap_or_else(|error| fail(&error.to_string()));
    }
}

fn rooms_of(word: &str) -> Six {
    let numbers: Option<Vec<usize>> = word.split(',').map(|number| number.parse().ok()).collect();
    let six = numbers.and_then(|numbers| numbers.try_into().ok());
    six.unwrap_or_else(|| fail("--rooms wants six numbers"))
}

fn dump_files(words: &[String]) {
    match words {
        [plain, rest @ ..] if plain == "--plain" => {
            domain::set_plain(true);
            dump_files(rest);
        }
        [option, rooms, rest @ ..] if option == "--rooms" => {
            let lent = Some(rooms_of(rooms));
            show_files(rest, |data| dump::dump(data, &judge(data, lent)));
        }
        _ => show_files(words, |data| dump::dump(data, &judge(data, None))),
    }
}

fn number_of<T: std::str::FromStr>(word: &str) -> T {
    word.parse()
        .unwrap_or_else(|_| fail(&format!("{word} is no number")))
}

/// Reads the file so many times with the Rust alone, each time whole: the Rust's answer is made and
/// dropped. Writes what the last reading gave, as the program again does.
fn read_again(count: usize, data: &[u8]) {
    let mut given = (0, 0);
    for _ in 0..count {
        given = match black_box(gp::parse(black_box(data))) {
            Ok((score, _)) => (0, score.handed.used),
            Err(error) => (judge::Refusal::of(&error).outcome, 0),
        };
    }
    println!("{} {}", given.0, given.1);
}

fn try_files(seed: &str, count: &str, percent: Option<&str>) -> bool {
    let trial = trial::run(number_of(seed), number_of(count), percent.map(number_of));
    let fine = trial.report();
    trial::report_branches();
    fine
}

fn run(words: &[String]) -> bool {
    let views: Vec<&str> = words.iter().map(String::as_str).collect();
    match views[..] {
        ["dump", ..] => dump_files(&words[1..]),
        ["listing", ..] => show_files(&words[1..], |data| dump::listing(data) + "\n"),
        ["shelf", ..] => show_files(&words[1..], |data| dump::shelf(data) + "\n"),
        ["make", profile, seed, count, folder] => {
            profiles::write(
                profile,
                number_of(seed),
                number_of(count),
                Path::new(folder),
            );
        }
        ["again", count, path] => read_again(number_of(count), &read(Path::new(path))),
        ["try", seed, count] => return try_files(seed, count, None),
        ["try", seed, count, percent] => return try_files(seed, count, Some(percent)),
        ["fixed-list", list, index] => return fixed_list::write(Path::new(list), Path::new(index)),
        ["replay", list] => return fixed_list::replay(&read(Path::new(list))),
        _ => fail(&format!("usage\n{USAGE}")),
    }
    true
}

fn main() {
    judge::quiet_panics();
    let words: Vec<String> = std::env::args().skip(1).collect();
    let fine =
        std::panic::catch_unwind(|| run(&words)).unwrap_or_else(|_| fail(&judge::last_panic()));
    std::process::exit(if fine { 0 } else { 1 });
}
