//! The Rust of cuddld as oracle (see oracle/README.md). The program `oracle` is `run_command`; the
//! comparison and the benchmark of rust/compare use the rest.

// cuddld's files, unchanged, at their own module paths, and stand-ins for those that aren't here.
// Much of them is never called.
#[allow(dead_code)]
mod cli;
#[allow(dead_code)]
mod diagnostics;
#[allow(dead_code)]
mod interner;
#[allow(dead_code)]
mod passes;
#[allow(dead_code, unused_imports)]
mod repr;
#[allow(dead_code)]
mod utils;

mod announced;
pub mod bench;
mod broken;
mod count;
mod differences;
mod direct;
mod form;
mod generate;
mod inputs;
mod link;
mod machine;
mod model;
mod reference;
mod refusal;
mod rows;
mod selftest;
mod sheet;

use std::io::{Read, Write};

pub use broken::{breaks, changes};
pub use count::count;
pub use generate::{KINDS, READ_KINDS, Random, Said, histories, list};
pub use machine::Machine;
pub use model::Seen;
pub use reference::{Reference, begins};
pub use refusal::silence_panics;

const USAGE: &str = "usage: oracle COMMAND
  run < LIST                    the operations of a list with the Rust's answers; answers in it are made again
  model < LIST                  the same with the answers of the plain reading, which takes links of the gABI profile
  reading < LIST                runs a list on both, and stops at the first difference
  count < LIST                  how often each answer occurs in a list
  gen KIND SEED COUNT           the operations of COUNT random links
  tried KIND SEED COUNT         how often the gABI profile answered otherwise in them (KIND behind gabi-)
  gen sheets SEED COUNT FOLDER  COUNT add sheets, N.sheet, each with what addsheet must print, N.expected
  sheet < SHEET                 what addsheet must print for an add sheet
  differences                   each place where the Rust does otherwise than document 01
  selftest                      the worked examples on the Rust, a line each, and how many differ
  help                          this text
KIND: adds, merges, refusals, shared, archives, walks, collections or mixed; gabi- before it: links of the gABI
profile, commons- before it: links of the old one with commons; with either also several: walks over several
archives; short-adds 0 0: every short sequence of adds; limits 0 0, examples 0 0: those written by hand.
oracle/README.md has the form of a list.
";

/// The program `oracle`.
pub fn run_command() {
    silence_panics();
    let words: Vec<String> = std::env::args().skip(1).collect();
    let words: Vec<&str> = words.iter().map(String::as_str).collect();
    let (mut rust, mut model) = (Machine::new(), model::Model::new());
    let result = match words.as_slice() {
        ["run"] => run(|line| rust.line(line)),
        ["model"] => run(|line| model.line(line)),
        ["gen", "sheets", seed, count, folder] => sheets(number(seed), number(count), folder),
        ["gen", kind, seed, count] => match generate::list(kind, number(seed), number(count)) {
            Some(list) => print(&list),
            None => Err(format!("no list {kind}")),
        },
        ["tried", kind, seed, count] => match histories(kind, number(seed), number(count)) {
            Some((_, seen)) => print(&seen.lines()),
            None => Err(format!("no list {kind}")),
        },
        ["sheet"] => read_all().and_then(|text| print(&sheet::answer(&text)?)),
        ["reading"] => read_all().and_then(|text| print(&reading(&text)?)),
        ["differences"] => print(&differences::show()),
        ["count"] => read_all().and_then(|text| print(&count::count(&text))),
        ["selftest"] => selftest::run().and_then(|lines| print(&lines)),
        ["help" | "--help" | "-h"] => print(USAGE),
        [] => Err(format!("a command is missing\n{USAGE}")),
        _ => Err(format!("no such command: {}\n{USAGE}", words.join(" "))),
    };
    if let Err(fault) = result {
        eprintln!("oracle: {fault}");
        std::process::exit(2);
    }
}

/// Writes a list with the answers that are made to its lines.
fn run(mut answer: impl FnMut(&str) -> Result<Vec<String>, form::Fault>) -> Result<(), String> {
    let text = read_all()?;
    let mut out = String::new();
    for (number, line) in text.lines().enumerate() {
        // Old answers are made again.
        if line.starts_with('>') {
            continue;
        }
        out += line;
        out += "\n";
        if line.is_empty() || line.starts_with('#') {
            continue;
        }
        let at = |fault| format!("line {}: {fault}: {line}", number + 1);
        for answer in answer(line).map_err(at)? {
            out += &format!("> {answer}\n");
        }
    }
    print(&out)
}

/// Runs a list on the Rust and on our reading of document 01, and stops at the first difference.
fn reading(text: &str) -> Result<String, String> {
    let mut machine = machine::Machine::new();
    let mut model = model::Model::new();
    let (mut lines, mut answers) = (0, 0);
    let mut link = Vec::new();
    for line in text.lines() {
        if line.is_empty() || line.starts_with(['#', '>']) {
            continue;
        }
        if begins(line) {
            link.clear();
        }
        link.push(line);
        let rust = machine.line(line).map_err(|fault| format!("{fault}: {line}"))?;
        let ours = model.line(line).map_err(|fault| format!("{fault}: {line}"))?;
        let same = |(rust, ours): (&String, &String)| same_answer(rust, ours);
        if rust.len() != ours.len() || !rust.iter().zip(&ours).all(same) {
            let link = link.join("\n");
            return Err(format!("{link}\n\nthe Rust: {rust:#?}\nthe reading: {ours:#?}"));
        }
        lines += 1;
        answers += rust.len();
    }
    Ok(format!("{lines} lines, {answers} answers, no difference\n"))
}

/// Whether an answer is the one that is expected, in which a place of `?` isn't compared.
pub fn same_answer(expected: &str, answer: &str) -> bool {
    match expected.strip_suffix(" ?") {
        Some(expected) => answer.rsplit_once(' ').is_some_and(|(answer, _)| answer == expected),
        None => expected == answer,
    }
}

/// Sheets and what `addsheet` must print for them: N.sheet and N.expected.
fn sheets(seed: u64, count: u64, folder: &str) -> Result<(), String> {
    let mut random = generate::Random::new(seed);
    std::fs::create_dir_all(folder).map_err(|error| error.to_string())?;
    for number in 0..count {
        let sheet = generate::sheet(&mut random);
        let answer = sheet::answer(&sheet)?;
        for (text, kind) in [(&sheet, "sheet"), (&answer, "expected")] {
            let path = std::path::Path::new(folder).join(format!("{number}.{kind}"));
            std::fs::write(path, text).map_err(|error| error.to_string())?;
        }
    }
    Ok(())
}

fn number(word: &str) -> u64 {
    word.parse().unwrap_or_else(|_| {
        eprintln!("oracle: {word:?} is no number");
        std::process::exit(2);
    })
}

fn read_all() -> Result<String, String> {
    let mut text = String::new();
    std::io::stdin().read_to_string(&mut text).map_err(|error| error.to_string())?;
    Ok(text)
}

fn print(text: &str) -> Result<(), String> {
    std::io::stdout().write_all(text.as_bytes()).map_err(|error| error.to_string())
}
