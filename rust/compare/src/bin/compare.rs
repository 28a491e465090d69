//! Random links of every kind on the Rust and on this port, in one process.
//!
//! `compare [SEED [LINKS [KIND]]]`: so many links, of every kind or of one; stops at the first
//! difference, makes its link short and prints it. `compare gabi [SEED [LINKS [KIND]]]`: links of the
//! gABI profile, in which a plain reading of the documents stands for the Rust; `compare commons [SEED
//! [LINKS [KIND]]]`: links of the old profile with what the Rust doesn't have, commons, groups of
//! several sections and walks over several archives, in which it does too. `compare list`: compares on
//! the list that comes by standard input, each link with what its profile is compared with.
use compare::minimise::{difference, minimise};
use compare::{Outcome, Sides};
use oracle::{KINDS, READ_KINDS, Reference, Said, Seen, begins, histories};
use std::collections::BTreeMap;
use std::io::Read;
use std::process::exit;
use std::time::Instant;

/// Links of one kind that are made at once: a multiple of the refusals that one kind aims at.
const CHUNK: u64 = 170;

#[derive(Default)]
struct Counts {
    links: u64,
    lines: u64,
    calls: u64,
    answers: u64,
    on_broken: u64,
    left_out: u64,
    refusals: BTreeMap<u64, u64>,
    kinds: BTreeMap<String, u64>,
    seen: Seen,
}

fn main() {
    oracle::silence_panics();
    compare::ours::silence_panics();
    let mut words: Vec<String> = std::env::args().skip(1).collect();
    if words.first().is_some_and(|word| word == "list") {
        return list();
    }
    // Before the name of a kind of links: "gabi-" or "commons-".
    let mut read = String::new();
    if words.first().is_some_and(|word| word == "gabi" || word == "commons") {
        read = words.remove(0) + "-";
    }
    let number = |at: usize, default| match words.get(at) {
        Some(word) => word.parse().unwrap_or_else(|_| usage()),
        None => default,
    };
    let (seed, links): (u64, u64) = (number(0, 1), number(1, 100_000));
    let kinds = if read.is_empty() { &KINDS[..] } else { &READ_KINDS };
    let kinds: Vec<&str> = match words.get(2) {
        None => kinds.into(),
        Some(word) => kinds.iter().copied().filter(|kind| kind == word).collect(),
    };
    if kinds.is_empty() {
        usage();
    }
    let started = Instant::now();
    let mut counts = Counts::default();
    let mut sides = Sides::default();
    let mut chunk = 0;
    if !read.is_empty() && words.get(2).is_none() {
        // Every short word over small alphabets: the seed plays no part.
        run(&format!("{read}short-adds"), 0, 0, &mut sides, &mut counts);
    }
    let links = links + counts.links;
    while counts.links < links {
        let kind = kinds[(chunk % kinds.len() as u64) as usize];
        let kind = format!("{read}{kind}");
        // Every chunk can be made again by itself: oracle gen KIND SEED COUNT.
        let own = seed.wrapping_mul(1_000_003).wrapping_add(chunk);
        let count = CHUNK.min(links - counts.links);
        run(&kind, own, count, &mut sides, &mut counts);
        chunk += 1;
    }
    print(&counts, started.elapsed().as_secs_f64());
}

/// Makes links of a kind and compares on them.
fn run(kind: &str, seed: u64, count: u64, sides: &mut Sides, counts: &mut Counts) {
    let (said, seen) = histories(kind, seed, count).expect("a kind of links");
    let before = counts.links;
    compare(sides, &said, &format!("{kind} {seed} {count}"), counts);
    *counts.kinds.entry(kind.into()).or_default() += counts.links - before;
    counts.seen = counts.seen.and(seen);
}

fn usage() -> ! {
    eprintln!("usage: compare [gabi | commons] [SEED [LINKS [KIND]]], or compare list");
    exit(2);
}

fn list() {
    let mut text = String::new();
    std::io::stdin().read_to_string(&mut text).expect("a list");
    let mut reference = Reference::new();
    let mut said = Vec::new();
    for line in text.lines() {
        if line.is_empty() || line.starts_with(['#', '>']) {
            continue;
        }
        let answers = reference.line(line).unwrap_or_else(|fault| {
            eprintln!("{fault}: {line}");
            exit(2);
        });
        said.push(Said { line: line.into(), answers });
    }
    let (started, seen) = (Instant::now(), reference.seen());
    let mut counts = Counts { seen, ..Counts::default() };
    compare(&mut Sides::default(), &said, "list", &mut counts);
    print(&counts, started.elapsed().as_secs_f64());
}

fn compare(sides: &mut Sides, said: &[Said], made_by: &str, counts: &mut Counts) {
    for (at, Said { line, answers }) in said.iter().enumerate() {
        counts.links += begins(line) as u64;
        match sides.line(line, answers) {
            Outcome::Same => {}
            Outcome::LeftOut => {
                counts.left_out += 1;
                continue;
            }
            Outcome::Differs(rust, ours) => {
                let lines: Vec<_> = said[..=at].iter().map(|said| said.line.clone()).collect();
                differs(&lines, made_by, &rust, &ours);
            }
        }
        counts.lines += 1;
        counts.on_broken += answers.iter().any(|answer| answer == "refused 22 0") as u64;
        counts.calls += (!answers.is_empty() && line != "dump") as u64;
        counts.answers += answers.len() as u64;
        for answer in answers {
            count_refusal(answer, &mut counts.refusals);
        }
    }
}

fn count_refusal(answer: &str, refusals: &mut BTreeMap<u64, u64>) {
    let mut words = answer.split(' ').skip_while(|word| *word != "refused");
    if let Some(number) = words.nth(1).and_then(|word| word.parse().ok()) {
        *refusals.entry(number).or_default() += 1;
    }
}

/// Ends with the last link made short. Where it differs only after links before it (what lent
/// cells hold must not matter), these stay too.
fn differs(lines: &[String], made_by: &str, rust: &[String], ours: &[String]) -> ! {
    println!("a difference in a link made by: oracle gen {made_by}");
    let starts = (0..lines.len()).rev().filter(|at| begins(&lines[*at]));
    let Some(lines) = starts.map(|at| from(lines, at)).find(|lines| difference(lines).is_some())
    else {
        println!("run again it doesn't differ; the answers were");
        print_answers(rust, ours);
        exit(1);
    };
    let short = minimise(&lines);
    println!("{}", short.join("\n"));
    if let Some(found) = difference(&short) {
        println!("# differs at: {}", found.line);
        print_answers(&found.rust, &found.ours);
    }
    exit(1);
}

/// The lines from there on, behind the conversion that they use.
fn from(lines: &[String], at: usize) -> Vec<String> {
    let conversion = lines[..at].iter().rev().find(|line| line.starts_with("conversion"));
    conversion.into_iter().chain(&lines[at..]).cloned().collect()
}

fn print_answers(rust: &[String], ours: &[String]) {
    for at in 0..rust.len().max(ours.len()) {
        match (rust.get(at), ours.get(at)) {
            (Some(rust), Some(ours)) if compare::same_answer(rust, ours) => println!("> {rust}"),
            (rust, ours) => {
                let none = String::from("(nothing)");
                println!("# expected: {}", rust.unwrap_or(&none));
                println!("# ours:     {}", ours.unwrap_or(&none));
            }
        }
    }
}

fn print(counts: &Counts, seconds: f64) {
    println!(
        "{} links, {} lines with {} calls, {} answers compared, {} lines left out; no difference \
         ({seconds:.0} s)",
        counts.links, counts.lines, counts.calls, counts.answers, counts.left_out
    );
    println!(
        "{:>9} changing calls on broken links, for which the Rust isn't asked",
        counts.on_broken
    );
    for (kind, links) in &counts.kinds {
        println!("{links:>9} links of kind {kind}");
    }
    for (number, times) in &counts.refusals {
        println!("{times:>9} refused {number}");
    }
    print!("{}", counts.seen.lines());
}
