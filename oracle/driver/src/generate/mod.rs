//! Makes lists of operations. Seeds are fixed by the caller, so that a list can be made again.
mod adds;
mod archives;
mod collections;
mod commons;
mod damage;
mod front;
mod libraries;
mod merges;
mod mixed;
mod objects;
mod random;
mod references;
mod script;
mod sheets;

use crate::model::Seen;
use script::Script;

const LIMITS: &str = include_str!("../../limits.txt");

/// The kinds of random links.
pub const KINDS: [&str; 8] =
    ["adds", "merges", "refusals", "shared", "archives", "walks", "collections", "mixed"];

/// Where the Rust isn't asked.
pub const READ_KINDS: [&str; 9] = [
    "adds",
    "merges",
    "refusals",
    "shared",
    "archives",
    "walks",
    "collections",
    "mixed",
    "several",
];

/// The operations of a list, without answers.
pub fn list(kind: &str, seed: u64, count: u64) -> Option<String> {
    match kind {
        "limits" => return Some(LIMITS.into()),
        "examples" => return Some(crate::selftest::EXAMPLES.into()),
        _ => {}
    }
    let (said, _) = histories(kind, seed, count)?;
    Some(said.iter().map(|said| format!("{}\n", said.line)).collect())
}

/// Operations with the Rust's answers. A kind behind `gabi-`: links of the gABI profile, behind
/// `commons-` links of the old one with commons, both with the plain reading's answers, and what they
/// tried.
pub fn histories(kind: &str, seed: u64, count: u64) -> Option<(Vec<Said>, Seen)> {
    let (mut script, kind) = match kind.split_once('-') {
        Some(("gabi", kind)) => (Script::gabi(seed), kind),
        Some(("commons", kind)) => (Script::commons(seed), kind),
        _ => (Script::new(seed), kind),
    };
    let make = match kind {
        "short-adds" => adds::short,
        "adds" => adds::random,
        "merges" => merges::histories,
        "refusals" => merges::refusals,
        "shared" => libraries::links,
        "archives" => archives::steps,
        "walks" => archives::walks,
        "several" if script.random.commons => archives::several,
        "collections" => collections::links,
        "mixed" => mixed::links,
        _ => return None,
    };
    make(&mut script, count);
    Some(script.said())
}

pub use random::Random;
pub use script::Said;
pub(crate) use sheets::sheet;
