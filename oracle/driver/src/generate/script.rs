//! A list being written. Each line is also run, so that a generator sees the answers.
use super::commons;
use super::random::Random;
use crate::model::Seen;
use crate::reference::Reference;
use crate::rows::{LibraryRows, ObjectRows};

pub(crate) struct Script {
    pub(crate) random: Random,
    pub(crate) reference: Reference,
    said: Vec<Said>,
}

/// An operation and what the Rust answers (the plain reading in the gABI profile), without the `> `.
pub struct Said {
    pub line: String,
    pub answers: Vec<String>,
}

impl Script {
    pub(crate) fn new(seed: u64) -> Self {
        Script { random: Random::new(seed), reference: Reference::new(), said: Vec::new() }
    }

    /// Its links are of the gABI profile, with many hidden symbols.
    pub(crate) fn gabi(seed: u64) -> Self {
        Script { random: Random::gabi(seed), ..Script::new(seed) }
    }

    /// Its links are of the old profile and have commons.
    pub(crate) fn commons(seed: u64) -> Self {
        Script { random: Random::commons(seed), ..Script::new(seed) }
    }

    pub(crate) fn said(self) -> (Vec<Said>, Seen) {
        let seen = self.reference.seen();
        (self.said, seen)
    }

    /// A new link.
    pub(crate) fn link(&mut self) {
        self.say(match (self.random.gabi, self.random.commons) {
            (true, _) => "link gabi",
            (false, true) => "link commons",
            (false, false) => "link",
        });
    }

    /// The answer's first line, or nothing.
    pub(crate) fn say(&mut self, line: impl AsRef<str>) -> String {
        let line = line.as_ref();
        let answers = match self.reference.line(line) {
            Ok(answers) => answers,
            Err(fault) => panic!("oracle: generated {line:?}: {fault}"),
        };
        let first = answers.first().cloned().unwrap_or_default();
        self.said.push(Said { line: line.to_string(), answers });
        first
    }

    pub(crate) fn object(&mut self, rows: &ObjectRows) {
        let mut rows = rows.clone();
        if self.random.commons {
            commons::rows(&mut self.random, &mut rows.symbols);
        } else {
            commons::only_local(&mut rows.symbols);
        }
        for line in rows.lines() {
            self.say(line);
        }
    }

    pub(crate) fn merge(&mut self, rows: &ObjectRows) -> String {
        self.object(rows);
        self.say("merge")
    }

    pub(crate) fn load(&mut self, rows: &LibraryRows) -> String {
        let mut rows = rows.clone();
        if self.random.commons {
            commons::sizes(&mut self.random, &mut rows.symbols);
        }
        for line in rows.lines() {
            self.say(line);
        }
        self.say("load")
    }

    pub(crate) fn symbol_count(&self) -> u64 {
        self.reference.counts().0
    }

    pub(crate) fn section_count(&self) -> u64 {
        self.reference.counts().1
    }
}
