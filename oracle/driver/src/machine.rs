//! Takes the lines of a list one by one, runs them on the Rust and gives the answers.
use crate::announced::{Announced, ArchiveRows};
use crate::broken::{breaks, changes};
use crate::direct::Direct;
use crate::form::{Fault, Words};
use crate::link::Link;
use crate::passes::load_inputs::{ArchiveWalk, Required};
use crate::refusal::refusal;
use cuddld_ar::{ArMemberId, ArSymbolTable, Archive, Entries};
use std::collections::BTreeMap;

pub struct Machine {
    pub(crate) link: Link,
    pub(crate) rows: Announced,
    pub(crate) walk: Option<ArchiveWalk>,
    pub(crate) required: Option<Required>,
    broken: bool,
}

impl Machine {
    #[allow(clippy::new_without_default)]
    pub fn new() -> Self {
        Machine {
            link: Link::new(),
            rows: Announced::default(),
            walk: None,
            required: None,
            broken: false,
        }
    }

    /// The answers to a line, without their `> `. They are the Rust's, but for 22.
    pub fn line(&mut self, line: &str) -> Result<Vec<String>, Fault> {
        if self.broken && changes(line) {
            return Ok(vec![refusal(22, Some(0)).to_string()]);
        }
        let answers = self.ask(line)?;
        self.broken |= breaks(line, &answers);
        Ok(answers)
    }

    fn ask(&mut self, line: &str) -> Result<Vec<String>, Fault> {
        let mut words = Words::of(line);
        let keyword = words.word()?;
        let mut answers = Vec::new();
        if keyword == "archive" || keyword == "indexes" {
            self.walk = None;
            self.required = None;
        }
        if self.rows.takes(line)? {
            return Ok(answers);
        }
        match keyword {
            "link" => {
                if let [profile, ..] = words.rest()[..] {
                    return Err(format!(
                        "the Rust has the old profile alone, without commons, not {profile:?}"
                    ));
                }
                cuddld_ar::clear_shelf();
                cuddld_elf::clear_shelf();
                let mut rows = std::mem::take(&mut self.rows);
                rows.clear();
                *self = Machine { rows, ..Machine::new() };
            }
            "add" => {
                let add = Direct::read(&mut words)?;
                if let Direct::HiddenCommon(..) = add {
                    return Err("the Rust has no commons".into());
                }
                answers.push(self.add(&add));
            }
            "remove" => answers.push(self.remove(words.number()?)),
            "get" => answers.push(self.get(words.number()?)),
            "global" => answers.push(self.get_global(&words.name()?)),
            "sectionsymbol" => answers.push(self.section_symbol(words.number()?)),
            "dump" => answers = self.link.dump(),
            "merge" => {
                self.rows.whole()?;
                answers.push(self.merge()?);
            }
            "load" => {
                self.rows.whole()?;
                answers.push(self.load());
            }
            "start" => answers.push(self.start()?),
            "next" => answers.push(self.next()?),
            "require" => self.required = Some(Required::of(&words.names()?)),
            "admit" => {
                self.rows.whole()?;
                answers.push(self.admit()?);
            }
            "walk" => answers = self.walk()?,
            "collect" => {
                let entry = words.flag()?;
                let symbol = words.number()?;
                let marks = words.bytes()?;
                answers.push(self.collect(entry.then_some(symbol), &marks)?);
            }
            other => return Err(format!("no operation {other:?}")),
        }
        words.end()?;
        Ok(answers)
    }
}

impl ArchiveRows {
    pub(crate) fn archive(&self) -> Result<Archive, Fault> {
        self.whole()?;
        let entries =
            self.entries.iter().map(|(offset, name)| (name.clone(), ArMemberId(*offset as u32)));
        Ok(Archive {
            index: self.has_index.then(|| ArSymbolTable { symbols: Entries(entries.collect()) }),
            members: BTreeMap::new(),
        })
    }
}
