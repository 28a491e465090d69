//! Document 01 read as a plain program, without a line of the Rust: a second opinion. It is run
//! beside the Rust on every list, so that a difference between the two is seen before anything is
//! proved from the reading. Capacities, and so refusal 2, aren't in it.
//!
//! It also has the gABI profile (docs/RULES.md, chapter P), commons (S9, S14), groups of several sections
//! (G2) and walks over several archives (A2), which the Rust doesn't: there it is what this port is
//! compared with.
mod archive;
mod collection;
mod merge;
mod shared;
mod table;

use crate::announced::Announced;
use crate::broken::{breaks, changes};
use crate::direct::Direct;
use crate::form::{self, Fault, Words};
use archive::Walk;
use std::collections::BTreeSet;
use table::{Item, Table};

/// A number, and a place that is shown as `?` where the lists don't compare it.
pub(crate) struct Refused(u64, Option<u64>);

impl Refused {
    fn line(&self) -> String {
        match self.1 {
            Some(place) => format!("refused {} {place}", self.0),
            None => format!("refused {} ?", self.0),
        }
    }
}

pub(crate) struct Model {
    rows: Announced,
    table: Table,
    sections: Vec<Section>,
    groups: BTreeSet<String>,
    inputs: Vec<Input>,
    walk: Option<Walk>,
    required: Option<BTreeSet<String>>,
    broken: bool,
    /// Of the links before this one.
    seen: Seen,
}

/// How often the gABI profile answered otherwise than the old one would on the same table, so that a
/// run shows what it tried.
#[derive(Clone, Copy, Default)]
pub struct Seen {
    /// Links with one of the next three.
    pub links: u64,
    /// A row that was kept became hidden.
    pub kept_row_hidden: u64,
    /// A row stayed hidden though what replaced it isn't.
    pub stayed_hidden: u64,
    /// A library's hidden symbol made or took a row and didn't hide it.
    pub library_unhid: u64,
    /// A refused add of an object, hidden, left its name's row unhidden: as in the old profile.
    pub refused_hid_not: u64,
    /// Passes over an index with a weak reference in it.
    pub passes_tied_less: u64,
    /// Admissions: by a weak definition alone, not by a reference, and those alike in both profiles.
    pub admitted_more: u64,
    pub admitted_less: u64,
    pub admitted_alike: u64,
    /// 2026-07: a strong reference replaced a weak undefined row; by an object's symbol; by one that
    /// the group filter made undefined.
    pub strengthened: u64,
    pub strengthened_merged: u64,
    pub strengthened_filtered: u64,
    /// Of them such that hid the row, and such that aren't hidden in a row that stayed so.
    pub strengthened_hid: u64,
    pub strengthened_stayed_hidden: u64,
    /// It was refused for its type; with 16 in an object, so that the link is broken.
    pub strengthened_15: u64,
    pub strengthened_16: u64,
    pub strengthened_16_merged: u64,
    /// Members offered for nothing but such names, and libraries needed for nothing else.
    pub strengthened_offers: u64,
    pub strengthened_needs: u64,
    /// 2026-06: a common took a row, of a weak definition; it was joined with one; it grew the row's
    /// size, its alignment; it was accepted under a strong definition; one was replaced by such a
    /// definition; a weak definition was accepted under one; one was refused with 28.
    pub commons_took: u64,
    pub commons_took_weak: u64,
    pub commons_joined: u64,
    pub commons_grew_size: u64,
    pub commons_grew_alignment: u64,
    pub commons_under: u64,
    pub commons_replaced: u64,
    pub commons_over_weak: u64,
    pub commons_28: u64,
    /// Groups of several sections that were taken, and the repeated ones of them; groups refused with
    /// 29; objects with such a repeated group refused with 8, in the old profile; local symbols of
    /// removed sections that were dropped, in the gABI's: all, those of type 4, symbol 0, those whose
    /// name is missing, and relocations of kept sections that named one (19).
    pub groups_several: u64,
    pub groups_several_repeated: u64,
    pub groups_29: u64,
    pub locals_8: u64,
    pub dropped: u64,
    pub dropped_files: u64,
    pub dropped_first: u64,
    pub dropped_unnamed: u64,
    pub dropped_related: u64,
    /// Walks over several archives that were started: with none, with one, with two to 16; members
    /// offered; of them such at an offset at which another archive's was offered before; passes that
    /// queued members of several archives.
    pub walks_over_none: u64,
    pub walks_over_one: u64,
    pub walks_over_several: u64,
    pub several_offers: u64,
    pub several_same_offset: u64,
    pub several_mixed_passes: u64,
}

impl Seen {
    /// Where the gABI profile and the old one differ on the table as it stood: nothing without such
    /// links.
    pub fn lines(&self) -> String {
        let counts = [
            (self.links, "links in which hidden went otherwise than in the old profile, by"),
            (self.kept_row_hidden, "rows hidden by a later add that doesn't hold them"),
            (self.stayed_hidden, "rows that stayed hidden under a holder that isn't"),
            (self.library_unhid, "rows that a library's hidden symbol made or took, not hidden"),
            (self.refused_hid_not, "refused hidden adds that left a row unhidden (as there)"),
            (self.passes_tied_less, "passes that tied less, for weak references"),
            (self.admitted_more, "members admitted by a weak definition alone"),
            (self.admitted_less, "members not admitted by a reference"),
            (self.admitted_alike, "admissions alike in both profiles"),
            (self.strengthened, "weak references replaced by a strong one, of them"),
            (self.strengthened_merged, "  by an object's symbol"),
            (self.strengthened_filtered, "  by one of a removed group"),
            (self.strengthened_hid, "  that hid the row"),
            (self.strengthened_stayed_hidden, "  that aren't hidden, in a row that stayed so"),
            (self.strengthened_15, "strong references to a weak undefined name refused with 15"),
            (self.strengthened_16, "such references refused with 16, of them"),
            (self.strengthened_16_merged, "  in an object"),
            (self.strengthened_offers, "members offered for names that became strong so, alone"),
            (self.strengthened_needs, "libraries needed for names that became strong so, alone"),
        ];
        let commons = [
            (self.commons_took, "rows taken by a common, of them"),
            (self.commons_took_weak, "  from a weak definition"),
            (self.commons_joined, "commons joined, of them"),
            (self.commons_grew_size, "  with a larger size"),
            (self.commons_grew_alignment, "  with a larger alignment"),
            (self.commons_under, "commons accepted under a strong definition"),
            (self.commons_replaced, "commons replaced by a strong definition"),
            (self.commons_over_weak, "weak definitions accepted under a common"),
            (self.commons_28, "commons refused with 28"),
        ];
        let groups = [
            (self.groups_several, "groups of several sections taken, of them"),
            (self.groups_several_repeated, "  repeated ones, whose sections are removed"),
            (self.groups_29, "groups refused with 29"),
            (
                self.locals_8,
                "objects with such a repeated group refused with 8, by the old profile",
            ),
            (
                self.dropped,
                "local symbols of removed sections dropped, by the gABI profile, of them",
            ),
            (self.dropped_files, "  of type 4"),
            (self.dropped_first, "  symbol 0"),
            (self.dropped_unnamed, "  whose name is missing"),
            (self.dropped_related, "objects refused with 19 for a relocation that names one"),
        ];
        let table = |title: &str, counts: &[(u64, &str)]| {
            if counts.iter().all(|(times, _)| *times == 0) {
                return String::new();
            }
            let line = |(times, what): &(u64, &str)| format!("{times:>9} {what}\n");
            title.to_string() + &counts.iter().map(line).collect::<String>()
        };
        let several = [
            (self.walks_over_none, "walks over no archive"),
            (self.walks_over_one, "walks over one, given by its end"),
            (self.walks_over_several, "walks over two to 16"),
            (self.several_offers, "members offered by them, of them"),
            (self.several_same_offset, "  at the offset of another archive's that was offered"),
            (self.several_mixed_passes, "passes that queued members of several archives"),
        ];
        table("beside the old profile:\n", &counts)
            + &table("of commons:\n", &commons)
            + &table("of groups of several sections:\n", &groups)
            + &table("of several archives:\n", &several)
    }

    /// An add since then was of an object's symbol, which the group filter made undefined or not.
    fn of_object(&mut self, before: &Seen, filtered: bool) {
        let replaced = self.strengthened - before.strengthened;
        self.strengthened_merged += replaced;
        self.strengthened_filtered += replaced * filtered as u64;
        self.strengthened_16_merged += self.strengthened_16 - before.strengthened_16;
    }

    pub fn and(self, other: Seen) -> Seen {
        Seen {
            links: self.links + other.links,
            kept_row_hidden: self.kept_row_hidden + other.kept_row_hidden,
            stayed_hidden: self.stayed_hidden + other.stayed_hidden,
            library_unhid: self.library_unhid + other.library_unhid,
            refused_hid_not: self.refused_hid_not + other.refused_hid_not,
            passes_tied_less: self.passes_tied_less + other.passes_tied_less,
            admitted_more: self.admitted_more + other.admitted_more,
            admitted_less: self.admitted_less + other.admitted_less,
            admitted_alike: self.admitted_alike + other.admitted_alike,
            strengthened: self.strengthened + other.strengthened,
            strengthened_merged: self.strengthened_merged + other.strengthened_merged,
            strengthened_filtered: self.strengthened_filtered + other.strengthened_filtered,
            strengthened_hid: self.strengthened_hid + other.strengthened_hid,
            strengthened_stayed_hidden: self.strengthened_stayed_hidden
                + other.strengthened_stayed_hidden,
            strengthened_15: self.strengthened_15 + other.strengthened_15,
            strengthened_16: self.strengthened_16 + other.strengthened_16,
            strengthened_16_merged: self.strengthened_16_merged + other.strengthened_16_merged,
            strengthened_offers: self.strengthened_offers + other.strengthened_offers,
            strengthened_needs: self.strengthened_needs + other.strengthened_needs,
            commons_took: self.commons_took + other.commons_took,
            commons_took_weak: self.commons_took_weak + other.commons_took_weak,
            commons_joined: self.commons_joined + other.commons_joined,
            commons_grew_size: self.commons_grew_size + other.commons_grew_size,
            commons_grew_alignment: self.commons_grew_alignment + other.commons_grew_alignment,
            commons_under: self.commons_under + other.commons_under,
            commons_replaced: self.commons_replaced + other.commons_replaced,
            commons_over_weak: self.commons_over_weak + other.commons_over_weak,
            commons_28: self.commons_28 + other.commons_28,
            groups_several: self.groups_several + other.groups_several,
            groups_several_repeated: self.groups_several_repeated + other.groups_several_repeated,
            groups_29: self.groups_29 + other.groups_29,
            locals_8: self.locals_8 + other.locals_8,
            dropped: self.dropped + other.dropped,
            dropped_files: self.dropped_files + other.dropped_files,
            dropped_first: self.dropped_first + other.dropped_first,
            dropped_unnamed: self.dropped_unnamed + other.dropped_unnamed,
            dropped_related: self.dropped_related + other.dropped_related,
            walks_over_none: self.walks_over_none + other.walks_over_none,
            walks_over_one: self.walks_over_one + other.walks_over_one,
            walks_over_several: self.walks_over_several + other.walks_over_several,
            several_offers: self.several_offers + other.several_offers,
            several_same_offset: self.several_same_offset + other.several_same_offset,
            several_mixed_passes: self.several_mixed_passes + other.several_mixed_passes,
        }
    }
}

enum Section {
    Reserved,
    Built { name: String, kind: u64, retain: bool, read: bool, relocations: Vec<u64> },
    Dropped { name: String },
}

enum Input {
    Object,
    Library { name: String, needs: Vec<String>, undefined: Vec<String> },
}

impl Model {
    pub(crate) fn new() -> Self {
        Model {
            rows: Announced::default(),
            table: Table::new(false),
            sections: Vec::new(),
            groups: BTreeSet::new(),
            inputs: Vec::new(),
            walk: None,
            required: None,
            broken: false,
            seen: Seen::default(),
        }
    }

    /// The answers to a line, without their `> `.
    pub(crate) fn line(&mut self, line: &str) -> Result<Vec<String>, Fault> {
        if self.broken && changes(line) {
            return Ok(vec![Refused(22, Some(0)).line()]);
        }
        let mut rows = std::mem::take(&mut self.rows);
        let answers = self.answers(line, &mut rows);
        self.rows = rows;
        let answers = answers?;
        self.broken |= breaks(line, &answers);
        Ok(answers)
    }

    /// Of all links so far.
    pub(crate) fn seen(&self) -> Seen {
        let Seen { kept_row_hidden, stayed_hidden, library_unhid, .. } = self.table.seen.get();
        let links = (kept_row_hidden + stayed_hidden + library_unhid > 0) as u64;
        self.seen.and(Seen { links, ..self.table.seen.get() })
    }

    pub(crate) fn counts(&self) -> (u64, u64) {
        (self.table.rows.len() as u64, self.sections.len() as u64)
    }

    pub(crate) fn rows(&self) -> &Announced {
        &self.rows
    }

    fn answers(&mut self, line: &str, rows: &mut Announced) -> Result<Vec<String>, Fault> {
        let mut words = Words::of(line);
        let keyword = words.word()?;
        if keyword == "archive" || keyword == "indexes" {
            (self.walk, self.required) = (None, None);
        }
        if rows.takes(line)? {
            return Ok(Vec::new());
        }
        let refused_or = |result: Result<String, Refused>| match result {
            Ok(answer) => vec![answer],
            Err(refused) => vec![refused.line()],
        };
        let answers = match keyword {
            "link" => {
                let gabi = match words.rest()[..] {
                    [] | ["commons"] => false,
                    ["gabi"] => true,
                    _ => return Err("no such profile".into()),
                };
                rows.clear();
                *self = Model { table: Table::new(gabi), seen: self.seen(), ..Model::new() };
                Vec::new()
            }
            "add" => {
                let item = Item::of_direct(&Direct::read(&mut words)?, &rows.conversion);
                refused_or(match self.table.add(item) {
                    Ok(id) => Ok(format!("id {id}")),
                    Err(21) => Err(Refused(21, None)),
                    Err(number) => Err(Refused(number, Some(0))),
                })
            }
            "remove" => refused_or(self.table.remove(words.number()?).map(|()| "ok".into())),
            "get" => refused_or(self.table.get(words.number()?)),
            "global" => refused_or(self.table.get_global(&words.name()?)),
            "sectionsymbol" => {
                vec![match self.table.section_symbols.get(&words.number()?) {
                    Some(id) => format!("id {id}"),
                    None => "none".into(),
                }]
            }
            "dump" => self.dump(),
            "merge" => {
                rows.whole()?;
                refused_or(self.merge(&rows.object).map(|()| "merged".into()))
            }
            "load" => {
                rows.whole()?;
                refused_or(self.load(&rows.library))
            }
            "start" => {
                rows.archive.whole()?;
                (self.walk, self.required) = (None, None);
                let walk = match &rows.indexes {
                    Some(indexes) => Walk::over(indexes),
                    None => Walk::start(&rows.archive),
                };
                refused_or(walk.map(|walk| {
                    self.table.see(|seen| match rows.indexes.as_ref().map(|all| all.ends.len()) {
                        Some(0) => seen.walks_over_none += 1,
                        Some(1) => seen.walks_over_one += 1,
                        Some(_) => seen.walks_over_several += 1,
                        None => {}
                    });
                    self.walk = Some(walk);
                    "started".into()
                }))
            }
            "next" => refused_or(self.next()?),
            "require" => {
                self.required = Some(words.names()?.into_iter().collect());
                Vec::new()
            }
            "admit" => {
                rows.whole()?;
                vec![self.admit(&rows.object)?]
            }
            "walk" => {
                if rows.indexes.is_some() {
                    return Err("several archives are walked step by step".into());
                }
                rows.archive.whole()?;
                self.whole_walk(&rows.archive)?
            }
            "collect" => {
                let there = words.flag()?;
                let entry = words.number()?;
                let marks = words.bytes()?;
                if marks.len() < self.table.rows.len() {
                    return Err("fewer marks than symbol rows".into());
                }
                refused_or(self.collect(there.then_some(entry), &marks))
            }
            other => return Err(format!("no operation {other:?}")),
        };
        words.end()?;
        Ok(answers)
    }

    fn dump(&self) -> Vec<String> {
        let mut out = Vec::new();
        self.table.dump(&mut out);
        out.push(format!("sections {}", self.sections.len()));
        for (id, section) in self.sections.iter().enumerate() {
            out.push(match section {
                Section::Reserved => format!("section {id} reserved"),
                Section::Dropped { name } => format!("section {id} dropped {}", form::name(name)),
                Section::Built { name, kind, retain, read, relocations } => format!(
                    "section {id} built {} {kind} {} {} {}",
                    form::name(name),
                    *retain as u8,
                    *read as u8,
                    form::counted(relocations)
                ),
            });
        }
        out.push(format!("groups {}", self.groups.len()));
        out.extend(self.groups.iter().map(|name| format!("group {}", form::name(name))));
        out.push(format!("inputs {}", self.inputs.len()));
        let names = |list: &[String]| form::counted(list.iter().map(|name| form::name(name)));
        out.extend(self.inputs.iter().map(|input| match input {
            Input::Object => "input object".into(),
            Input::Library { name, needs, undefined } => {
                format!("input library {} {} {}", form::name(name), names(needs), names(undefined))
            }
        }));
        out
    }
}

/// The name at an offset: from there, in a name's middle or not, to the next zero byte.
fn name_at(bytes: &[u8], offset: u64) -> Option<String> {
    let mut name = String::new();
    let mut at = offset;
    while at < bytes.len() as u64 {
        match bytes[at as usize] {
            0 => return Some(name),
            byte => name.push(byte as char),
        }
        at += 1;
    }
    None
}
