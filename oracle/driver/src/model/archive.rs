//! 01 "Archives".
use super::table::Table;
use super::{Model, Refused, name_at};
use crate::announced::{ArchiveRows, Indexes};
use crate::form::{self, Fault};
use crate::rows::{ObjectRows, SymbolRow};
use std::collections::{BTreeSet, VecDeque};

/// An archive, by the order in which they are given, and an offset in it.
type Place = (u64, u64);

#[derive(Default)]
pub(super) struct Walk {
    /// Of all archives, one after the other: the member's place, and a name.
    entries: Vec<(Place, String)>,
    /// How many archives there are, where they are given by their indexes.
    several: Option<usize>,
    passes: u64,
    done: bool,
    offered: BTreeSet<Place>,
    queue: VecDeque<(Place, BTreeSet<String>)>,
}

const BOUND: usize = 65_535;

/// What the indexes say, or the first refusal: 1 for a seventeenth archive; for an end; 20; then 1 for
/// what an index holds, index by index.
fn read(indexes: &Indexes) -> Result<Vec<(Place, String)>, Refused> {
    let refused = |number, place: usize| Err(Refused(number, Some(place as u64)));
    let Indexes { bytes, ends } = indexes;
    if ends.len() > 16 {
        return refused(1, 16);
    }
    let mut parts = Vec::new();
    let mut begin = 0;
    for (archive, end) in ends.iter().enumerate() {
        if *end < begin || *end > bytes.len() as u64 {
            return refused(1, archive);
        }
        parts.push(&bytes[begin as usize..*end as usize]);
        begin = *end;
    }
    if let Some(archive) = parts.iter().position(|part| part.is_empty()) {
        return refused(20, archive);
    }
    let mut entries = Vec::new();
    for (archive, part) in parts.iter().enumerate() {
        // Entries of the archives before.
        let before = entries.len();
        let word = |at: usize| {
            let bytes = part.get(4 * at..4 * at + 4)?;
            Some(bytes.iter().fold(0, |number, byte| number << 8 | u64::from(*byte)))
        };
        let Some(count) = word(0) else { return refused(1, before) };
        let mut offsets = Vec::new();
        while (offsets.len() as u64) < count {
            match word(offsets.len() + 1) {
                Some(offset) => offsets.push(offset),
                None => return refused(1, BOUND.min(before + offsets.len())),
            }
        }
        if before + offsets.len() > BOUND {
            return refused(1, BOUND);
        }
        let mut at = 4 + 4 * count;
        for offset in offsets {
            let Some(name) = name_at(part, at) else { return refused(1, entries.len()) };
            at += name.chars().count() as u64 + 1;
            entries.push(((archive as u64, offset), name));
        }
    }
    Ok(entries)
}

impl Walk {
    pub(super) fn start(archive: &ArchiveRows) -> Result<Walk, Refused> {
        let entries = archive.entries.iter();
        let entries = entries.map(|(offset, name)| ((0, *offset), name.clone())).collect();
        match archive.has_index {
            true => Ok(Walk { entries, ..Walk::default() }),
            false => Err(Refused(20, Some(0))),
        }
    }

    /// A walk over several archives.
    pub(super) fn over(indexes: &Indexes) -> Result<Walk, Refused> {
        let several = Some(indexes.ends.len());
        Ok(Walk { entries: read(indexes)?, several, ..Walk::default() })
    }

    /// The next member's place and the names required of it; none when done.
    fn step(&mut self, table: &Table) -> Result<Option<(Place, BTreeSet<String>)>, Refused> {
        if self.done {
            return Ok(None);
        }
        if self.queue.is_empty() {
            self.pass(table)?;
        }
        let next = self.queue.pop_front();
        self.done = next.is_none();
        Ok(next)
    }

    fn pass(&mut self, table: &Table) -> Result<(), Refused> {
        let mut tied = Vec::new();
        let mut weak = false;
        for (position, (place, name)) in self.entries.iter().enumerate() {
            let Some(id) = table.names.get(name) else { continue };
            let row = table.present(*id).ok_or(Refused(21, Some(position as u64)))?;
            if !row.value.is_undefined() {
                continue;
            }
            // 2026-02: "a weak reference ties no member"
            if table.gabi && row.is_weak() {
                weak = true;
            } else {
                tied.push((*place, name.clone(), row.strengthened));
            }
        }
        table.see(|seen| seen.passes_tied_less += weak as u64);
        self.passes += 1;
        for (place, ..) in &tied {
            let elsewhere = |other: &Place| other.1 == place.1 && other.0 != place.0;
            let same_offset = self.offered.iter().any(elsewhere);
            if self.offered.insert(*place) {
                let names = tied.iter().filter(|(other, ..)| other == place);
                let strengthened = names.clone().all(|(.., strengthened)| *strengthened);
                table.see(|seen| {
                    seen.strengthened_offers += strengthened as u64;
                    seen.several_offers += self.several.is_some() as u64;
                    seen.several_same_offset += same_offset as u64;
                });
                self.queue.push_back((*place, names.map(|(_, name, _)| name.clone()).collect()));
            }
        }
        let archives: BTreeSet<u64> = self.queue.iter().map(|((archive, _), _)| *archive).collect();
        table.see(|seen| seen.several_mixed_passes += (archives.len() > 1) as u64);
        Ok(())
    }
}

/// Some symbol of any symbol table that counts bears a required name. What counts: binding 1,
/// defined or not; in the gABI profile "a weak or global definition, and nothing else".
pub(super) fn admits(table: &Table, rows: &ObjectRows, required: &BTreeSet<String>) -> bool {
    let bears = |counts: &dyn Fn(&SymbolRow) -> bool| {
        rows.sections.iter().filter(|row| row.kind == 3 || row.kind == 10).any(|row| {
            let strings = rows.sections.get(row.link as usize).filter(|strings| strings.kind == 4);
            let symbols = rows.table(row).expect("its rows").iter();
            symbols.filter(|symbol| counts(symbol)).any(|symbol| {
                let name = strings.and_then(|strings| name_at(&strings.bytes, symbol.name));
                name.is_some_and(|name| required.contains(&name))
            })
        })
    };
    let old = bears(&|symbol| symbol.binding == 1);
    if !table.gabi {
        return old;
    }
    let gabi = bears(&|symbol| [1, 2].contains(&symbol.binding) && symbol.section != 0);
    table.see(|seen| match (old, gabi) {
        (false, true) => seen.admitted_more += 1,
        (true, false) => seen.admitted_less += 1,
        _ => seen.admitted_alike += 1,
    });
    gabi
}

impl Model {
    pub(super) fn next(&mut self) -> Result<Result<String, Refused>, Fault> {
        let walk = self.walk.as_mut().ok_or("no walk was started")?;
        Ok(match walk.step(&self.table) {
            Err(refused) => Err(refused),
            Ok(None) => Ok(format!("done {}", walk.passes)),
            Ok(Some(((archive, offset), required))) => {
                let names = form::counted(required.iter().map(|name| form::name(name)));
                self.required = Some(required);
                let whose = walk.several.map_or(String::new(), |_| format!("of {archive} "));
                Ok(format!("{whose}member {offset} {} {names}", walk.passes))
            }
        })
    }

    pub(super) fn admit(&self, rows: &ObjectRows) -> Result<String, Fault> {
        let required = self.required.as_ref().ok_or("nothing is required")?;
        Ok(if admits(&self.table, rows, required) { "yes".into() } else { "no".into() })
    }

    pub(super) fn whole_walk(&mut self, archive: &ArchiveRows) -> Result<Vec<String>, Fault> {
        let mut out = Vec::new();
        let mut walk = match Walk::start(archive) {
            Ok(walk) => walk,
            Err(refused) => return Ok(vec![refused.line()]),
        };
        loop {
            match walk.step(&self.table) {
                Err(refused) => out.push(refused.line()),
                Ok(None) => out.push("done".into()),
                Ok(Some(((_, offset), required))) => {
                    let rows = archive.members.get(&offset).ok_or("no such member")?;
                    if !admits(&self.table, rows, &required) {
                        out.push(format!("offer {offset} no"));
                        continue;
                    }
                    match self.merge(rows) {
                        Ok(()) => {
                            out.push(format!("offer {offset} merged"));
                            continue;
                        }
                        Err(refused) => out.push(format!("offer {offset} {}", refused.line())),
                    }
                }
            }
            return Ok(out);
        }
    }
}
