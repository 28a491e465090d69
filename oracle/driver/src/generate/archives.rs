//! Archives: walks step by step, and through `ObjectsReader`; walks over several archives, which the
//! Rust doesn't have.
use super::merges::{self, refused};
use super::objects::{Plan, object, offset};
use super::random::Random;
use super::references;
use super::script::Script;
use crate::announced::ArchiveRows;
use crate::form;
use crate::rows::{ABSOLUTE, COMMON, ObjectRows, SectionRow, SymbolRow};
use std::collections::BTreeMap;

const NAMES: [&str; 7] = ["a", "b", "c", "d", "e", "mute", "clear"];
const OFFSETS: [u64; 7] = [8, 100, 102, 4000, 70_000, 0, u32::MAX as u64];

/// An index, and for each of its members an object that mostly bears what the index says.
#[derive(Clone, Default)]
pub(super) struct Made {
    entries: Vec<(u64, String)>,
    members: BTreeMap<u64, ObjectRows>,
}

/// Each member defines one name and refers to the next: a pass for each, if the first is wanted.
fn chain(random: &mut Random) -> Made {
    let mut names = NAMES;
    random.shuffle(&mut names);
    let names = &names[..random.between(2, 5) as usize];
    let mut entries = Vec::new();
    let mut members = BTreeMap::new();
    for (at, name) in names.iter().enumerate() {
        let offset = 60 * (at as u64 + 1);
        let next = names.get(at + 1).copied();
        entries.push((offset, name.to_string()));
        members.insert(offset, one_section(random, &[(name, 1, 1), (next.unwrap_or("z"), 1, 0)]));
    }
    random.shuffle(&mut entries);
    Made { entries, members }
}

impl Made {
    /// The System V index: count, offsets, zero-ended names.
    fn index(&self) -> Vec<u8> {
        let entries = self.entries.clone();
        ArchiveRows { has_index: true, entries, ..ArchiveRows::default() }.index()
    }

    pub(super) fn members(&mut self) -> impl Iterator<Item = &mut ObjectRows> {
        self.members.values_mut()
    }
}

pub(super) fn archive(random: &mut Random) -> Made {
    if random.chance(25) {
        return chain(random);
    }
    one(random, &mut NAMES.into())
}

/// An archive; what its members define strongly is taken from these names.
fn one(random: &mut Random, strong: &mut Vec<&'static str>) -> Made {
    let mut offsets = OFFSETS;
    random.shuffle(&mut offsets);
    let offsets = &offsets[..random.pick(&[1, 2, 3, 4, 5, 6])];
    let mut entries = Vec::new();
    for _ in 0..random.pick(&[0, 1, 2, 3, 4, 5, 6, 7, 8, 9, 12]) {
        // An entry may stand twice, and a name may be tied to several members.
        entries.push((random.pick(offsets), random.pick(&NAMES).to_string()));
    }
    let mut members = BTreeMap::new();
    for (offset, _) in &entries {
        members.entry(*offset).or_insert_with(|| {
            let names: Vec<&str> = entries
                .iter()
                .filter(|(other, _)| other == offset)
                .map(|(_, name)| name.as_str())
                .collect();
            member(random, &names, strong)
        });
    }
    Made { entries, members }
}

/// One program section and a symbol for each name: strong (once in the archive, mostly), weak, or
/// undefined; and references to other names, which the next pass may tie.
fn member(random: &mut Random, names: &[&str], strong: &mut Vec<&'static str>) -> ObjectRows {
    if random.chance(5) {
        return object(random, &Plan { symbols: (1, 4), ..merges::plan(0) });
    }
    let mut symbols: Vec<(&str, u64, u64)> = Vec::new();
    let mut symbol = |name, binding, section| symbols.push((name, binding, section));
    for name in names {
        if random.chance(8) {
            continue;
        }
        if random.gabi && random.chance(10) {
            // What defines a name in no section of the member, and a binding that admits none.
            symbol(name, random.pick(&[1, 2, 3]), random.pick(&[1, ABSOLUTE, COMMON]));
            continue;
        }
        let free = strong.iter().position(|other| other == name);
        match (random.below(10), free) {
            (0, _) => symbol(name, 1, 0),
            (1 | 2, _) => symbol(name, 2, 1),
            (3, _) => symbol(name, 0, 1),
            (4, _) => symbol(name, 1, 1),
            (_, Some(at)) => {
                strong.remove(at);
                symbol(name, 1, 1);
            }
            (_, None) => symbol(name, 2, 1),
        }
    }
    for _ in 0..random.between(0, 2) {
        symbol(random.pick(&NAMES), random.pick(&[1, 1, 2]), 0);
    }
    let mut rows = one_section(random, &symbols);
    if random.gabi && random.chance(6) {
        // A reference of a type that no row may have.
        let references = |row: &&mut SymbolRow| (row.binding, row.section) == (1, 0);
        if let Some(row) = rows.symbols.iter_mut().find(references) {
            row.kind = references::kind(random, 100);
        }
    }
    // At times `matches` looks where a merge doesn't, or finds no strings.
    match random.below(25) {
        0 => rows.sections[2].kind = 10,
        1 => rows.sections[2].exclude = true,
        2 => rows.sections[2].link = 1,
        3 => rows.sections[3].exclude = true,
        _ => {}
    }
    rows
}

/// An object of one program section, and symbols given by name, binding and section.
pub(super) fn one_section(random: &mut Random, wanted: &[(&str, u64, u64)]) -> ObjectRows {
    let mut strings = vec![0];
    let mut symbols = vec![SymbolRow::default()];
    for (name, binding, section) in wanted {
        let name = offset(&mut strings, name);
        let kind = random.below(4);
        symbols.push(SymbolRow {
            name,
            binding: *binding,
            kind,
            section: *section,
            visibility: if *binding == 0 { 0 } else { random.hidden() },
            ..SymbolRow::default()
        });
    }
    let count = symbols.len() as u64;
    let text = offset(&mut strings, ".text");
    let row = |kind| SectionRow { kind, ..SectionRow::default() };
    ObjectRows {
        sections: vec![
            row(0),
            SectionRow { name: text, read: true, ..row(1) },
            SectionRow { link: 3, items: vec![0, count], ..row(3) },
            SectionRow { bytes: strings, ..row(4) },
        ],
        symbols,
        names: 3,
    }
}

/// The index' lines.
pub(super) fn describe(script: &mut Script, made: &Made) {
    let has_index = !(made.entries.is_empty() && script.random.chance(50));
    script.say(format!("archive {} {}", has_index as u8, made.entries.len()));
    for (offset, name) in &made.entries {
        script.say(format!("entry {offset} {}", form::name(name)));
    }
    let index = script.reference.rows().archive.index();
    script.say(format!("index {}", form::hex(&index)));
}

/// References that a walk may start from.
pub(super) fn references(script: &mut Script) {
    for _ in 0..script.random.between(1, 3) {
        let (name, binding) = (script.random.pick(&NAMES), script.random.pick(&[1, 1, 2]));
        if script.random.gabi && script.random.chance(20) {
            // Strong, though it may be zero by default.
            let zero = script.random.below(2);
            script.say(format!("add hidden {name} undef {zero}"));
            continue;
        }
        let visibility = script.random.hidden();
        script.say(format!("add elf {name} {binding} 0 {visibility} 0 0 0 -"));
    }
}

/// In some links of the gABI profile. Answers whether the link is broken.
fn weak_then_strong(script: &mut Script) -> bool {
    script.random.gabi && script.random.chance(30) && references::weak_then_strong(script, &NAMES)
}

pub(crate) fn steps(script: &mut Script, count: u64) {
    for _ in 0..count {
        script.link();
        if weak_then_strong(script) {
            script.say("dump");
            continue;
        }
        references(script);
        let made = archive(&mut script.random);
        describe(script, &made);
        if refused(script.say("start")) {
            continue;
        }
        // Between the start and the first step the table may change: the pass sees it.
        if script.random.chance(30) {
            references(script);
        }
        walk_in_steps(script, &[made]);
        script.say("dump");
    }
}

/// Archives that need each other: each name is defined by a member that refers to the next, which is
/// mostly another archive's, at the same offsets.
fn ring(random: &mut Random, count: usize) -> Vec<Made> {
    let mut names = NAMES;
    random.shuffle(&mut names);
    let names = &names[..random.between(2, 7) as usize];
    let mut all = vec![Made::default(); count];
    for (at, name) in names.iter().enumerate() {
        let next = names[(at + 1) % names.len()];
        let archive =
            if random.chance(80) { at % count } else { random.below(count as u64) as usize };
        let offset = random.pick(&OFFSETS[..3]);
        let made = &mut all[archive];
        if !made.members.contains_key(&offset) {
            made.entries.push((offset, name.to_string()));
            let rows = one_section(random, &[(name, 1, 1), (next, 1, 0)]);
            made.members.insert(offset, rows);
        }
    }
    all
}

/// Up to 16 archives, rarely 17, some of them given twice.
fn group(random: &mut Random) -> Vec<Made> {
    let any = random.between(4, 16) as usize;
    let count = random.pick(&[0, 1, 1, 2, 2, 2, 2, 3, 3, 3, 4, 5, any, any, any, 16]);
    let mut all = match random.chance(35) && count > 0 {
        true => ring(random, count),
        false => {
            // Of few names not every archive can define one strongly.
            let mut strong: Vec<&'static str> = [NAMES, NAMES].concat();
            random.shuffle(&mut strong);
            (0..count).map(|_| one(random, &mut strong)).collect()
        }
    };
    while !all.is_empty() && all.len() < 17 && random.chance(20) {
        let twin = random.pick(&all);
        let at = random.below(all.len() as u64 + 1) as usize;
        all.insert(at, twin);
    }
    while !all.is_empty() && all.len() < 17 && random.chance(2) {
        all.push(Made::default());
    }
    if random.chance(1) {
        all.resize(17, Made::default());
    }
    all
}

/// The indexes as they lie in one slice, and where each ends; at times damaged.
fn indexes(random: &mut Random, all: &[Made]) -> (Vec<u8>, Vec<u64>) {
    let mut parts: Vec<Vec<u8>> = all.iter().map(Made::index).collect();
    let damaged = random.chance(30);
    if damaged && !parts.is_empty() {
        for _ in 0..random.between(1, 2) {
            let at = random.below(parts.len() as u64) as usize;
            contents(random, &mut parts[at]);
        }
    }
    let mut end = 0;
    let mut ends: Vec<u64> = parts
        .iter()
        .map(|part| {
            end += part.len() as u64;
            end
        })
        .collect();
    let mut bytes = parts.concat();
    if random.chance(10) {
        // What no index has.
        bytes.extend([b'a', 0, 0]);
    }
    if damaged && !ends.is_empty() && random.chance(30) {
        let at = random.below(ends.len() as u64) as usize;
        let some = random.below(end + 8);
        ends[at] = random.pick(&[some, some, end, end + 1, 0, u64::MAX, ends[at].wrapping_sub(1)]);
    }
    (bytes, ends)
}

/// An index is cut, its count another, or a byte of it.
fn contents(random: &mut Random, index: &mut Vec<u8>) {
    let len = index.len() as u64;
    if len < 4 {
        return;
    }
    match random.below(8) {
        0 => index.clear(),
        1 => index.truncate(random.below(4) as usize),
        2 | 3 => index.truncate(random.below(len) as usize),
        4 => index[3] = index[3].wrapping_add(random.pick(&[1, 1, 2, 255])),
        5 => index[random.below(4) as usize] = random.pick(&[1, 16, 255]),
        6 => drop(index.pop()),
        _ => index[random.below(len) as usize] = random.pick(&[0, b'a', b'e']),
    }
}

/// Walks over several archives, for links that the Rust isn't asked.
pub(crate) fn several(script: &mut Script, count: u64) {
    for _ in 0..count {
        script.link();
        references(script);
        let made = group(&mut script.random);
        let (bytes, ends) = indexes(&mut script.random, &made);
        script.say(format!("indexes {} {}", form::hex(&bytes), form::counted(ends)));
        if refused(script.say("start")) {
            continue;
        }
        if script.random.chance(30) {
            references(script);
        }
        walk_in_steps(script, &made);
        script.say("dump");
    }
}

/// Answers whether a merge broke the link.
pub(super) fn walk_in_steps(script: &mut Script, all: &[Made]) -> bool {
    let mut broken = false;
    // What was merged from an archive that is given twice.
    let mut merged: Vec<(u64, &Vec<(u64, String)>)> = Vec::new();
    let mut done = 0;
    let mut steps = 0;
    while done < 2 && steps < 24 {
        steps += 1;
        let answer = script.say("next");
        let words: Vec<_> = answer.split(' ').collect();
        let (archive, words) = match words[..] {
            ["of", archive, ref words @ ..] => (archive.parse().expect("a number"), words),
            ref words => (0, words),
        };
        match *words {
            ["done", ..] => {
                done += 1;
                // Undefined names that come too late change nothing.
                if done < 2 && script.random.chance(40) {
                    if !broken {
                        references(script);
                    }
                    continue;
                }
                return broken;
            }
            ["refused", ..] => {
                // A removed name stays removed: every later pass is refused too.
                if script.random.chance(70) {
                    return broken;
                }
            }
            ["member", offset, ..] => {
                let offset: u64 = offset.parse().expect("an offset");
                if broken {
                    continue;
                }
                let none = ObjectRows::default();
                let made = &all[archive];
                // A damaged index may name a member that isn't there.
                script.object(made.members.get(&offset).unwrap_or(&none));
                let admitted = script.say("admit") == "yes";
                let again = merged.contains(&(offset, &made.entries));
                if again && script.random.chance(80) {
                    continue;
                }
                if admitted && script.random.chance(92) || script.random.chance(4) {
                    broken = refused(script.say("merge"));
                    merged.push((offset, &made.entries));
                }
            }
            _ => panic!("oracle: {answer}"),
        }
        if !broken && script.random.chance(15) {
            between(script);
        }
    }
    broken
}

/// Calls between two steps: a name defined since, a new reference, a removal.
fn between(script: &mut Script) {
    let name = script.random.pick(&NAMES);
    if script.random.gabi && script.random.chance(50) {
        return references::direct(script, name);
    }
    match script.random.below(5) {
        0 | 1 => {
            let visibility = script.random.hidden();
            script.say(format!("add elf {name} 2 0 {visibility} 65521 7 0 -"))
        }
        2 | 3 => script.say(format!("add unknown {name}")),
        _ => {
            let id = script.random.below(script.symbol_count());
            script.say(format!("remove {id}"))
        }
    };
}

pub(crate) fn walks(script: &mut Script, count: u64) {
    for _ in 0..count {
        script.link();
        if weak_then_strong(script) {
            script.say("dump");
            continue;
        }
        references(script);
        if script.random.chance(8) {
            let id = script.random.below(script.symbol_count());
            script.say(format!("remove {id}"));
        }
        let made = archive(&mut script.random);
        describe(script, &made);
        for (offset, rows) in &made.members {
            script.object(rows);
            script.say(format!("member {offset}"));
        }
        script.say("walk");
        script.say("dump");
    }
}
