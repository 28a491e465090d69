//! References to a name, a weak one first and strong ones after it (document 02, 2026-07): in the
//! gABI profile a strong one takes the row, if its type passes. For links of that profile.
use super::archives::one_section;
use super::merges::refused;
use super::objects::offset;
use super::random::Random;
use super::script::Script;
use crate::form;
use crate::rows::{LibraryRows, ObjectRows, SectionRow, SymbolRow};

/// A weak reference to one of the names, then one to three others, mostly strong, and at times a
/// library that may be needed for it. References are made directly, and by objects too. Answers
/// whether the link is broken.
pub(super) fn weak_then_strong(script: &mut Script, names: &[&str]) -> bool {
    let name = script.random.pick(names);
    if script.random.chance(50) {
        weak(script, name);
    } else if merge(script, &[(name, 2, 0)], 0) {
        return true;
    }
    for _ in 0..script.random.between(1, 3) {
        if script.random.chance(50) {
            direct(script, name);
            continue;
        }
        let broken = match script.random.below(5) {
            0 => filtered(script, name),
            1 => merge(script, &[(name, 2, 0)], 10),
            _ => merge(script, &[(name, 1, 0)], 16),
        };
        if broken {
            return true;
        }
    }
    script.random.chance(20) && library(script, name)
}

/// Loads a library that defines the name, if it is needed.
fn library(script: &mut Script, name: &str) -> bool {
    let mut strings = vec![0];
    let row = SymbolRow {
        name: offset(&mut strings, name),
        binding: script.random.between(1, 2),
        kind: script.random.below(16),
        visibility: script.random.hidden(),
        section: 1,
        ..SymbolRow::default()
    };
    let rows = LibraryRows {
        as_needed: true,
        soname: None,
        file: Some("liba.so".into()),
        strings,
        symbols: vec![row],
        needs: Vec::new(),
    };
    refused(script.load(&rows))
}

/// One to three direct references to a name, the first weak.
pub(super) fn directly(script: &mut Script, names: &[&str]) {
    let name = script.random.pick(names);
    weak(script, name);
    for _ in 0..script.random.between(0, 2) {
        direct(script, name);
    }
}

fn weak(script: &mut Script, name: &str) {
    elf(script, name, 2, 0);
}

/// A direct reference, mostly strong.
pub(super) fn direct(script: &mut Script, name: &str) {
    match script.random.below(8) {
        0 => drop(script.say(format!("add unknown {}", form::name(name)))),
        1 => {
            // Strong, though it may be zero by default.
            let zero = script.random.below(2);
            script.say(format!("add hidden {} undef {zero}", form::name(name)));
        }
        2 => elf(script, name, 2, 10),
        _ => elf(script, name, 1, 30),
    }
}

/// A direct add of a row; of so many in a hundred the type is none that a row may have.
fn elf(script: &mut Script, name: &str, binding: u64, percent: u64) {
    let random = &mut script.random;
    let kind = kind(random, percent);
    let visibility = random.hidden();
    let file = form::optional_name(random.pick(&[None, Some("w.c"), Some("s.c"), Some("")]));
    let name = form::name(name);
    script.say(format!("add elf {name} {binding} {kind} {visibility} 0 0 {file}"));
}

/// A type that passes, or in so many of a hundred cases 4 and above.
pub(super) fn kind(random: &mut Random, percent: u64) -> u64 {
    match random.chance(percent) {
        true => random.pick(&[4, 4, 4, 5, 10, 15]),
        false => random.below(4),
    }
}

/// Merges an object of these symbols; the last one's type is as in `kind`.
fn merge(script: &mut Script, symbols: &[(&str, u64, u64)], percent: u64) -> bool {
    let rows = object(&mut script.random, symbols, percent);
    refused(script.merge(&rows))
}

fn object(random: &mut Random, symbols: &[(&str, u64, u64)], percent: u64) -> ObjectRows {
    let mut rows = one_section(random, symbols);
    if let Some(symbol) = rows.symbols.last_mut() {
        symbol.kind = kind(random, percent);
    }
    rows
}

/// The name is defined in a section of a group whose signature was met before: it is undefined.
fn filtered(script: &mut Script, name: &str) -> bool {
    let first = grouped(object(&mut script.random, &[("g1", 2, 0)], 0));
    if refused(script.merge(&first)) {
        return true;
    }
    let again = grouped(object(&mut script.random, &[("g1", 2, 0), (name, 1, 1)], 16));
    refused(script.merge(&again))
}

/// Its program section in a group that its first symbol signs.
fn grouped(mut rows: ObjectRows) -> ObjectRows {
    let (link, info, items) = (2, 1, vec![1]);
    let group = SectionRow { kind: 7, link, info, comdat: true, items, ..SectionRow::default() };
    rows.sections.push(group);
    rows
}
