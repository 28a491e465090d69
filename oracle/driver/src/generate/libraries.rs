//! Links with shared objects.
use super::merges::{self, refused};
use super::objects::{object, offset};
use super::random::Random;
use super::references;
use super::script::Script;
use crate::form;
use crate::rows::{ABSOLUTE, COMMON, LibraryRows, SymbolRow};

const NAMES: [&str; 10] = ["a", "b", "c", "d", "e", "f", "mute", "a0", "b0", ""];
const LIBRARIES: [&str; 6] = ["liba.so", "libb.so", "libc.so", "libd.so", "x", ""];

pub(crate) fn links(script: &mut Script, count: u64) {
    script.say(merges::CONVERSION);
    for _ in 0..count {
        script.link();
        // Undefined names, strong and weak, that libraries may be needed for.
        for name in ["a", "b", "c", "d", "mute"] {
            let binding = script.random.below(4);
            if binding == 1 || binding == 2 {
                let visibility = script.random.hidden();
                script.say(format!("add elf {name} {binding} 0 {visibility} 0 0 0 -"));
            }
        }
        if script.random.chance(25) {
            let rows = object(&mut script.random, &merges::plan(0));
            if refused(script.merge(&rows)) {
                merges::end(script);
                continue;
            }
        }
        if script.random.chance(20) && script.symbol_count() > 1 {
            // A name that a library may meet though its row is gone.
            let last = script.symbol_count() - 1;
            let id = script.random.between(1, last);
            script.say(format!("remove {id}"));
        }
        for _ in 0..script.random.between(1, 6) {
            let mut rows = library(&mut script.random);
            if script.random.gabi && script.random.chance(25) {
                // Names that it may be needed for.
                if references::weak_then_strong(script, &NAMES) {
                    break;
                }
            }
            if script.random.chance(25) {
                damage(&mut script.random, &mut rows);
            }
            let answer = script.load(&rows);
            // 25 breaks nothing; another refusal ends the link.
            if refused(answer.clone()) && answer != "refused 25 0" {
                break;
            }
            if script.random.chance(8) {
                // The same library again: its strong definitions are known by now.
                let answer = script.say("load");
                if refused(answer.clone()) && answer != "refused 25 0" {
                    break;
                }
            }
            if script.random.gabi && script.random.chance(40) {
                // A row that the library holds may be hidden by a reference.
                let name = form::name(script.random.pick(&NAMES));
                let (binding, visibility) = (script.random.between(1, 2), script.random.hidden());
                script.say(format!("add elf {name} {binding} 0 {visibility} 0 0 0 -"));
            }
            if script.random.chance(40) {
                merges::direct_calls(script);
            }
        }
        merges::end(script);
    }
}

/// A library whose symbols pass: few strong definitions, so that duplicates are rare.
pub(crate) fn library(random: &mut Random) -> LibraryRows {
    let mut strings = vec![0];
    let mut symbols = Vec::new();
    if random.chance(80) {
        symbols.push(SymbolRow::default());
    }
    for _ in 0..random.below(6) {
        let name = offset(&mut strings, random.pick(&NAMES));
        let section = random.pick(&[0, 0, 1, 1, 5, ABSOLUTE, COMMON]);
        let binding = match section {
            0 => random.pick(&[1, 1, 1, 2, 0]),
            _ => random.pick(&[1, 2, 2, 2, 0]),
        };
        let visibility = match (section, binding) {
            // Of an undefined symbol it isn't judged.
            (0, _) => random.pick(&[0, 0, 1, 2, 3]),
            (_, 0) => 0,
            _ => random.visibility(&[0, 0, 0, 2]),
        };
        let kind = random.below(16);
        let value = random.value();
        symbols.push(SymbolRow { name, binding, kind, visibility, section, value, size: 0 });
    }
    let name = random.pick(&LIBRARIES).to_string();
    let needs = (0..random.below(3)).map(|_| random.pick(&LIBRARIES).to_string()).collect();
    let archived = random.chance(10);
    LibraryRows {
        as_needed: random.chance(65),
        soname: random.chance(70).then(|| random.pick(&LIBRARIES).to_string()),
        file: (!archived).then_some(name),
        strings,
        symbols,
        needs,
    }
}

/// A symbol that add refuses, or an undefined one that nobody looks at.
pub(super) fn damage(random: &mut Random, rows: &mut LibraryRows) {
    if rows.symbols.is_empty() {
        return;
    }
    let at = random.below(rows.symbols.len() as u64) as usize;
    let row = &mut rows.symbols[at];
    if random.chance(75) {
        row.section = 1;
    }
    match random.below(4) {
        0 => row.visibility = random.pick(&[1, 3]),
        1 => (row.binding, row.visibility) = (0, 2),
        2 => row.binding = random.between(3, 15),
        _ => row.binding = 1,
    }
}
