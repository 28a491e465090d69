//! Collections after merges, direct adds and removes.
use super::merges::{self, refused};
use super::objects::{Plan, object, offset};
use super::random::Random;
use super::script::Script;
use crate::form;
use crate::rows::{ObjectRows, SectionRow, SymbolRow};

pub(crate) fn links(script: &mut Script, count: u64) {
    script.say(merges::CONVERSION);
    for _ in 0..count {
        script.link();
        let objects = script.random.between(1, 2);
        for place in 0..objects {
            let plan = Plan {
                programs: (1, 5),
                uninitialized: (0, 2),
                others: (0, 0),
                relocations: (1, 5),
                groups: (0, 1),
                symbols: (2, 9),
                ..merges::plan(place)
            };
            let rows = if script.random.chance(45) {
                graph(&mut script.random, place)
            } else {
                object(&mut script.random, &plan)
            };
            // A broken link takes no collection.
            if refused(script.merge(&rows)) {
                merges::end(script);
                break;
            }
            if place + 1 == objects {
                collections(script);
            }
        }
    }
}

/// Program sections that name one another, mostly the next one: long ways, branches, rings. Few of
/// them are roots by themselves.
pub(super) fn graph(random: &mut Random, place: u64) -> ObjectRows {
    let count = random.between(2, 7);
    let row = |kind| SectionRow { kind, ..SectionRow::default() };
    let (strings, table) = (count + 1, count + 2);
    let mut bytes = vec![0];
    let mut sections = vec![row(0)];
    let mut symbols = vec![SymbolRow::default()];
    for number in 1..=count {
        let name = offset(&mut bytes, &format!(".{number}"));
        let kind = if random.chance(10) { 2 } else { 1 };
        let (retain, read) = (random.chance(8), !random.chance(8));
        sections.push(SectionRow { name, retain, read, ..row(kind) });
        let local = random.chance(40);
        let name = if local { String::new() } else { format!("s{place}{number}") };
        symbols.push(SymbolRow {
            name: offset(&mut bytes, &name),
            binding: !local as u64,
            section: number,
            ..SymbolRow::default()
        });
    }
    sections.push(SectionRow { bytes, ..row(4) });
    sections.push(SectionRow { link: strings, items: vec![0, count + 1], ..row(3) });
    for number in 1..=count {
        let mut items = Vec::new();
        if random.chance(70) {
            items.push(number % count + 1);
        }
        if random.chance(25) {
            items.push(random.between(0, count));
        }
        let kind = random.pick(&[5, 6]);
        sections.push(SectionRow { link: table, info: number, items, ..row(kind) });
    }
    ObjectRows { sections, symbols, names: strings }
}

fn collections(script: &mut Script) {
    if script.random.chance(60) {
        direct(script);
    }
    for _ in 0..script.random.between(1, 2) {
        collect(script);
        if script.random.chance(30) {
            direct(script);
        }
    }
    script.say("dump");
}

/// Symbols in sections that are there or not, and removals.
fn direct(script: &mut Script) {
    let sections = script.section_count();
    let section = script.random.below(sections + 2);
    let name = script.random.pick(&["a", "b", "mute"]);
    match script.random.below(6) {
        0 | 1 => script.say(format!("add section {section}")),
        2 => script.say(format!("add hidden {name} addr {section} 64")),
        3 => script.say(format!("add hidden {name} rel {section} + 4")),
        _ => {
            let id = script.random.below(script.symbol_count());
            script.say(format!("remove {id}"))
        }
    };
}

pub(super) fn collect(script: &mut Script) {
    let count = script.symbol_count();
    let random = &mut script.random;
    let likely = random.pick(&[0, 10, 10, 30, 100]);
    let mut marks = Vec::new();
    // At times more marks than rows: the excess leads nowhere.
    for _ in 0..count + random.pick(&[0, 0, 0, 1, 3]) {
        marks.push(if random.chance(likely) { random.pick(&[1, 1, 2, 255]) } else { 0 });
    }
    // The symbol added last, at times: it may lie in a section that was never built.
    if random.chance(25) {
        marks[count as usize - 1] = 1;
    }
    let near = random.below(count);
    let absent = random.pick(&[count, (1 << 32) - 1]);
    let entry = random.pick(&[None, None, Some(near), Some(near), Some(near), Some(absent)]);
    let (there, symbol) = (entry.is_some() as u8, entry.unwrap_or(0));
    script.say(format!("collect {there} {symbol} {}", form::hex(&marks)));
}
