//! Commons of binding 1 and 2, and sizes (document 02, 2026-06). The Rust has neither: links with them
//! are compared with the plain reading, all others have none.
use super::random::Random;
use super::script::Script;
use crate::form;
use crate::rows::{COMMON, SymbolRow};

/// Adds of one name: commons that pass and don't, by every rule, and what they may stand beside.
pub(super) const LETTERS: [&str; 20] = [
    "add elf a 1 1 0 65522 4 0 - 4",
    "add elf a 1 2 2 65522 2 1 f 8",
    "add elf a 2 0 0 65522 8 1 g 1",
    "add elf a 2 9 2 65522 1 0 - 16",
    "add elf a 1 4 0 65522 9223372036854775808 0 - 3",
    "add elf a 1 0 0 65522 0 0 - 3",
    "add elf a 2 0 0 65522 12 0 - 3",
    "add elf a 0 0 0 65522 4 0 - 3",
    "add elf a 3 0 0 65522 0 0 - 3",
    "add elf a 1 0 0 0 0 0 - 5",
    "add elf a 2 0 2 0 0 1 u 5",
    "add elf a 1 9 0 0 0 0 -",
    "add elf a 2 2 0 1 16 0 - 7",
    "add elf a 1 2 0 65521 16 1 d 9",
    "add elf a 1 9 2 1 16 0 - 9",
    "add hidden a com 32",
    "add hidden a com 0",
    "add external a 1 0",
    "add external a 2 2",
    "remove 1",
];

/// Where the Rust is asked a common is local, and gets 13.
pub(super) fn only_local(symbols: &mut [SymbolRow]) {
    for row in symbols.iter_mut().filter(|row| row.is_common()) {
        row.binding = 0;
        if row.visibility == 2 {
            row.visibility = 0;
        }
    }
}

/// Sizes for some symbols.
pub(super) fn sizes(random: &mut Random, symbols: &mut [SymbolRow]) {
    for row in symbols {
        if random.chance(40) {
            row.size = size(random);
        }
    }
}

/// Sizes for an object's symbols, and some of them common.
pub(super) fn rows(random: &mut Random, symbols: &mut [SymbolRow]) {
    sizes(random, symbols);
    for row in symbols {
        if (row.binding == 1 || row.binding == 2) && row.kind != 4 && random.chance(25) {
            row.section = COMMON;
            row.value = alignment(random, 3);
        }
    }
}

/// A direct add of a common.
pub(super) fn direct(random: &mut Random, name: &str) -> String {
    let name = form::name(name);
    let alignment = alignment(random, 15);
    if random.chance(8) {
        return format!("add hidden {name} com {alignment}");
    }
    let binding = random.pick(&[1, 1, 1, 2, 2, 0]);
    let kind = random.pick(&[0, 1, 1, 2, 3, 4, 5, 9]);
    let visibility = random.visibility(&[0, 0, 0, 0, 0, 0, 2, 1, 3]);
    let file = form::optional_name(random.pick(&[None, None, Some("c.c"), Some("")]));
    let size = form::size(size(random));
    format!("add elf {name} {binding} {kind} {visibility} {COMMON} {alignment} {file}{size}")
}

pub(super) fn size(random: &mut Random) -> u64 {
    let any = random.next();
    random.pick(&[0, 1, 4, 4, 8, 16, 64, 4096, 1 << 63, u64::MAX, any])
}

/// A power of two, or in so many of a hundred cases another number.
fn alignment(random: &mut Random, percent: u64) -> u64 {
    let any = random.next();
    match random.chance(percent) {
        true => random.pick(&[0, 0, 3, 6, 12, (1 << 63) + 1, u64::MAX, any | 3]),
        false => 1 << random.pick(&[0, 1, 2, 2, 3, 3, 3, 4, 5, 12, 32, 63]),
    }
}

/// Every word of three of these adds, and whether the name ties a member and makes a library needed.
pub(super) fn short(script: &mut Script, words: &[Vec<usize>], wanted: &[&str]) {
    for word in words {
        script.link();
        for letter in word {
            script.say(LETTERS[*letter]);
        }
        script.say("global a");
        for line in wanted {
            script.say(line);
        }
        script.say("global a");
    }
}
