//! Direct adds, removes and lookups.
use super::commons;
use super::references;
use super::script::Script;
use crate::form;

const CONVERSION: &str = "conversion none 1 2 unloaded none 7";

/// Adds under one name, by every rule of `Symbols::add`. Sections: 1, 2 have ids, 3 isn't loaded, 4
/// has nothing, 5 has id 7, 6 is past the conversion.
const LETTERS: [&str; 36] = [
    "add elf a 1 0 0 0 0 0 -",
    "add elf a 2 0 0 0 0 0 -",
    "add elf a 1 2 0 1 16 0 -",
    "add elf a 2 2 0 1 16 0 -",
    "add elf a 1 2 2 2 0 1 f",
    "add elf a 1 0 0 3 0 0 -",
    "add elf a 1 4 0 1 0 0 -",
    "add external a 2 0",
    "remove 1",
    "add elf a 2 1 0 65521 9 1 f",
    "add elf a 2 0 0 3 5 0 -",
    "add elf a 2 4 0 1 0 0 -",
    "add elf a 1 0 2 0 0 0 -",
    "add elf a 1 1 0 65521 9 0 -",
    "add elf a 2 0 2 65521 3 0 -",
    "add external a 1 0",
    "add external a 1 2",
    "add external a 3 0",
    "add unknown a",
    "add hidden a undef 0",
    "add hidden a undef 1",
    "add hidden a abs 5",
    "add hidden a null",
    "add elf a 1 5 0 1 0 0 -",
    "add elf a 2 15 0 1 0 0 -",
    "add elf a 1 4 0 0 0 0 -",
    "add elf a 2 5 0 0 0 0 -",
    "add elf a 0 0 0 65522 0 0 -",
    "add elf a 0 1 0 65522 8 0 -",
    "add elf a 1 4 0 4 0 0 -",
    "add elf a 2 0 0 6 0 0 -",
    "add elf a 1 0 1 1 0 0 -",
    "add elf a 0 0 0 1 4 0 -",
    "add elf a 0 4 2 4 0 0 -",
    "add elf a 3 0 3 0 0 0 -",
    "add elf a 15 0 2 4 0 0 -",
];

/// The letters that matter most for who yields to whom, for longer words.
const FEW: usize = 9;

/// Rows without a name, which are section symbols or not.
const SECTIONS: [&str; 9] = [
    "add section 1",
    "add elf - 0 3 0 1 0 0 -",
    "add elf - 1 3 0 1 0 0 -",
    "add elf - 2 0 0 1 0 0 -",
    "add elf - 0 3 0 1 1 0 -",
    "add hidden b sec 1",
    "remove 1",
    "remove 2",
    "remove 3",
];

/// References to a name, weak and strong, with what may hold it instead. For the gABI profile.
const REFERENCES: [&str; 14] = [
    "add elf a 2 1 0 0 0 1 w",
    "add elf a 2 0 2 0 0 0 -",
    "add elf a 1 2 0 0 5 1 s",
    "add elf a 1 3 2 0 0 0 -",
    "add elf a 1 4 0 0 0 0 -",
    "add elf a 1 4 2 0 0 0 -",
    "add elf a 1 10 0 0 0 0 -",
    "add unknown a",
    "add hidden a undef 0",
    "add hidden a undef 1",
    "add elf a 2 0 0 65521 3 0 -",
    "add elf a 1 0 0 65521 4 0 -",
    "add external a 2 0",
    "remove 1",
];

/// Whether the name ties a member, and whether it makes a library needed.
const WANTED: [&str; 10] = [
    "global a",
    "archive 1 1",
    "entry 8 a",
    "index 00000001000000086100",
    "start",
    "next",
    "library 1 0 - 1 l 1 0",
    "strings 006100",
    "symbol 1 1 0 0 1 0",
    "load",
];

/// Every short word over small alphabets; the seed and the count play no part.
pub(crate) fn short(script: &mut Script, _: u64) {
    script.say(CONVERSION);
    for word in words(LETTERS.len(), 2).into_iter().chain(words(FEW, 3)) {
        script.link();
        for letter in word {
            script.say(LETTERS[letter]);
        }
        script.say("global a");
    }
    for word in words(SECTIONS.len(), 3) {
        script.link();
        for letter in word {
            script.say(SECTIONS[letter]);
        }
        script.say("sectionsymbol 1");
        script.say("global -");
    }
    if script.random.gabi {
        short_references(script);
    }
    if script.random.commons {
        commons::short(script, &words(commons::LETTERS.len(), 3), &WANTED);
    }
}

fn short_references(script: &mut Script) {
    for word in words(REFERENCES.len(), 3) {
        script.link();
        let word = word.iter().map(|letter| REFERENCES[*letter]);
        for line in word.chain(WANTED) {
            script.say(line);
        }
        script.say("global a");
    }
}

/// All words of a length over so many letters.
fn words(letters: usize, length: usize) -> Vec<Vec<usize>> {
    let mut out = vec![Vec::new()];
    for _ in 0..length {
        out = out
            .into_iter()
            .flat_map(|word: Vec<usize>| {
                (0..letters).map(move |letter| [&word[..], &[letter]].concat())
            })
            .collect();
    }
    out
}

const NAMES: [&str; 8] = ["a", "b", "c", "d", "mute", "clear", "", "a.long.name_with$signs"];

pub(crate) fn random(script: &mut Script, count: u64) {
    for _ in 0..count {
        conversion(script);
        script.link();
        let length = script.random.between(4, 30);
        for _ in 0..length {
            if script.random.gabi && script.random.chance(8) {
                references::directly(script, &NAMES);
            }
            match script.random.below(100) {
                0..70 => {
                    let line = add(script);
                    script.say(line);
                }
                70..80 => {
                    let id = some_id(script);
                    script.say(format!("remove {id}"));
                }
                80..86 => {
                    let id = some_id(script);
                    script.say(format!("get {id}"));
                }
                86..93 => {
                    let name = form::name(script.random.pick(&NAMES));
                    script.say(format!("global {name}"));
                }
                _ => {
                    let section = script.random.below(8);
                    script.say(format!("sectionsymbol {section}"));
                }
            }
        }
        script.say("dump");
    }
}

fn conversion(script: &mut Script) {
    let length = script.random.pick(&[0, 5, 9, 10, 10, 11, 12]);
    let mut line = String::from("conversion");
    for _ in 0..length {
        let id = script.random.below(6).to_string();
        let word = match script.random.below(8) {
            0 => "none".into(),
            1 => "unloaded".into(),
            _ => id,
        };
        line += " ";
        line += &word;
    }
    script.say(line);
}

fn some_id(script: &mut Script) -> u64 {
    let count = script.symbol_count();
    let far = script.random.below(1 << 32);
    let near = script.random.below(count);
    script.random.pick(&[near, near, near, near, near, count, count + 1, far])
}

/// A direct add of any variant.
pub(crate) fn add(script: &mut Script) -> String {
    let random = &mut script.random;
    let name = random.pick(&NAMES);
    if random.commons && random.chance(20) {
        return commons::direct(random, name);
    }
    let name = form::name(name);
    match random.below(20) {
        0 => "add null".into(),
        1 | 2 => format!("add section {}", random.below(7)),
        3 => format!("add unknown {name}"),
        4 | 5 => {
            let (section, number) = (random.below(7), random.value());
            let size = number & ((1 << 63) - 1);
            let value = random.pick(&[
                "null".into(),
                format!("abs {number}"),
                format!("sec {section}"),
                format!("rel {section} + {size}"),
                format!("rel {section} - {}", size + 1),
                format!("addr {section} {number}"),
                "notloaded".into(),
                "external".into(),
                "undef 0".into(),
                "undef 1".into(),
            ]);
            format!("add hidden {name} {value}")
        }
        6 | 7 => {
            format!("add external {name} {} {}", binding(script), visibility(script))
        }
        _ => {
            let kind = match script.random.below(10) {
                0 => 4,
                1 => script.random.between(5, 15),
                _ => script.random.below(4),
            };
            let (mut binding, mut visibility) = (binding(script), visibility(script));
            let random = &mut script.random;
            let section = match random.below(20) {
                0 => 0xfff2,
                1 | 2 => 0xfff1,
                3..8 => 0,
                8 => random.between(10, 0xfeff),
                _ => random.between(1, 9),
            };
            let value = random.value();
            let file = random.pick(&[None, None, Some("file.c"), Some("")]);
            let file = form::optional_name(file);
            let mut size = String::new();
            if random.commons {
                size = form::size(commons::size(random));
            } else if section == 0xfff2 && (binding == 1 || binding == 2) {
                // Where the Rust is asked a common is local, and gets 13.
                (binding, visibility) = (0, if visibility == 2 { 0 } else { visibility });
            }
            format!("add elf {name} {binding} {kind} {visibility} {section} {value} {file}{size}")
        }
    }
}

fn binding(script: &mut Script) -> u64 {
    match script.random.below(24) {
        0 => script.random.between(3, 15),
        1..6 => 0,
        6..15 => 1,
        _ => 2,
    }
}

fn visibility(script: &mut Script) -> u64 {
    script.random.visibility(&[0, 0, 0, 0, 0, 0, 0, 0, 0, 2, 2, 1, 3])
}
