//! The oracle and this port, run on the same links in one process. The oracle is the Rust of cuddld
//! for links of the old profile, and a plain reading of the documents for those of the gABI profile.
pub mod minimise;
pub mod ours;
pub mod plain;
pub mod rows;

use ours::Ours;
use std::collections::BTreeSet;

/// Whether an answer of ours is the Rust's. A place of `?` isn't compared (oracle/README.md).
pub use oracle::same_answer;

pub fn same_answers(rust: &[String], ours: &[String]) -> bool {
    rust.len() == ours.len() && rust.iter().zip(ours).all(|(rust, ours)| same_answer(rust, ours))
}

/// What oracle/README.md leaves out of the comparison, by rule; and whether the link is broken,
/// which the Rust doesn't know. A changing call on a broken link is compared with the oracle's 22,
/// for which the Rust isn't asked.
#[derive(Default)]
pub struct Domain {
    broken: bool,
    left: bool,
    /// A string table of length 0 has an empty name by the gABI (document 02, 2026-04), and none in
    /// the oracle. The object announced last has one; one of the archive's members; the library
    /// announced last, and symbols.
    empty_object: bool,
    empty_member: bool,
    empty_library: bool,
    /// The library whose rows follow has one.
    bare: bool,
    /// The Rust has no commons of binding 1 or 2, and no sizes (document 02, 2026-06): it is asked
    /// for links that have none, the plain reading for all others. The object announced last has one;
    /// one of the archive's members.
    asked: bool,
    in_library: bool,
    common_object: bool,
    common_member: bool,
    /// Nor groups of several sections; and it takes a section that two groups list. The object
    /// announced last has either; one of the archive's members. Of that object how many sections it
    /// has, and which of them its groups list.
    grouped_object: bool,
    grouped_member: bool,
    sections: u64,
    listed: BTreeSet<u64>,
}

impl Domain {
    /// Whether the answers to this line are compared. After one that isn't, no later line of the link
    /// is: the two links may differ from there on.
    pub fn compares(&mut self, line: &str, rust: &[String]) -> bool {
        let keyword = line.split(' ').next().unwrap_or_default();
        match keyword {
            // What was announced outlives the link.
            "link" => {
                let before = std::mem::take(self);
                *self = Domain {
                    broken: false,
                    left: false,
                    empty_member: false,
                    common_member: false,
                    grouped_member: false,
                    bare: false,
                    asked: line == "link",
                    ..before
                };
            }
            "object" => {
                (self.empty_object, self.common_object, self.bare) = (false, false, false);
                (self.in_library, self.grouped_object) = (false, false);
                self.sections = line.split(' ').nth(1).and_then(|n| n.parse().ok()).unwrap_or(0);
                self.listed.clear();
            }
            "add" if self.asked && is_common(line) => self.left = true,
            "section" => {
                self.empty_object |= is_empty_table(line);
                self.group(line);
            }
            "library" => {
                (self.empty_library, self.bare, self.in_library) = (false, false, true);
            }
            "strings" => self.bare = line == "strings -",
            "symbol" => {
                self.empty_library |= self.bare;
                self.common_object |= !self.in_library && is_common(line);
            }
            "archive" => {
                (self.empty_member, self.common_member) = (false, false);
                self.grouped_member = false;
            }
            "member" => {
                self.empty_member |= self.empty_object;
                self.common_member |= self.common_object;
                self.grouped_member |= self.grouped_object;
            }
            "merge" if self.asked && (self.common_object || self.grouped_object) => {
                self.left = true;
            }
            "walk" if self.asked && (self.common_member || self.grouped_member) => {
                self.left = true;
            }
            "merge" | "admit" if self.empty_object => self.left = true,
            "walk" if self.empty_member => self.left = true,
            "load" if self.empty_library => self.left = true,
            // Its merges would meet 22 on one side alone.
            "walk" if self.broken => self.left = true,
            // The Rust reads all names of a library before it judges anything.
            "load" if rust.iter().any(|answer| answer == "refused 9 ?") => self.left = true,
            _ => {}
        }
        self.broken |= oracle::breaks(line, rust);
        !self.left
    }

    /// A section row: of a COMDAT group that is loaded what it lists.
    fn group(&mut self, line: &str) {
        let words: Vec<&str> = line.split(' ').collect();
        let ["section", "7", _, "0", _, _, _, _, "1", _, count, ref items @ ..] = words[..] else {
            return;
        };
        self.grouped_object |= !matches!(count, "0" | "1");
        for item in items.iter().filter_map(|item| item.parse().ok()) {
            self.grouped_object |= item < self.sections && !self.listed.insert(item);
        }
    }
}

/// A section row of kind 4 without bytes.
fn is_empty_table(line: &str) -> bool {
    let words: Vec<&str> = line.split(' ').collect();
    words.get(1) == Some(&"4") && words.get(9) == Some(&"-")
}

/// A symbol of an object or of a direct add that is common and not local, or has a size.
fn is_common(line: &str) -> bool {
    let words: Vec<&str> = line.split(' ').collect();
    // Binding, type, visibility, section, value; of an add its file's name too, in two words.
    let (fields, count) = match words[..] {
        ["symbol", _, ref fields @ ..] => (fields, 5),
        ["add", "elf", _, ref fields @ ..] => (fields, 7),
        ["add", "hidden", _, kind, ..] => return kind == "com",
        _ => return false,
    };
    let common = fields.get(3) == Some(&"65522");
    common && matches!(fields[0], "1" | "2") || fields.len() > count
}

/// This port beside the Rust's answers, line by line.
#[derive(Default)]
pub struct Sides {
    ours: Ours,
    domain: Domain,
}

pub enum Outcome {
    Same,
    LeftOut,
    /// Answers of the Rust and of ours.
    Differs(Vec<String>, Vec<String>),
}

impl Sides {
    pub fn line(&mut self, line: &str, rust: &[String]) -> Outcome {
        if !self.domain.compares(line, rust) {
            // It outlives the link.
            if line.starts_with("conversion") {
                self.ours.line(line);
            }
            return Outcome::LeftOut;
        }
        let (mut rust, mut ours) = (rust.to_vec(), self.ours.line(line));
        let broken = (self.domain.broken, self.ours.is_broken());
        if same_answers(&rust, &ours) && broken.0 == broken.1 {
            return Outcome::Same;
        }
        if broken.0 != broken.1 {
            rust.push(format!("broken, by document 01: {}", broken.0));
            ours.push(format!("broken, as it says: {}", broken.1));
        }
        Outcome::Differs(rust, ours)
    }
}

#[cfg(test)]
mod tests {
    use super::*;

    fn run(lines: &[&str]) -> Vec<Outcome> {
        oracle::silence_panics();
        let (mut reference, mut sides) = (oracle::Reference::new(), Sides::default());
        lines.iter().map(|line| sides.line(line, &reference.line(line).unwrap())).collect()
    }

    #[test]
    fn a_conversion_outlives_what_is_left_out() {
        let missing =
            ["link", "library 0 0 - 1 l.so 1 0", "strings -", "symbol 9 1 0 0 1 0", "load"];
        let later = ["conversion none 3", "link", "add elf a 1 0 0 1 4 0 -", "dump"];
        let outcomes = run(&[&missing[..], &later[..]].concat());
        assert!(matches!(outcomes[4], Outcome::LeftOut));
        assert!(outcomes[6..].iter().all(|outcome| matches!(outcome, Outcome::Same)));
    }

    #[test]
    fn an_empty_string_table_is_left_out() {
        let table = "section 3 0 0 0 0 1 0 0 - 2 0 1";
        let object =
            |strings| ["link", "object 2 1 1", table, strings, "symbol 0 0 0 0 0 0", "merge"];
        let outcomes = run(&object("section 4 0 0 0 0 0 0 0 - 0"));
        assert!(matches!(outcomes[5], Outcome::LeftOut));
        let outcomes = run(&object("section 4 0 0 0 0 0 0 0 00 0"));
        assert!(outcomes.iter().all(|outcome| matches!(outcome, Outcome::Same)));
        let outcomes = run(&["link", "library 0 0 - 1 l.so 0 0", "strings -", "load", "dump"]);
        assert!(outcomes.iter().all(|outcome| matches!(outcome, Outcome::Same)));
    }

    /// The oracle answers 13 to every common, this port to a local one alone.
    #[test]
    fn commons_and_sizes_are_left_out_where_the_rust_is_asked() {
        let adds = [
            "add elf a 1 1 0 65522 8 0 -",
            "add elf a 2 1 0 65522 8 0 -",
            "add elf a 1 1 0 65521 8 0 - 4",
            "add elf a 0 1 0 65522 8 0 -",
        ];
        let left = |outcome: &Outcome| matches!(outcome, Outcome::LeftOut);
        let same = |outcome: &Outcome| matches!(outcome, Outcome::Same);
        for (add, out) in adds.iter().zip([true, true, true, false]) {
            assert_eq!(run(&["link", add])[1..].iter().all(left), out);
            assert!(run(&["link commons", add, "dump", "link gabi", add, "dump"]).iter().all(same));
        }
        let table = "section 3 0 0 0 0 1 0 0 - 2 0 1";
        let strings = "section 4 0 0 0 0 0 0 0 006100 0";
        let object =
            |link, symbol| [link, "object 2 1 1", table, strings, symbol, "merge", "global a"];
        for symbol in ["symbol 1 1 0 0 65522 8", "symbol 1 1 0 0 0 0 8"] {
            assert!(run(&object("link", symbol))[5..].iter().all(left));
            assert!(run(&object("link commons", symbol)).iter().all(same));
        }
        // A library's common is external, and its size isn't kept.
        let library =
            ["link", "library 0 0 - 1 l 1 0", "strings 006100", "symbol 1 1 0 0 65522 8 8"];
        assert!(run(&[&library[..], &["load", "dump"]].concat()).iter().all(same));
    }

    /// The Rust refuses groups of several sections with 5, and takes a section that two list.
    #[test]
    fn groups_of_several_sections_are_left_out_where_the_rust_is_asked() {
        let table = "section 3 0 0 0 0 2 0 0 - 2 0 2";
        let strings = "section 4 0 0 0 0 0 0 0 006700 0";
        let text = "section 1 0 0 0 1 0 0 0 - 0";
        let group = |items: &str| format!("section 7 0 0 0 0 1 1 1 - {items}");
        let object = |link, groups: [&str; 2]| {
            let [one, two] = groups.map(group);
            let rows = ["section 0 0 0 0 0 0 0 0 - 0", table, strings, text, &one, &two];
            let symbols = ["symbol 0 0 0 0 0 0", "symbol 1 2 0 0 3 0", "merge", "dump"];
            let lines = [&[link, "object 6 2 2"], &rows[..], &symbols].concat();
            run(&lines)
        };
        let left = |outcome: &Outcome| matches!(outcome, Outcome::LeftOut);
        let same = |outcome: &Outcome| matches!(outcome, Outcome::Same);
        for groups in [["1 3", "2 3 60"], ["1 3", "1 3"], ["2 0 0", "1 3"], ["2 60 60", "1 3"]] {
            assert!(object("link", groups)[10..].iter().all(left), "{groups:?}");
            assert!(object("link commons", groups).iter().all(same), "{groups:?}");
            assert!(object("link gabi", groups).iter().all(same), "{groups:?}");
        }
        for groups in [["1 60", "1 3"], ["1 60", "1 60"], ["0", "1 3"]] {
            assert!(object("link", groups).iter().all(same), "{groups:?}");
        }
    }

    #[test]
    fn an_admission_after_done_is_answered() {
        let walk = ["link", "add unknown a", "archive 1 1", "entry 8 a", "start", "next", "next"];
        let outcomes = run(&[&walk[..], &["object 0 0 0", "admit", "dump"]].concat());
        assert!(outcomes.iter().all(|outcome| matches!(outcome, Outcome::Same)));
    }

    #[test]
    fn a_broken_link_answers_22_and_keeps_its_rows() {
        let object = ["link", "object 1 0 0", "section 13 0 0 0 0 0 0 0 - 0", "merge"];
        let calls = ["add unknown a", "remove 0", "merge", "load", "collect 0 0 00", "dump"];
        let outcomes = run(&[&object[..], &calls[..]].concat());
        assert!(outcomes.iter().all(|outcome| matches!(outcome, Outcome::Same)));
    }

    #[test]
    fn links_of_both_profiles_in_turn() {
        let lines =
            ["add elf a 1 0 0 65521 4 0 -", "add elf a 2 0 2 65521 8 0 -", "global a", "dump"];
        let links = ["link", "link gabi", "link gabi", "link"];
        let lines: Vec<_> = links.iter().flat_map(|link| [&[*link], &lines[..]].concat()).collect();
        assert!(run(&lines).iter().all(|outcome| matches!(outcome, Outcome::Same)));
        let mut ours = Ours::new();
        let answers: Vec<_> = lines.iter().map(|line| ours.line(line)).collect();
        let hidden = |at: usize| answers[at] == ["symbol 1 a global 1 0 0 - abs 4"];
        assert_eq!([3, 8, 13, 18].map(hidden), [false, true, true, false]);
    }

    /// The row is strong in the gABI profile alone, and there a type that doesn't pass is refused.
    #[test]
    fn a_strong_reference_after_a_weak_one() {
        let lines = [
            "add elf a 2 1 0 0 0 0 -",
            "add elf a 1 4 0 0 0 0 -",
            "add elf a 1 2 0 0 0 0 -",
            "global a",
        ];
        let links = ["link", "link gabi"];
        let lines: Vec<_> = links.iter().flat_map(|link| [&[*link], &lines[..]].concat()).collect();
        assert!(run(&lines).iter().all(|outcome| matches!(outcome, Outcome::Same)));
        let mut ours = Ours::new();
        let answers: Vec<_> = lines.iter().flat_map(|line| ours.line(line)).collect();
        assert_eq!(answers[..4], ["id 1", "id 1", "id 1", "symbol 1 a weak 0 1 0 - undef 1"]);
        let gabi = ["id 1", "refused 15 0", "id 1", "symbol 1 a global 0 2 0 - undef 0"];
        assert_eq!(answers[4..], gabi);
    }

    #[test]
    fn a_panic_is_an_answer() {
        assert_eq!(Ours::new().line("next"), ["panicked: a walk"]);
    }
}
