//! Where the Rust does otherwise than document 01, each shown by running its smallest input.
use crate::inputs::TemporaryFile;
use crate::interner::access::is_issued;
use crate::machine::Machine;
use crate::passes::load_inputs::new_is_empty;
use crate::refusal;

/// Runs lines and returns the last answer.
fn answer(machine: &mut Machine, lines: &str) -> String {
    let mut last = String::new();
    for line in lines.lines() {
        if let Some(answer) = machine.line(line).expect("a good line").pop() {
            last = answer;
        }
    }
    last
}

fn fresh(lines: &str) -> (Machine, String) {
    let mut machine = Machine::new();
    let last = answer(&mut machine, lines);
    (machine, last)
}

const OBJECT: &str = "\
object 5 1 2
section 0 0 0 0 0 0 0 0 - 0
section 1 1 0 0 1 0 0 0 - 0
section 4 0 0 0 0 0 0 0 006e616d653100 0
section 3 0 0 0 0 2 0 0 - 2 0 1
section 6 0 0 0 0 3 1 0 - 1 55
symbol 0 0 0 0 0 0
";

/// Section 0 is dropped; 1 stays reserved (a repeated group's); 2 is built, retained, and names x,
/// which lies in 0. The symbol y lies in 1.
const UNBUILT: &str = "\
object 3 0 2
section 0 0 0 0 0 0 0 0 - 0
section 1 0 0 0 1 0 0 0 - 0
section 4 0 0 0 0 0 0 0 7a65726f00 0
merge
collect 0 0 00
add hidden x rel 0 + 0
add hidden y rel 1 + 0
object 8 2 3
section 0 0 0 0 0 0 0 0 - 0
section 1 0 0 0 1 0 0 0 - 0
section 1 0 0 1 1 0 0 0 - 0
section 4 0 0 0 0 0 0 0 007800 0
section 3 0 0 0 0 3 0 0 - 2 0 2
section 7 0 0 0 0 4 1 1 - 1 60
section 7 0 0 0 0 4 1 1 - 1 1
section 6 0 0 0 0 4 2 0 - 1 1
symbol 0 0 0 0 0 0
symbol 1 1 0 0 0 0
merge";

pub(crate) fn show() -> String {
    let mut out = String::new();
    let mut tell = |title: &str, here: &str, rust: bool| {
        out += &format!("{} {title}; 01: {here}\n", if rust { "shown    " } else { "NOT SHOWN" });
    };

    let (_, last) = fresh("collect 0 0 00");
    tell(
        "a collection of an empty link issues the name .eh_frame",
        "no name",
        last == "dropped 0" && is_issued(".eh_frame"),
    );

    let (_, last) = fresh(&format!("{OBJECT}merge"));
    tell(
        "19: the section's name (name1) isn't issued",
        "it is and stays",
        last == "refused 19 1" && !is_issued("name1"),
    );

    let (_, last) =
        fresh("library 1 1 name2 1 x 1 0\nstrings 6e616d653300\nsymbol 0 1 0 0 1 0\nload");
    tell(
        "a library that isn't needed issues its name and those it defines (name2, name3)",
        "changes nothing",
        last == "notneeded" && is_issued("name2") && is_issued("name3"),
    );

    fresh("global name4");
    tell("a lookup issues the name it asks for (name4)", "no name", is_issued("name4"));

    fresh("archive 1 1\nentry 8 name5\nstart\nnext");
    tell("a pass issues the index' names (name5)", "no name", is_issued("name5"));

    fresh(
        "require 1 a\nobject 3 1 0\nsection 0 0 0 0 0 0 0 0 - 0\n\
         section 3 0 0 0 0 2 0 0 - 2 0 1\nsection 4 0 0 0 0 0 0 0 6e616d653600 0\n\
         symbol 0 1 0 0 0 0\nadmit",
    );
    tell("an admission issues the member's names (name6)", "no name", is_issued("name6"));

    let (machine, _) = fresh("archive 1 1\nentry 8 a");
    let file = cuddld_ar::shelve(machine.rows.archive.archive().expect("an archive"));
    let file = TemporaryFile::new(&file).expect("a file");
    tell(
        "`PendingArchive::new` makes the first pass: a name that is referred to after it is too late",
        "a pass only at a call for the next member",
        new_is_empty(&file.path, &machine.link.object.symbols),
    );

    let (mut machine, last) = fresh("archive 1 1\nentry 8 a\nstart\nnext\nadd unknown a\nnext");
    let again = machine.walk.as_mut().expect("a walk");
    tell(
        "`PendingArchive::next` called after done makes another pass (`ObjectsReader` never does)",
        "after done it stays done",
        last == "done 1" && again.offers_though_done(&machine.link.object.symbols),
    );

    let (_, last) = fresh(
        "object 4 2 3\nsection 0 0 0 0 0 0 0 0 - 0\nsection 3 0 0 0 0 3 0 0 - 2 0 1\n\
         section 3 0 0 0 0 3 0 0 - 2 1 1\nsection 4 0 0 0 0 0 0 0 61006200 0\n\
         symbol 0 1 0 0 0 0\nsymbol 2 1 0 0 0 0\nmerge\nglobal b",
    );
    tell("a second symbol table is merged too", "24", last.starts_with("symbol 2 b"));

    let (mut machine, merged) = fresh(UNBUILT);
    let last = answer(&mut machine, "collect 0 0 000001");
    tell(
        "a collection's panic is about the first unbuilt section met (1, reserved), not the lowest (0, dropped)",
        "the lowest",
        merged == "merged"
            && last == "refused 21 ?"
            && refusal::last_message() == "section is a placeholder",
    );

    let (_, last) = fresh("library 1 1 x 1 x 1 0\nstrings 00\nsymbol 1 1 0 0 1 0\nload");
    tell(
        "a library with a missing symbol name is refused before its need is judged (by the stand-in)",
        "not needed",
        last == "refused 9 ?",
    );
    out
}
