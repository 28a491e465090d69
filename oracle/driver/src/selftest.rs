//! Worked examples of document 01, and of our reading of it, with the answers written by hand.
use crate::machine::Machine;
use crate::sheet;

pub(crate) const EXAMPLES: &str = include_str!("../selftest.txt");

/// Document 01, "The add sheet".
const SHEET: &str = "name bind vis type shndx value
mute 2 0 2 1 16
mute 1 0 2 2 0
mute 1 0 2 0 0
clear 2 0 0 0 0
mute 1 0 2 3 0
";

const SHEET_ANSWER: &str = "id name weak kind value
0 - - null 0
1 mute no rel 2:0
2 clear yes undef 1
refused 5 17
";

/// A line for each example, and how many differ; an error if one does.
pub(crate) fn run() -> Result<String, String> {
    let mut out = String::new();
    let (mut examples, mut failed) = (0, 0);
    let mut tell = |title: &str, fault: Option<String>| {
        examples += 1;
        match fault {
            None => out += &format!("ok      {title}\n"),
            Some(fault) => {
                failed += 1;
                out += &format!("DIFFERS {title}: {fault}\n");
            }
        }
    };

    let answer = sheet::answer(SHEET)?;
    tell("the add sheet of 01", (answer != SHEET_ANSWER).then(|| answer.clone()));
    let mut machine = Machine::new();
    for example in EXAMPLES.split("\n\n") {
        let (title, lines) = example.split_once('\n').expect("a title and lines");
        tell(title.trim_start_matches("# "), compare(&mut machine, lines));
    }
    out += &format!("{examples} examples, {failed} differ\n");
    if failed > 0 { Err(format!("the selftest failed\n{out}")) } else { Ok(out) }
}

fn compare(machine: &mut Machine, lines: &str) -> Option<String> {
    let mut answers = Vec::new().into_iter();
    for line in lines.lines() {
        match line.strip_prefix("> ") {
            Some(expected) => match answers.next() {
                Some(found) if found == expected => {}
                found => return Some(format!("{expected:?} expected, not {found:?}")),
            },
            None => {
                if let Some(more) = answers.next() {
                    return Some(format!("{more:?} was not expected"));
                }
                match machine.line(line) {
                    Ok(all) => answers = all.into_iter(),
                    Err(fault) => return Some(format!("{line}: {fault}")),
                }
            }
        }
    }
    answers.next().map(|more| format!("{more:?} was not expected"))
}
