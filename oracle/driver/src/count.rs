//! How often each answer occurs in a list.
use std::collections::BTreeMap;
use std::fmt::Write;

/// Answers by operation; numbers of refusals, and the words that tell cases apart, are kept.
pub fn count(list: &str) -> String {
    let mut counts: BTreeMap<String, u64> = BTreeMap::new();
    let mut operation = String::new();
    for line in list.lines() {
        let Some(answer) = line.strip_prefix("> ") else {
            let words: Vec<_> = line.split(' ').collect();
            operation = match words[..] {
                ["add", variant, ..] => format!("add {variant}"),
                [keyword, ..] => keyword.into(),
                [] => String::new(),
            };
            continue;
        };
        let words: Vec<_> = answer.split(' ').collect();
        let kind = match words[..] {
            ["refused", number, ..] => format!("refused {number:>2}"),
            ["offer", _, "refused", number, ..] => format!("offer, merge refused {number:>2}"),
            ["offer", _, outcome] => format!("offer {outcome}"),
            ["done", passes] => format!("done after {passes} passes"),
            ["dropped", "0", ..] => "dropped nothing".into(),
            ["dropped", ..] => "dropped some".into(),
            ["symbol", _, "removed"] => "symbol removed".into(),
            ["symbol", _, _, class, _, _, _, _, value, ..] => format!("symbol {class} {value}"),
            ["section", _, state, ..] => format!("section {state}"),
            ["input", kind, ..] => format!("input {kind}"),
            [keyword, ..] => keyword.into(),
            [] => continue,
        };
        *counts.entry(format!("{operation}: {kind}")).or_default() += 1;
    }
    let mut out = String::new();
    for (kind, count) in counts {
        writeln!(out, "{count:>7} {kind}").unwrap();
    }
    out
}
