//! Document 01's broken links. The Rust knows none and would go on, so that from the break on it
//! is asked lookups and walks alone.

/// Whether a broken link refuses the line's call with 22.
pub fn changes(line: &str) -> bool {
    matches!(keyword(line), "add" | "remove" | "merge" | "load" | "collect")
}

/// Whether the line's call broke the link, by its answers. 25 breaks nothing.
pub fn breaks(line: &str, answers: &[String]) -> bool {
    let refused = |answer: &String| match keyword(line) {
        "merge" | "load" => answer.starts_with("refused ") && !answer.starts_with("refused 25 "),
        "walk" => answer.starts_with("offer ") && answer.contains(" refused "),
        _ => false,
    };
    answers.iter().any(refused)
}

fn keyword(line: &str) -> &str {
    line.split(' ').next().unwrap_or_default()
}
