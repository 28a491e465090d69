//! Add sheets.
use super::random::Random;
use std::fmt::Write;

/// One sheet. Few names, so that most lines meet a known one.
pub(crate) fn sheet(random: &mut Random) -> String {
    let mut out = String::from("name bind vis type shndx value\n");
    let lines = random.pick(&[0, 1, 2, 3, 5, 8, 13, 20, 40]);
    let names = random.between(1, 8);
    for _ in 0..lines {
        let name = match random.below(names) {
            0 if random.chance(30) => "-".into(),
            other => format!("n{other}"),
        };
        let binding = field(random, &[0, 1, 1, 1, 2, 2, 2], 15);
        let visibility = field(random, &[0, 0, 0, 0, 2], 3);
        let kind = field(random, &[0, 1, 2, 3], 15);
        let section = match random.below(40) {
            0 => 0xfff2,
            1..5 => 0xfff1,
            5..17 => 0,
            17 => random.pick(&[10, 11, 0xfeff]),
            18 => random.pick(&[0xff00, 0xfff0, 0xfff3, 0xffff, 0x10000, u64::MAX]),
            _ => random.between(1, 9),
        };
        // A common of binding 1 or 2 is no row of the Rust.
        let binding = if section == 0xfff2 { 0 } else { binding };
        let value = match random.below(60) {
            // rarely one that 64 bits don't hold
            0 => u128::from(u64::MAX) + 1 + u128::from(random.below(3)),
            _ => random.value().into(),
        };
        writeln!(out, "{name} {binding} {visibility} {kind} {section} {value}").unwrap();
    }
    out
}

/// Mostly a common value, at times any in range, rarely one past it.
fn field(random: &mut Random, common: &[u64], last: u64) -> u64 {
    match random.below(60) {
        0 => random.pick(&[last + 1, last + 2, 255, 256, u64::MAX]),
        1..8 => random.between(0, last),
        _ => random.pick(common),
    }
}
