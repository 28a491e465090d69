//! Damaged copies of good objects: anywhere, or so that a certain refusal is likely.
use super::random::Random;
use crate::rows::{ABSOLUTE, COMMON, ObjectRows, SectionRow, SymbolRow};

/// Keeps an object inside the compared domain: one loaded symbol table (a second gives 24), symbol
/// tables with rows that are there, and string tables with a byte (an empty one is compared with the
/// gABI, not with the Rust); where the Rust is asked, groups of one section that no other lists.
fn tidy(random: &Random, rows: &mut ObjectRows) {
    let count = rows.symbols.len() as u64;
    let mut loaded = false;
    for row in &mut rows.sections {
        if row.kind == 3 && !row.exclude {
            if loaded {
                row.exclude = true;
            }
            loaded = true;
        }
        if row.kind == 3 || row.kind == 10 {
            let fits = matches!(row.items[..], [first, n] if first <= count && n <= count - first);
            if !fits {
                row.items = vec![0, count];
            }
        }
        if row.kind == 4 && row.bytes.is_empty() {
            row.bytes.push(b'z');
        }
    }
    if !random.commons {
        one_section_each(rows);
    }
}

/// COMDAT groups of several sections keep their first; one whose section an earlier group lists is
/// excluded.
fn one_section_each(rows: &mut ObjectRows) {
    let sections = rows.sections.len() as u64;
    let mut listed = Vec::new();
    for row in rows.sections.iter_mut().filter(|row| row.kind == 7 && !row.exclude && row.comdat) {
        row.items.truncate(1);
        row.exclude = row.items.iter().any(|item| *item < sections && listed.contains(item));
        if !row.exclude {
            listed.extend(&row.items);
        }
    }
}

/// Changes one cell to another value in its range.
pub(crate) fn anywhere(random: &mut Random, rows: &mut ObjectRows) {
    let sections = rows.sections.len() as u64;
    let symbols = rows.symbols.len() as u64;
    let longest = rows.sections.iter().map(|row| row.bytes.len() as u64).max().unwrap_or(0);
    if symbols == 0 || random.chance(50) {
        let at = random.below(sections) as usize;
        let row = &mut rows.sections[at];
        match random.below(10) {
            0 => row.kind = random.below(15),
            1 => row.name = random.between(0, longest + 1),
            2 => row.exclude = !row.exclude,
            3 => row.retain = !row.retain,
            4 => row.read = !row.read,
            5 => row.link = random.below(sections + 2),
            6 => row.info = random.below(sections.max(symbols) + 2),
            7 => row.comdat = !row.comdat,
            8 => match random.below(3) {
                0 => drop(row.bytes.pop()),
                1 => row.bytes.push(b'z'),
                _ => row.bytes.clear(),
            },
            _ => match random.below(3) {
                0 => drop(row.items.pop()),
                1 => row.items.push(random.below(sections.max(symbols) + 2)),
                _ => row.items.clear(),
            },
        }
    } else {
        let at = random.below(symbols) as usize;
        let row = &mut rows.symbols[at];
        match random.below(7) {
            0 => row.name = random.between(0, longest + 1),
            1 => row.binding = random.pick(&[0, 1, 2, 3, 10, 15]),
            2 => row.kind = random.pick(&[0, 1, 2, 3, 4, 5, 6, 15]),
            3 => row.visibility = random.below(4),
            4 => row.section = random.pick(&[0, ABSOLUTE, COMMON, sections, 0xfeff, 1, 2, 3]),
            5 => row.section = random.below(sections + 1),
            _ => row.value = random.value(),
        }
    }
    tidy(random, rows);
}

/// Numbers that `towards` aims at.
pub(crate) const NUMBERS: [u64; 17] = [3, 4, 5, 6, 7, 8, 9, 10, 11, 12, 13, 14, 16, 17, 18, 19, 21];

/// Makes a refusal of that number likely (21 and 17 need the link's help as well).
pub(crate) fn towards(random: &mut Random, rows: &mut ObjectRows, number: u64) {
    let sections = rows.sections.len() as u64;
    let symbols = rows.symbols.len() as u64;
    let groups = of_kind(rows, &[7]);
    let built = of_kind(rows, &[1, 2]);
    match number {
        3 => {
            let at = random.between(1, sections - 1) as usize;
            rows.sections[at].kind = random.between(10, 13);
        }
        4..=7 => {
            let Some(&group) = groups.first() else { return };
            let (signature, row) = (rows.sections[group].info, &mut rows.sections[group]);
            match number {
                4 => {
                    row.comdat = false;
                    row.items = random.pick(&[vec![], vec![1], vec![1, 2]]);
                }
                5 => row.items.clear(),
                6 if random.chance(50) => row.info = symbols + random.below(2),
                6 => row.link = random.below(sections + 1),
                _ => {
                    if let Some(symbol) = rows.symbols.get_mut(signature as usize) {
                        symbol.name += 10_000;
                    }
                }
            }
        }
        8 => {
            // A local beside the group's signature; it shows where the signature is met again.
            let Some(&group) = groups.first() else { return };
            let section = match rows.sections[group].items[..] {
                [] => return,
                [listed] => listed,
                ref several => random.pick(several),
            };
            rows.symbols.push(SymbolRow { section, ..SymbolRow::default() });
            grow_table(rows);
        }
        29 => {
            // A group lists what one before it does; there is a second one, or one is made.
            let [first, ref others @ ..] = groups[..] else { return };
            let listed = random.pick(&rows.sections[first].items);
            match pick(random, others) {
                Some(&group) => {
                    let items = &mut rows.sections[group].items;
                    let at = random.below(items.len() as u64 + 1) as usize;
                    items.insert(at, listed);
                }
                None => {
                    let group = SectionRow { items: vec![listed], ..rows.sections[first].clone() };
                    rows.sections.push(group);
                }
            }
        }
        18 => {
            if let Some(&section) = pick(random, &built) {
                rows.sections[section].name += random.pick(&[10_000, 1 << 40]);
            }
        }
        19 => {
            let Some(&table) = pick(random, &of_kind(rows, &[5, 6])) else { return };
            if let Some(&program) = pick(random, &of_kind(rows, &[1])) {
                rows.sections[table].info = program as u64;
            }
            if random.chance(35) {
                // Good symbols of a table that isn't the loaded one.
                rows.sections[table].items.push(0);
                rows.sections[table].link = random.below(sections + 1);
                return tidy(random, rows);
            }
            let file = rows.symbols.iter().position(|row| row.kind == 4);
            let beyond = symbols + random.below(3);
            rows.sections[table].items.push(file.map_or(beyond, |at| at as u64));
        }
        _ => {
            if rows.symbols.is_empty() {
                return;
            }
            let at = random.below(symbols) as usize;
            let row = &mut rows.symbols[at];
            match number {
                9 => row.name = random.pick(&[u64::MAX, 10_000]),
                10 => {
                    row.visibility = random.pick(&[1, 3]);
                    row.binding = random.pick(&[0, 1, 2, 5]);
                }
                11 => (row.binding, row.visibility) = (0, 2),
                12 => (row.binding, row.visibility) = (random.between(3, 15), 0),
                13 => row.section = COMMON,
                14 => row.section = random.pick(&[sections, sections + 1, 0xfeff]),
                16 => row.kind = random.between(5, 15),
                _ => (row.binding, row.section) = (1, ABSOLUTE),
            }
        }
    }
    tidy(random, rows);
}

fn of_kind(rows: &ObjectRows, kinds: &[u64]) -> Vec<usize> {
    let sections = rows.sections.iter().enumerate();
    sections
        .filter(|(_, row)| kinds.contains(&row.kind) && !row.exclude)
        .map(|(number, _)| number)
        .collect()
}

fn pick<'a>(random: &mut Random, from: &'a [usize]) -> Option<&'a usize> {
    if from.is_empty() { None } else { Some(&from[random.below(from.len() as u64) as usize]) }
}

fn grow_table(rows: &mut ObjectRows) {
    let count = rows.symbols.len() as u64;
    for row in rows.sections.iter_mut().filter(|row| row.kind == 3) {
        row.items = vec![0, count];
    }
}
