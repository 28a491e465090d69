//! Makes a link on which the two sides differ short.
use crate::rows::*;
use crate::{Outcome, Sides};
use oracle::{Reference, begins};

/// The first line whose answers differ, with both answers.
pub struct Difference {
    pub line: String,
    pub rust: Vec<String>,
    pub ours: Vec<String>,
}

/// Runs lines on both sides, from nothing.
pub fn difference(lines: &[String]) -> Option<Difference> {
    let (mut reference, mut sides) = (Reference::new(), Sides::default());
    for line in lines {
        // A line that the oracle doesn't take is no difference.
        let rust = reference.line(line).ok()?;
        if let Outcome::Differs(rust, ours) = sides.line(line, &rust) {
            return Some(Difference { line: line.clone(), rust, ours });
        }
    }
    None
}

/// A line by itself, or an announced thing with its rows.
#[derive(Clone)]
enum Block {
    Line(String),
    Object(ObjectRows),
    Library(LibraryRows),
    Archive(ArchiveRows),
}

/// The shortest link that was found. It still differs, though maybe at another line.
pub fn minimise(lines: &[String]) -> Vec<String> {
    let mut blocks = blocks(lines);
    let differs = |blocks: &[Block]| {
        announced(blocks) && can_walk(blocks) && difference(&print(blocks)).is_some()
    };
    if !differs(&blocks) {
        return lines.to_vec();
    }
    loop {
        let before = print(&blocks);
        let mut at = blocks.len();
        while at > 0 {
            at -= 1;
            // A list begins with a new link.
            if matches!(&blocks[at], Block::Line(line) if begins(line)) {
                continue;
            }
            let mut fewer = blocks.clone();
            fewer.remove(at);
            if differs(&fewer) {
                blocks = fewer;
                at = at.min(blocks.len());
            }
        }
        for at in 0..blocks.len() {
            let mut step = 0;
            while let Some(change) = smaller(&blocks[at], step) {
                step += 1;
                let Some(changed) = change else { continue };
                let mut fewer = blocks.clone();
                fewer[at] = changed;
                if print(&fewer) != print(&blocks) && differs(&fewer) {
                    blocks = fewer;
                    step = 0;
                }
            }
        }
        if print(&blocks) == before {
            return before;
        }
    }
}

/// A call on an object or a library needs one, so that other readers of lists take the link.
fn announced(blocks: &[Block]) -> bool {
    let (mut object, mut library) = (false, false);
    blocks.iter().all(|block| {
        match block {
            Block::Line(line) if begins(line) => (object, library) = (false, false),
            Block::Object(_) => object = true,
            Block::Library(_) => library = true,
            _ => {}
        }
        match block {
            Block::Line(line) if line == "load" => library,
            Block::Line(line) if ["merge", "admit"].contains(&line.as_str()) => object,
            _ => true,
        }
    })
}

/// A whole walk needs every member that the index names.
fn can_walk(blocks: &[Block]) -> bool {
    let walks = blocks.iter().any(|block| matches!(block, Block::Line(line) if line == "walk"));
    let has = |offset: &u64| {
        let line = format!("member {offset}");
        blocks.iter().any(|block| matches!(block, Block::Line(other) if *other == line))
    };
    !walks
        || blocks.iter().all(|block| match block {
            Block::Archive(rows) => rows.entries.iter().all(|(offset, _)| has(offset)),
            _ => true,
        })
}

/// The block with its step-th change: a row less, or a field that is 0. Nothing after the last.
fn smaller(block: &Block, step: usize) -> Option<Option<Block>> {
    match block {
        Block::Line(_) => None,
        Block::Object(rows) => smaller_object(rows, step).map(|rows| rows.map(Block::Object)),
        Block::Library(rows) => {
            let mut rows = rows.clone();
            let symbols = rows.symbols.len();
            let fields = symbols * 7;
            match step {
                _ if step < symbols => drop(rows.symbols.remove(step)),
                _ if step < symbols + fields => {
                    zero_symbol(&mut rows.symbols[(step - symbols) / 7], (step - symbols) % 7);
                }
                _ if step < symbols + fields + rows.needs.len() => {
                    rows.needs.remove(step - symbols - fields);
                }
                _ if step == symbols + fields + rows.needs.len() => cut_name(&mut rows.strings),
                _ => return None,
            }
            Some(Some(Block::Library(rows)))
        }
        Block::Archive(rows) => {
            let mut rows = rows.clone();
            if step >= rows.entries.len() {
                return None;
            }
            rows.entries.remove(step);
            Some(Some(Block::Archive(rows)))
        }
    }
}

fn zero_symbol(row: &mut SymbolRow, field: usize) {
    match field {
        0 => row.name = 0,
        1 => row.binding = 0,
        2 => row.kind = 0,
        3 => row.visibility = 0,
        4 => row.section = 0,
        5 => row.value = 0,
        _ => row.size = 0,
    }
}

/// A string table without its last name.
fn cut_name(bytes: &mut Vec<u8>) {
    let Some((_, others)) = bytes.split_last() else { return };
    let end = others.iter().rposition(|byte| *byte == 0).map_or(0, |at| at + 1);
    bytes.truncate(end);
}

const SECTION_FIELDS: usize = 10;

fn smaller_object(rows: &ObjectRows, step: usize) -> Option<Option<ObjectRows>> {
    let mut out = rows.clone();
    let (symbols, sections) = (rows.symbols.len(), rows.sections.len());
    let mut at = step;
    // Rows with the numbers after them moved up.
    if at < symbols {
        without_symbol(&mut out, at as u64);
        return Some(Some(out));
    }
    at -= symbols;
    if at < sections {
        without_section(&mut out, at as u64);
        return Some(Some(out));
    }
    at -= sections;
    if at < symbols * 7 {
        zero_symbol(&mut out.symbols[at / 7], at % 7);
        return Some(Some(out));
    }
    at -= symbols * 7;
    if at < sections * SECTION_FIELDS {
        let row = &mut out.sections[at / SECTION_FIELDS];
        let table = row.kind == 3 || row.kind == 10;
        match at % SECTION_FIELDS {
            0 => row.name = 0,
            1 => row.exclude = false,
            2 => row.retain = false,
            3 => row.read = false,
            4 => row.link = 0,
            5 => row.info = 0,
            6 => row.comdat = false,
            7 if row.kind == 4 => cut_name(&mut row.bytes),
            7 => row.bytes.clear(),
            8 if !table => drop(row.items.pop()),
            9 if !table => row.kind = 0,
            _ => return Some(None),
        }
        return Some(Some(out));
    }
    None
}

fn down(number: &mut u64, removed: u64) {
    if *number > removed {
        *number -= 1;
    }
}

fn without_symbol(rows: &mut ObjectRows, removed: u64) {
    rows.symbols.remove(removed as usize);
    // Relocations and signatures count from their table's first row.
    let first = |row: &SectionRow| match (row.kind, &row.items[..]) {
        (3 | 10, [first, _]) => *first,
        _ => 0,
    };
    let firsts: Vec<_> = rows.sections.iter().map(first).collect();
    for row in &mut rows.sections {
        let first = firsts.get(row.link as usize).copied().unwrap_or(0);
        match row.kind {
            3 | 10 => {
                let [first, count] = row.items[..] else { continue };
                row.items = if first <= removed && removed < first + count {
                    vec![first, count - 1]
                } else {
                    vec![first - (removed < first) as u64, count]
                };
            }
            5 | 6 if removed >= first => {
                row.items.iter_mut().for_each(|symbol| down(symbol, removed - first));
            }
            7 if removed >= first => down(&mut row.info, removed - first),
            _ => {}
        }
    }
}

fn without_section(rows: &mut ObjectRows, removed: u64) {
    rows.sections.remove(removed as usize);
    down(&mut rows.names, removed);
    for row in &mut rows.sections {
        down(&mut row.link, removed);
        match row.kind {
            5 | 6 => down(&mut row.info, removed),
            7 => row.items.iter_mut().for_each(|section| down(section, removed)),
            _ => {}
        }
    }
    for row in &mut rows.symbols {
        if row.section < 0xff00 {
            down(&mut row.section, removed);
        }
    }
}

fn blocks(lines: &[String]) -> Vec<Block> {
    let mut out: Vec<Block> = Vec::new();
    for line in lines {
        let (keyword, mut words) = Words::of(line);
        // Rows belong to the announced thing before them.
        match (keyword, out.last_mut()) {
            ("object", _) => {
                words.number();
                words.number();
                let names = words.number();
                out.push(Block::Object(ObjectRows { names, ..ObjectRows::default() }));
            }
            ("library", _) => out.push(Block::Library(LibraryRows {
                as_needed: words.flag(),
                soname: words.optional_name().map(String::from),
                file: words.optional_name().map(String::from),
                ..LibraryRows::default()
            })),
            ("archive", _) => {
                let has_index = words.flag();
                out.push(Block::Archive(ArchiveRows { has_index, entries: Vec::new() }));
            }
            ("section", Some(Block::Object(rows))) => {
                rows.sections.push(SectionRow::read(&mut words));
            }
            ("symbol", Some(Block::Object(rows))) => {
                rows.symbols.push(SymbolRow::read(&mut words));
            }
            ("symbol", Some(Block::Library(rows))) => {
                rows.symbols.push(SymbolRow::read(&mut words));
            }
            ("strings", Some(Block::Library(rows))) => rows.strings = words.bytes(),
            ("needs", Some(Block::Library(rows))) => rows.needs.push(words.name().into()),
            ("entry", Some(Block::Archive(rows))) => {
                rows.entries.push((words.number(), words.name().into()));
            }
            // Made again from the entries.
            ("index", _) => {}
            _ => out.push(Block::Line(line.clone())),
        }
    }
    out
}

fn print(blocks: &[Block]) -> Vec<String> {
    let mut out = Vec::new();
    let optional = |name: &Option<String>| match name {
        Some(name) => format!("1 {}", shown(name)),
        None => "0 -".into(),
    };
    for block in blocks {
        match block {
            Block::Line(line) => out.push(line.clone()),
            Block::Object(rows) => {
                let counts = (rows.sections.len(), rows.symbols.len());
                out.push(format!("object {} {} {}", counts.0, counts.1, rows.names));
                out.extend(rows.sections.iter().map(SectionRow::to_string));
                out.extend(rows.symbols.iter().map(SymbolRow::to_string));
            }
            Block::Library(rows) => {
                out.push(format!(
                    "library {} {} {} {} {}",
                    rows.as_needed as u8,
                    optional(&rows.soname),
                    optional(&rows.file),
                    rows.symbols.len(),
                    rows.needs.len()
                ));
                out.push(format!("strings {}", Hex(&rows.strings)));
                out.extend(rows.symbols.iter().map(SymbolRow::to_string));
                out.extend(rows.needs.iter().map(|name| format!("needs {}", shown(name))));
            }
            Block::Archive(rows) => {
                out.push(format!("archive {} {}", rows.has_index as u8, rows.entries.len()));
                let entry = |(at, name): &(u64, String)| format!("entry {at} {}", shown(name));
                out.extend(rows.entries.iter().map(entry));
                out.push(format!("index {}", Hex(&rows.index())));
            }
        }
    }
    out
}
