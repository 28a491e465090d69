//! The plain collector beside the first: the same sections and symbols, or the same refusal; and 30
//! for more than 256 sections that are built and not dropped.
mod support;

use hidvorn::*;
use support::{refused, strings};

const CAPACITY: Capacity =
    Capacity { names: 1024, name_bytes: 16_384, symbols: 1024, sections: 512, inputs: 8 };

/// An object of readable program sections 1 to `names.len()`, each with a global symbol of that
/// name, the same number in the table. `relocations` are from a section to a symbol; `groups` are
/// COMDAT groups of one section each, with the section's symbol as signature.
fn object<'c>(
    names: &[String],
    relocations: &[(usize, &'c [usize])],
    groups: &'c [[usize; 1]],
) -> Object<'c> {
    let names: Vec<_> = names.iter().map(String::as_str).collect();
    let (bytes, places) = strings(&[&[".text"], names.as_slice()].concat());
    let len = bytes.len();
    let mut object = Object::new(bytes);
    let header = |content| SectionHeader { content, ..Default::default() };
    object.push_section(header(SectionContent::Null));
    for _ in &names {
        let content = SectionContent::Program;
        object.push_section(SectionHeader { name: places[0], read: true, ..header(content) });
    }
    object.push_symbol(ElfSymbol::default());
    for (i, name) in places[1..].iter().enumerate() {
        let symbol = ElfSymbol { name: *name, binding: 1, section: i + 1, ..Default::default() };
        object.push_symbol(symbol);
    }
    let strings = names.len() + 1;
    object.push_section(header(SectionContent::StringTable { first: 0, len }));
    object.set_section_names(strings);
    let count = names.len() + 1;
    object.push_section(header(SectionContent::SymbolTable { strings, first: 0, count }));
    let table = strings + 1;
    for (applies_to, symbols) in relocations {
        let rows = Relocations { table, applies_to: *applies_to, symbols };
        object.push_section(header(SectionContent::Rela(rows)));
    }
    for sections in groups {
        let [signature] = *sections;
        let group = SectionContent::Group { table, signature, comdat: true, sections };
        object.push_section(header(group));
    }
    object
}

fn named(prefix: &str, count: usize) -> Vec<String> {
    (0..count).map(|i| format!("{prefix}{i}")).collect()
}

/// A link of so many built sections; section i names section i + 1, but the last names nothing.
fn chain(count: usize) -> Link {
    let next: Vec<_> = (0..count).map(|i| [i + 2]).collect();
    let relocations: Vec<_> =
        next.iter().enumerate().take(count - 1).map(|(i, symbols)| (i + 1, &symbols[..])).collect();
    let mut link = Link::with_capacity(CAPACITY).unwrap();
    link.merge_elf(&object(&named("s", count), &relocations, &[])).unwrap();
    assert_eq!(link.section_count(), count);
    link
}

/// Sections and symbols, as they stand.
fn rows(link: &Link) -> (Vec<String>, Vec<Option<Symbol>>) {
    (link.sections().map(|section| format!("{section:?}")).collect(), link.symbols().collect())
}

/// The answer of both collectors, which leave the same rows.
fn both(link: &Link, marks: &[u8], entry: Option<SymbolId>) -> Result<Collected, Refusal> {
    let (mut first, mut second) = (link.clone(), link.clone());
    let answer = first.gc_sections(marks, entry);
    assert_eq!(second.gc_sections_plain(marks, entry), answer);
    assert_eq!(rows(&second), rows(&first));
    assert!(!second.is_broken());
    answer
}

fn symbol(link: &Link, name: &str) -> SymbolId {
    link.get_global(link.find(name.as_bytes()).unwrap()).unwrap().id
}

#[test]
fn two_that_name_each_other() {
    let mut link = Link::with_capacity(CAPACITY).unwrap();
    link.merge_elf(&object(&named("s", 2), &[(1, &[2]), (2, &[1])], &[])).unwrap();
    let dropped = both(&link, &[0; 3], None).unwrap();
    assert_eq!(dropped.sections, [SectionId::new(0), SectionId::new(1)]);
    assert_eq!(dropped.symbols, 2);
    let kept = both(&link, &[0; 3], Some(symbol(&link, "s1"))).unwrap();
    assert_eq!(kept, Collected { sections: vec![], symbols: 0 });
}

#[test]
fn a_chain_of_256() {
    let link = chain(256);
    let marks = [0; 257];
    assert_eq!(both(&link, &marks, Some(symbol(&link, "s0"))).unwrap().sections, []);
    assert_eq!(both(&link, &marks, None).unwrap().symbols, 256);
    let from_the_middle = both(&link, &marks, Some(symbol(&link, "s100"))).unwrap();
    assert_eq!(from_the_middle.sections.len(), 100);
    assert_eq!(refused(both(&link, &marks[..9], None)), (1, 9));
}

#[test]
fn more_than_256() {
    let mut link = chain(257);
    let before = rows(&link);
    let marks = [0; 258];
    assert_eq!(refused(link.gc_sections_plain(&marks, None)), (30, 0));
    assert_eq!(rows(&link), before);
    assert!(!link.is_broken());
    // 1 comes before it.
    assert_eq!(refused(link.gc_sections_plain(&marks[..5], None)), (1, 5));
    assert_eq!(link.gc_sections(&marks, None).unwrap().sections.len(), 257);
    // Those are dropped, so they don't count.
    assert_eq!(both(&link, &marks, None).unwrap().sections, []);
}

#[test]
fn dropped_ones_dont_count() {
    let mut link = chain(256);
    // Nine sections more, which name nothing and which nothing names.
    link.merge_elf(&object(&named("t", 9), &[], &[])).unwrap();
    let first = Some(symbol(&link, "s0"));
    let marks = [0; 266];
    assert_eq!(refused(link.gc_sections_plain(&marks, first)), (30, 0));
    assert_eq!(link.gc_sections(&marks, first).unwrap().sections.len(), 9);
    assert_eq!(both(&link, &marks, first).unwrap().sections, []);
    assert_eq!(both(&link, &marks, Some(symbol(&link, "s9"))).unwrap().sections.len(), 9);
}

#[test]
fn the_lowest_placeholder() {
    let mut link = Link::with_capacity(CAPACITY).unwrap();
    let names = [String::from("g"), String::from("h")];
    link.merge_elf(&object(&names, &[], &[[1], [2]])).unwrap();
    // The groups of sections 2 and 6 repeat those signatures: their rows, 3 and 7, are never built.
    let mut names = named("s", 8);
    (names[1], names[5]) = (String::from("g"), String::from("h"));
    link.merge_elf(&object(&names, &[(1, &[4])], &[[2], [6]])).unwrap();
    assert_eq!(link.section_count(), 10);
    let mut in_section = |name: &[u8], section| {
        let value = SymbolValue::Section { section: SectionId::new(section) };
        let name = link.intern(name).unwrap();
        link.add(UpcomingSymbol::GlobalHidden { name, value }).unwrap()
    };
    let (seven, three) = (in_section(b"seven", 7), in_section(b"three", 3));
    let mut marks = vec![0; link.symbol_count()];
    marks[seven.number()] = 1;
    assert_eq!(refused(both(&link, &marks, None)), (21, 7));
    marks[three.number()] = 1;
    assert_eq!(refused(both(&link, &marks, None)), (21, 3));
    assert_eq!(refused(both(&link, &marks, Some(symbol(&link, "s0")))), (21, 3));
}
