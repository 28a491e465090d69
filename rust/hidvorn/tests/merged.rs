//! The ids that a merge answers for an object's sections and symbols.
mod support;

use Converted::{NotLoaded, Nothing};
use hidvorn::*;
use support::{refused, strings};

const CAPACITY: Capacity =
    Capacity { names: 32, name_bytes: 256, symbols: 16, sections: 16, inputs: 4 };

/// Sections: 1 program, 2 excluded, 3 strings, 4 the symbol table, 5 a group of 6, 7 uninitialized,
/// 8 and 9 relocations of 1. The table's symbols: 1 of type 4, 2 in the group, 3 `sig` in 6, 4
/// `main` in 1, 5 `ext` undefined. `before` rows of no table stand before them.
fn object(main: &str, before: usize) -> Object<'static> {
    let (bytes, at) = strings(&["a.c", "sig", main, "ext", ".text"]);
    let len = bytes.len();
    let mut object = Object::new(bytes);
    (0..before).for_each(|_| object.push_symbol(ElfSymbol::default()));
    object.push_symbol(ElfSymbol::default());
    let mut symbol = |name, binding, kind, section| {
        object.push_symbol(ElfSymbol { name, binding, kind, section, ..Default::default() });
    };
    symbol(at[0], 0, 4, 0xfff1);
    symbol(at[1], 0, 0, 5);
    symbol(at[1], 1, 0, 6);
    symbol(at[2], 1, 0, 1);
    symbol(at[3], 1, 0, 0);
    let mut push = |content, exclude| {
        let header = SectionHeader { name: at[4], exclude, content, ..Default::default() };
        object.push_section(header)
    };
    push(SectionContent::Null, false);
    push(SectionContent::Program, false);
    push(SectionContent::Program, true);
    push(SectionContent::StringTable { first: 0, len }, false);
    push(SectionContent::SymbolTable { strings: 3, first: before, count: 6 }, false);
    push(SectionContent::Group { table: 4, signature: 3, comdat: true, sections: &[6] }, false);
    push(SectionContent::Program, false);
    push(SectionContent::Uninitialized, false);
    for symbols in [&[4, 4, 4][..], &[5, 3]] {
        let table = Relocations { table: 4, applies_to: 1, symbols };
        push(SectionContent::Rela(table), false);
    }
    object.set_section_names(3);
    object
}

fn loaded(section: usize) -> Converted {
    Converted::Section(SectionId::new(section))
}

/// The sections of such an object, where 1, 6 and 7 have these ids.
fn sections([text, grouped, bss]: [usize; 3]) -> [Converted; 10] {
    let [text, grouped, bss] = [text, grouped, bss].map(loaded);
    let none = NotLoaded;
    [none, text, Nothing, none, none, none, grouped, bss, none, none]
}

/// The symbols of such an object, where 3, 4 and 5 have these ids.
fn symbols(ids: [usize; 3]) -> [Option<SymbolId>; 6] {
    let [sig, main, ext] = ids.map(|id| Some(SymbolId::new(id)));
    [Some(SymbolId::NULL), None, None, sig, main, ext]
}

#[test]
fn ids_of_sections_and_symbols() {
    for before in [0, 3] {
        let mut link = Link::with_capacity(CAPACITY).unwrap();
        let first = object("main", before);
        let merged = link.merge_elf(&first).unwrap();
        assert!(merged.sections().eq(sections([0, 1, 2])));
        assert!(merged.symbols().eq(symbols([1, 2, 3])));
        assert_eq!((merged.sections().len(), merged.symbols().len()), (10, 6));
        assert_eq!((merged.section(6), merged.section(2)), (loaded(1), Nothing));
        assert_eq!((merged.symbol(0), merged.symbol(1)), (Some(SymbolId::NULL), None));
        let main = merged.link().get(merged.symbol(4).unwrap()).unwrap();
        assert_eq!(merged.link().resolve(main.name).unwrap(), b"main");
        assert_eq!(main.value.section(), Some(SectionId::new(0)));
    }
}

#[test]
fn a_group_that_was_met_before() {
    let mut link = Link::with_capacity(CAPACITY).unwrap();
    link.merge_elf(&object("main", 0)).unwrap();
    let second = object("other", 0);
    let merged = link.merge_elf(&second).unwrap();
    // The removed section keeps its id, and its symbol is a reference to the first one.
    assert!(merged.sections().eq(sections([3, 4, 5])));
    assert!(merged.symbols().eq(symbols([1, 4, 3])));
    let section = |number| merged.link().section(SectionId::new(number));
    assert_eq!(section(4), Some(Section::Reserved));
    assert!(matches!(section(5), Some(Section::Built { program: false, .. })));
    assert_eq!((section(6), section(usize::MAX)), (None, None));
}

#[test]
fn the_last_relocation_table_counts() {
    let mut link = Link::with_capacity(CAPACITY).unwrap();
    let object = object("main", 0);
    let merged = link.merge_elf(&object).unwrap();
    let expected = [5, 3].map(|number| merged.symbol(number).unwrap());
    let Some(Section::Built { relocations, .. }) = link.section(SectionId::new(0)) else {
        panic!("section 0 is built")
    };
    assert_eq!((relocations.len(), relocations.is_empty()), (2, false));
    assert!(relocations.into_iter().eq(expected));
    assert!((&relocations).into_iter().eq(relocations.iter()));
    assert_eq!((relocations.get(1), relocations.get(2)), (Some(expected[1]), None));
}

#[test]
fn nothing_of_an_earlier_object() {
    let mut link = Link::with_capacity(CAPACITY).unwrap();
    link.merge_elf(&object("main", 0)).unwrap();
    // No symbol table, and fewer sections.
    let mut small = Object::new(vec![0]);
    small.push_section(SectionHeader::default());
    small.push_section(SectionHeader {
        content: SectionContent::StringTable { first: 0, len: 1 },
        ..Default::default()
    });
    small.set_section_names(1);
    let merged = link.merge_elf(&small).unwrap();
    assert!(merged.sections().eq([NotLoaded; 2]));
    assert_eq!([2, 6, usize::MAX].map(|number| merged.section(number)), [Nothing; 3]);
    assert_eq!([0, 3, usize::MAX].map(|number| merged.symbol(number)), [None; 3]);
    assert_eq!(format!("{merged:?}"), "Merged { sections: [NotLoaded, NotLoaded], symbols: [] }");
}

#[test]
fn a_relocation_by_a_symbol_without_id() {
    for symbol in [1, 2] {
        let mut object = object("main", 0);
        let table = Relocations { table: 4, applies_to: 1, symbols: &[symbol] };
        let content = SectionContent::Rela(table);
        object.push_section(SectionHeader { content, ..Default::default() });
        let mut link = Link::with_capacity(CAPACITY).unwrap();
        assert_eq!(refused(link.merge_elf(&object)), (19, 1));
    }
}

#[test]
fn places_of_symbols() {
    let mut link = Link::with_capacity(CAPACITY).unwrap();
    link.merge_elf(&object("main", 0)).unwrap();
    // 1 counts all rows of the object, 17 those of the table.
    let mut bad = object("main", 3);
    bad.push_symbol(ElfSymbol { binding: 99, ..Default::default() });
    assert_eq!(refused(link.merge_elf(&bad)), (1, 9));
    assert_eq!(refused(link.merge_elf(&object("main", 3))), (17, 4));
}
