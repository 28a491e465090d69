//! What the comparison with the Rust can't show: the port's own refusals (1, 2, 22, 24), bounds,
//! ids that were never issued, and that what storage held before doesn't matter.
mod support;

use hidvorn::*;
use support::{object, refused, strings};

const SMALL: Capacity = Capacity { names: 8, name_bytes: 64, symbols: 4, sections: 4, inputs: 2 };

fn unknown(link: &mut Link, name: &str) -> Result<SymbolId, Refusal> {
    let name = link.intern(name.as_bytes())?;
    link.add(UpcomingSymbol::GlobalUnknown { name })
}

#[test]
fn two_rows_lent() {
    let mut link = Link::with_capacity(Capacity { symbols: 2, ..SMALL }).unwrap();
    assert_eq!(unknown(&mut link, "foo").unwrap().number(), 1);
    assert_eq!(refused(unknown(&mut link, "bar")), (2, 0));
    let name = link.intern(b"foo").unwrap();
    let value = SymbolValue::Absolute { value: 5 };
    assert_eq!(link.add(UpcomingSymbol::GlobalHidden { name, value }).unwrap().number(), 1);
    assert!(!link.is_broken());
}

#[test]
fn no_room_for_a_link() {
    for capacity in [Capacity { symbols: 0, ..SMALL }, Capacity { names: 0, ..SMALL }] {
        assert_eq!(refused(Link::with_capacity(capacity)), (2, 0));
    }
}

#[test]
fn names() {
    let mut link = Link::with_capacity(Capacity { names: 3, name_bytes: 5, ..SMALL }).unwrap();
    assert_eq!((link.find(b"ab"), link.find(b"")), (None, Some(Interned::EMPTY)));
    let [ab, zero] = [&b"ab"[..], &b"a\0b"[..]].map(|name| link.intern(name).unwrap());
    assert_ne!(ab, zero);
    assert_eq!(link.intern(b"ab").unwrap(), ab);
    assert_eq!(link.intern(b"").unwrap(), Interned::EMPTY);
    assert_eq!(refused(link.intern(b"c")), (2, 0));
    let found = [&b"ab"[..], b"a\0b", b"c"].map(|name| link.find(name));
    assert_eq!(found, [Some(ab), Some(zero), None]);
    assert_eq!(link.resolve(zero).unwrap(), b"a\0b");
    assert_eq!(refused(link.resolve(Interned::new(3))), (23, 0));
    assert_eq!((link.name_count(), link.name_byte_count()), (3, 5));
}

#[test]
fn ids_never_issued() {
    let mut link = Link::with_capacity(SMALL).unwrap();
    let name = Interned::new(7);
    assert_eq!(refused(link.add(UpcomingSymbol::GlobalUnknown { name })), (21, 7));
    assert_eq!(refused(link.get_global(name)), (23, 0));
    assert_eq!(refused(link.get(SymbolId::new(usize::MAX))), (21, usize::MAX));
    assert_eq!(refused(link.remove(SymbolId::new(1))), (21, 1));
    assert_eq!(link.section_symbol_id(SectionId::new(usize::MAX)), None);
    assert_eq!(link.get(SymbolId::NULL).unwrap().value, SymbolValue::Null);
}

#[test]
fn fields_out_of_range() {
    let mut link = Link::with_capacity(SMALL).unwrap();
    let conversion = SectionConversion::new();
    let (name, file) = (Interned::EMPTY, None);
    let rows = [
        ElfSymbol { binding: 16, ..Default::default() },
        ElfSymbol { kind: 16, ..Default::default() },
        ElfSymbol { visibility: 4, ..Default::default() },
        ElfSymbol { section: 0xff00, ..Default::default() },
        ElfSymbol { section: usize::MAX, ..Default::default() },
    ];
    for elf in rows {
        let symbol = UpcomingSymbol::Elf { elf, name, file, conversion: &conversion };
        assert_eq!(refused(link.add(symbol)), (1, 0));
    }
    let mut bad = object(&[("a", 1, 0, 0)]);
    bad.push_symbol(ElfSymbol { binding: 99, ..Default::default() });
    assert_eq!(refused(link.merge_elf(&bad)), (1, 2));
    // A table with rows that aren't there.
    let content = SectionContent::DynamicSymbolTable { strings: 2, first: 2, count: 2 };
    let mut bad = object(&[("a", 1, 0, 0)]);
    bad.push_section(SectionHeader { content, ..Default::default() });
    assert_eq!(refused(link.merge_elf(&bad)), (1, 4));
    assert!(!link.is_broken());
    assert_eq!((link.symbol_count(), link.name_count()), (1, 1));
}

#[test]
fn a_broken_link() {
    let mut link = Link::with_capacity(SMALL).unwrap();
    link.merge_elf(&object(&[("foo", 1, 1, 0)])).unwrap();
    // Symbol 1 stays merged, symbol 2 is a duplicate.
    let twice = object(&[("bar", 1, 0, 0), ("foo", 1, 1, 0)]);
    assert_eq!(refused(link.merge_elf(&twice)), (17, 2));
    assert!(link.is_broken());
    assert_eq!(link.symbol_count(), 3);

    assert_eq!(refused(link.intern(b"foo")), (22, 0));
    assert_eq!(refused(link.add(UpcomingSymbol::Null)), (22, 0));
    assert_eq!(refused(link.remove(SymbolId::NULL)), (22, 0));
    assert_eq!(refused(link.merge_elf(&twice)), (22, 0));
    let library = SharedObject::new(vec![0], LibraryName::Known(b"l"));
    assert_eq!(refused(link.load_shared_object(&library)), (22, 0));
    assert_eq!(refused(link.gc_sections(&[], None)), (22, 0));
    assert_eq!(refused(link.gc_sections_plain(&[], None)), (22, 0));
    assert_eq!(refused(link.add_group(&mut GroupMarks::new(&twice, 3), 0)), (22, 0));

    let bar = link.get(SymbolId::new(2)).unwrap();
    assert_eq!(link.resolve(bar.name).unwrap(), b"bar");
    assert_eq!(link.find(b"bar"), Some(bar.name));
    assert_eq!(link.find(b"baz"), None);
    assert_eq!(link.get_global(bar.name).unwrap(), bar);
    let mut walk = PendingArchive::new(&b"\0\0\0\x01\0\0\0\x08bar\0"[..]).unwrap();
    let Ok(Step::Member(member)) = walk.next(&link) else { panic!("bar is undefined") };
    assert_eq!((member.offset, member.passes), (8, 1));
    assert!(walk.admits(&link, &member, &twice).unwrap());
    assert_eq!(walk.next(&link), Ok(Step::Done { passes: 2 }));

    // The same storage again: nothing of the old link is left.
    link.clear();
    assert!(!link.is_broken());
    assert_eq!(link.symbols().count(), 1);
    link.merge_elf(&object(&[("foo", 1, 1, 0)])).unwrap();
    assert_eq!(link.symbol_count(), 2);
}

#[test]
fn a_second_symbol_table() {
    let mut link = Link::with_capacity(SMALL).unwrap();
    let mut two = object(&[("a", 1, 0, 0)]);
    let content = SectionContent::SymbolTable { strings: 2, first: 0, count: 2 };
    two.push_section(SectionHeader { content, ..Default::default() });
    assert_eq!(refused(link.merge_elf(&two)), (24, 4));
    assert!(link.is_broken());
    assert_eq!((link.symbol_count(), link.section_count(), link.name_count()), (1, 1, 1));
}

#[test]
fn rows_run_out_inside_a_merge() {
    let many = object(&[("a", 1, 0, 0), ("b", 1, 0, 0), ("c", 1, 0, 0), ("d", 1, 0, 0)]);
    let mut link = Link::with_capacity(SMALL).unwrap();
    assert_eq!(refused(link.merge_elf(&many)), (2, 4));
    // The name of the symbol without a row isn't issued.
    assert_eq!((link.symbol_count(), link.name_count()), (4, 4));
    let mut link = Link::with_capacity(Capacity { sections: 0, ..SMALL }).unwrap();
    assert_eq!(refused(link.merge_elf(&many)), (2, 1));
    let mut link = Link::with_capacity(Capacity { inputs: 0, ..SMALL }).unwrap();
    assert_eq!(refused(link.merge_elf(&object(&[("a", 1, 0, 0)]))), (2, 0));
    assert_eq!(link.symbol_count(), 2);
    assert!(link.is_broken());
}

#[test]
fn indexes() {
    let open = |index: &[u8]| PendingArchive::new(index.to_vec()).map(drop);
    assert_eq!(refused(open(b"")), (20, 0));
    assert_eq!(refused(open(b"\0\0\0")), (1, 0));
    assert_eq!(refused(open(b"\0\0\0\x02\0\0\0\x08")), (1, 1));
    assert_eq!(refused(open(b"\0\0\0\x02\0\0\0\x08\0\0\0\x09a\0b")), (1, 1));
    assert_eq!(refused(open(&[0xff; 64])), (1, 15));
    let most = |count: u32| {
        let offsets = (0..count).flat_map(|at| (at * 8).to_be_bytes());
        let names = (0..count).flat_map(|_| *b"q\0");
        open(&count.to_be_bytes().into_iter().chain(offsets).chain(names).collect::<Vec<_>>())
    };
    assert_eq!(most(65_535), Ok(()));
    assert_eq!(refused(most(65_536)), (1, 65_535));
    let link = Link::with_capacity(SMALL).unwrap();
    let mut walk = PendingArchive::new(&b"\0\0\0\0"[..]).unwrap();
    for _ in 0..2 {
        assert_eq!(walk.next(&link), Ok(Step::Done { passes: 1 }));
    }
}

#[test]
fn groups_by_themselves() {
    let mut link = Link::with_capacity(SMALL).unwrap();
    let mut object = object(&[("sig", 1, 1, 0)]);
    let mut push = |comdat, signature, sections: &[usize]| {
        let content = SectionContent::Group { table: 3, signature, comdat, sections };
        object.push_section(SectionHeader { content, ..Default::default() })
    };
    let (plain, empty, missing) = (push(false, 1, &[]), push(true, 1, &[]), push(true, 9, &[1]));
    let good = push(true, 1, &[1]);
    let mut marks = GroupMarks::new(&object, 3);
    for (section, number) in [(plain, 4), (empty, 5), (missing, 6), (1, 1)] {
        assert_eq!(refused(link.add_group(&mut marks, section)), (number, section));
    }
    link.add_group(&mut marks, good).unwrap();
    assert!(!link.is_broken());
    let signatures: Vec<_> =
        link.group_signatures().map(|name| link.resolve(name).unwrap()).collect();
    assert_eq!(signatures, [b"sig"]);
}

/// An object of a program section 1, a symbol table 2 that begins at the object's symbol `first`,
/// its strings 3, a group 4 of section 1, and maybe an excluded table of one symbol more.
fn grouped(first: usize, excluded: bool) -> Object<'static> {
    let (bytes, places) = strings(&["sig"]);
    let len = bytes.len();
    let mut object = Object::new(bytes);
    (0..=first).for_each(|_| object.push_symbol(ElfSymbol::default()));
    object.push_symbol(ElfSymbol { name: places[0], binding: 1, section: 1, ..Default::default() });
    let mut push = |content, exclude| {
        object.push_section(SectionHeader { exclude, content, ..Default::default() });
    };
    push(SectionContent::Null, false);
    push(SectionContent::Program, false);
    push(SectionContent::SymbolTable { strings: 3, first, count: 2 }, false);
    push(SectionContent::StringTable { first: 0, len }, false);
    push(SectionContent::Group { table: 2, signature: 1, comdat: true, sections: &[1] }, false);
    if excluded {
        push(SectionContent::SymbolTable { strings: 3, first: first + 2, count: 1 }, true);
        object.push_symbol(ElfSymbol::default());
    }
    object.set_section_names(3);
    object
}

#[test]
fn groups_of_a_table_anywhere() {
    for (first, excluded) in [(0, false), (0, true), (1, false), (1, true), (2, false), (2, true)] {
        let object = grouped(first, excluded);
        Link::with_capacity(SMALL).unwrap().merge_elf(&object).unwrap();
        let mut link = Link::with_capacity(SMALL).unwrap();
        let mut marks = GroupMarks::new(&object, 2);
        link.add_group(&mut marks, 4).unwrap();
        assert_eq!((marks.is_group(4), marks.is_removed(1)), (true, false));
        let signature = link.group_signatures().next().unwrap();
        assert_eq!(link.resolve(signature).unwrap(), b"sig");
        // The next object has the same group.
        let mut marks = GroupMarks::new(&object, 2);
        link.add_group(&mut marks, 4).unwrap();
        assert_eq!((marks.is_group(4), marks.is_removed(1)), (true, true));
        assert_eq!((marks.is_group(1), marks.is_removed(4)), (false, false));
        assert!(!marks.is_group(usize::MAX) && !marks.is_removed(usize::MAX));
        assert_eq!(format!("{marks:?}"), "GroupMarks { removed: [1], groups: [4] }");
    }
}

#[test]
fn groups_of_no_table() {
    let mut link = Link::with_capacity(SMALL).unwrap();
    let mut add = |object: &Object, table| link.add_group(&mut GroupMarks::new(object, table), 4);
    let mut object = grouped(1, true);
    // Sections of other kinds, another table, no section.
    for table in [0, 1, 3, 4, 5, 6, usize::MAX] {
        assert_eq!(refused(add(&object, table)), (6, 4));
    }
    // A range that the object doesn't have is judged, whatever table is named.
    let most = usize::MAX;
    for (first, count) in [(0, 6), (5, 1), (most, 1), (1, most), (most, most)] {
        let mut object = object.clone();
        let content = SectionContent::SymbolTable { strings: 3, first, count };
        object.push_section(SectionHeader { exclude: true, content, ..Default::default() });
        for table in [2, 6] {
            assert_eq!(refused(add(&object, table)), (1, 6));
        }
    }
    // Symbols outside of the table aren't judged; those inside are, by their number there.
    object.push_symbol(ElfSymbol { binding: 99, ..Default::default() });
    add(&object, 2).unwrap();
    let content = SectionContent::SymbolTable { strings: 3, first: 3, count: 2 };
    object.push_section(SectionHeader { exclude: true, content, ..Default::default() });
    assert_eq!(refused(add(&object, 6)), (1, 1));
    assert!(!link.is_broken());
}

/// As in a merge, an excluded table or a dynamic one isn't the object's.
#[test]
fn groups_of_a_table_that_is_not_loaded() {
    let (bytes, places) = strings(&["sig"]);
    let len = bytes.len();
    let table = |dynamic, count| match dynamic {
        false => SectionContent::SymbolTable { strings: 2, first: 0, count },
        true => SectionContent::DynamicSymbolTable { strings: 2, first: 0, count },
    };
    for (dynamic, exclude, number) in
        [(false, true, 6), (true, false, 6), (true, true, 6), (false, false, 0)]
    {
        let mut object = Object::new(bytes.clone());
        object.push_symbol(ElfSymbol::default());
        object.push_symbol(ElfSymbol { name: places[0], binding: 1, ..Default::default() });
        let mut push = |content, exclude| {
            object.push_section(SectionHeader { exclude, content, ..Default::default() })
        };
        push(SectionContent::Null, false);
        push(table(dynamic, 2), exclude);
        push(SectionContent::StringTable { first: 0, len }, false);
        push(SectionContent::Group { table: 1, signature: 1, comdat: true, sections: &[9] }, false);
        let mut link = Link::with_capacity(SMALL).unwrap();
        let added = link.add_group(&mut GroupMarks::new(&object, 1), 3);
        match number {
            0 => added.unwrap(),
            _ => assert_eq!(refused(added), (number, 3)),
        }
        // A merge finds no table either; a dynamic one it refuses before, unless excluded.
        let merged = Link::with_capacity(SMALL).unwrap().merge_elf(&object).map(|_| ());
        match (dynamic && !exclude, number) {
            (true, _) => assert_eq!(refused(merged), (3, 1)),
            (false, 0) => merged.unwrap(),
            (false, _) => assert_eq!(refused(merged), (number, 3)),
        }
    }
}

#[test]
fn a_group_of_a_section_that_no_object_has() {
    let with = |section| {
        let mut object = object(&[("sig", 1, 1, 0)]);
        let sections = &[section];
        let content = SectionContent::Group { table: 3, signature: 1, comdat: true, sections };
        object.push_section(SectionHeader { content, ..Default::default() });
        object
    };
    let mut link = Link::with_capacity(SMALL).unwrap();
    // Any number is accepted at first; a repeat marks it as removed, if there is a mark for it.
    link.merge_elf(&with(65_280)).unwrap();
    assert_eq!(refused(link.clone().merge_elf(&with(65_279))), (17, 1));
    assert_eq!(refused(link.merge_elf(&with(65_280))), (2, 4));
    assert!(link.is_broken());
}

#[test]
fn removed_symbols() {
    let mut link = Link::with_capacity(SMALL).unwrap();
    let name = link.intern(b"a").unwrap();
    let conversion = SectionConversion::new();
    let elf = ElfSymbol { section: 0xfff1, ..Default::default() };
    let local = UpcomingSymbol::Elf { elf, name, file: None, conversion: &conversion };
    let local = link.add(local).unwrap();
    // A local symbol doesn't hold its name, a global one never gives it up.
    for _ in 0..2 {
        link.remove(local).unwrap();
    }
    let global = link.add(UpcomingSymbol::GlobalUnknown { name }).unwrap();
    link.remove(global).unwrap();
    let again = link.add(UpcomingSymbol::GlobalUnknown { name });
    assert_eq!(refused(again), (21, name.number()));
    link.remove(SymbolId::NULL).unwrap();
    assert_eq!(refused(link.get(SymbolId::NULL)), (21, 0));
}

#[test]
fn section_ids_that_no_link_has() {
    let mut link = Link::with_capacity(SMALL).unwrap();
    let name = link.intern(b"a").unwrap();
    let elf = ElfSymbol { binding: 1, section: 1, ..Default::default() };
    let mut add = |section| {
        let converted = [Converted::Nothing, Converted::Section(SectionId::new(section))];
        let conversion: SectionConversion = converted.into_iter().collect();
        let symbol = UpcomingSymbol::Elf { elf, name, file: None, conversion: &conversion };
        link.add(symbol).map(|id| link.get(id).unwrap().value.section())
    };
    for section in [usize::MAX, usize::MAX - 1] {
        assert_eq!(refused(add(section)), (14, 0));
    }
    let section = usize::MAX - 2;
    assert_eq!(add(section), Ok(Some(SectionId::new(section))));
    let entry = link.get_global(name).unwrap().id;
    assert_eq!(refused(link.gc_sections(&[0; 2], Some(entry))), (21, section));
}

#[test]
fn collections() {
    let mut link = Link::with_capacity(SMALL).unwrap();
    link.merge_elf(&object(&[("foo", 1, 1, 0)])).unwrap();
    assert_eq!(refused(link.gc_sections(&[0], None)), (1, 1));
    // An entry that isn't there leads nowhere, marks of no symbol too.
    let mut other = link.clone();
    let dropped = other.gc_sections(&[0, 0, 1, 1], Some(SymbolId::new(1000))).unwrap();
    assert_eq!(dropped.sections, [SectionId::new(0)]);
    // Section 3 was never built.
    let value = SymbolValue::Section { section: SectionId::new(3) };
    let name = link.intern(b"x").unwrap();
    let far = link.add(UpcomingSymbol::GlobalHidden { name, value }).unwrap();
    assert_eq!(refused(link.gc_sections(&[0; 3], Some(far))), (21, 3));
    assert!(!link.is_broken());
    let dropped = link.gc_sections(&[0; 3], None).unwrap();
    assert_eq!(dropped, Collected { sections: vec![SectionId::new(0)], symbols: 1 });
    assert!(matches!(link.sections().next(), Some(Section::Dropped { .. })));
}

/// A library of one global definition, foo, and where its soname starts.
fn library(name: LibraryName<'static>) -> (SharedObject<'static>, usize) {
    let (bytes, places) = strings(&["foo", "lib.so"]);
    let mut library = SharedObject::new(bytes, name);
    let name = places[0];
    library.push_symbol(ElfSymbol { name, binding: 1, section: 1, ..Default::default() });
    (library, places[1])
}

#[test]
fn libraries() {
    let mut link = Link::with_capacity(SMALL).unwrap();
    let (mut library, soname) = library(LibraryName::InsideArchive);
    assert_eq!(refused(link.load_shared_object(&library)), (25, 0));
    library.set_soname(soname);
    library.set_as_needed(true);
    assert_eq!(link.load_shared_object(&library), Ok(Load::NotNeeded));
    assert_eq!((link.name_count(), link.input_count()), (1, 0));
    unknown(&mut link, "foo").unwrap();
    assert_eq!(link.load_shared_object(&library), Ok(Load::Loaded));
    let Some(Input::Library { name, .. }) = link.inputs().next() else { panic!("an input") };
    assert_eq!(link.resolve(name).unwrap(), b"lib.so");
}

#[test]
fn libraries_with_missing_names() {
    let mut link = Link::with_capacity(SMALL).unwrap();
    let (good, soname) = library(LibraryName::InsideArchive);
    let mut library = good.clone();
    library.set_soname(1000);
    assert_eq!(refused(link.load_shared_object(&library)), (1, 0));
    // It has no soname either; the dependency comes first.
    let mut library = good;
    library.push_dependency(soname);
    library.push_dependency(1000);
    assert_eq!(refused(link.load_shared_object(&library)), (1, 1));
    assert!(!link.is_broken());
    assert_eq!((link.name_count(), link.symbol_count()), (1, 1));
}

#[test]
fn a_library_of_too_many_symbols() {
    let mut link = Link::with_capacity(SMALL).unwrap();
    let (mut library, _) = library(LibraryName::Known(b"lib.so"));
    (0..65_535).for_each(|_| library.push_symbol(ElfSymbol::default()));
    assert_eq!(refused(link.load_shared_object(&library)), (1, 65_535));
    assert!(!link.is_broken());
}

#[test]
fn more_inputs_than_the_bound() {
    let capacity = Capacity { inputs: usize::MAX, ..SMALL };
    let mut link = Link::with_capacity(capacity).unwrap();
    let library = SharedObject::new(vec![0], LibraryName::Known(b"lib.so"));
    for _ in 0..4_095 {
        assert_eq!(link.load_shared_object(&library), Ok(Load::Loaded));
    }
    assert_eq!(refused(link.load_shared_object(&library)), (2, 0));
    assert!(link.is_broken());
    assert_eq!(link.input_count(), 4_095);
}

#[test]
fn refusals_are_told_in_words() {
    let told = |cause, place| Refusal::new(cause, place).to_string();
    let duplicate = Cause::DuplicateStrong;
    assert_eq!(told(duplicate, 3), "duplicate strong definition, place 3 (refusal 17)");
    assert_eq!(told(duplicate, 0), "duplicate strong definition, place 0 (refusal 17)");
    assert_eq!(told(Cause::BrokenLink, 0), "changing call on a broken link (refusal 22)");
    assert_eq!(Cause::DuplicateStrong.to_string(), "duplicate strong definition");
    let cut = "section headers or table past the file's end, cut entry or empty group, place 2 (refusal 27)";
    assert_eq!(told(Cause::BadTable, 2), cut);
    let known = |number: &u64| (1..=31).contains(number);
    assert!((1..=31).filter(known).eq(Cause::ALL.iter().map(|cause| cause.number())));
    for number in 0..=32 {
        let cause = Cause::of_number(number);
        assert_eq!(cause.map(Cause::number), known(&number).then_some(number));
    }
}

#[test]
fn a_walk_that_meets_a_removed_name() {
    let mut link = Link::with_capacity(SMALL).unwrap();
    let removed = unknown(&mut link, "b").unwrap();
    link.remove(removed).unwrap();
    let mut walk = PendingArchive::new(&b"\0\0\0\x02\0\0\0\x08\0\0\0\x10a\0b\0"[..]).unwrap();
    let refusal = walk.next(&link).unwrap_err();
    assert_eq!((refusal.cause, refusal.place), (Cause::AbsentId, 1));
    let (archive, offset) = (0, 16);
    let about = About::Member { archive, offset, name: b"b".to_vec() };
    assert_eq!(refusal.about.as_deref(), Some(&about));
    assert_eq!(walk.entry(refusal.place), Some(IndexEntry { archive, offset, name: b"b" }));
    assert_eq!(walk.passes(), 0);
}

#[test]
fn a_walk_under_any_key() {
    let mut link = Link::with_capacity(SMALL).unwrap();
    unknown(&mut link, "a").unwrap();
    unknown(&mut link, "b").unwrap();
    let object = object(&[("a", 1, 1, 0), ("c", 1, 1, 0)]);
    let index = &b"\0\0\0\x03\0\0\0\x08\0\0\0\x10\0\0\0\x10a\0b\0c\0"[..];
    let told = |mut walk: PendingArchive<'_>| {
        let mut offers = Vec::new();
        while let Step::Member(member) = walk.next(&link).unwrap() {
            let names = walk.required(&member).map(<[u8]>::to_vec).collect::<Vec<_>>();
            let admitted = walk.admits(&link, &member, &object);
            offers.push((member.offset, member.passes, admitted, names));
        }
        (offers, walk.passes())
    };
    let (offers, passes) = told(PendingArchive::new(index).unwrap());
    let first = (8, 1, Ok(true), vec![b"a".to_vec()]);
    let second = (16, 1, Ok(false), vec![b"b".to_vec()]);
    assert_eq!((&offers[..], passes), (&[first, second][..], 2));
    for key in [0, 1, 0x1000_0000, u64::MAX] {
        assert_eq!(told(PendingArchive::with_key(key, index).unwrap()), (offers.clone(), passes));
    }
}

#[test]
fn a_walk_asked_for_another_walks_member() {
    let mut link = Link::with_capacity(SMALL).unwrap();
    unknown(&mut link, "a").unwrap();
    unknown(&mut link, "b").unwrap();
    let mut walk = PendingArchive::new(&b"\0\0\0\x02\0\0\0\x08\0\0\0\x10a\0b\0"[..]).unwrap();
    let other = PendingArchive::new(&b"\0\0\0\x01\0\0\0\x08z\0"[..]).unwrap();
    let object = object(&[("a", 1, 1, 0), ("b", 1, 1, 0)]);
    let mut next = || match walk.next(&link) {
        Ok(Step::Member(member)) => member,
        answer => panic!("{answer:?}"),
    };
    let [first, second] = [next(), next()];
    let name = |entry| walk.entry(entry).map(|entry| (entry.offset, entry.name));
    assert_eq!([0, 1, 2].map(name), [Some((8, &b"a"[..])), Some((16, b"b")), None]);
    assert_eq!((walk.entry_count(), walk.entry(usize::MAX)), (2, None));
    let admitted = [first, second].map(|member| walk.admits(&link, &member, &object));
    assert_eq!(admitted, [Ok(true), Ok(true)]);
    assert_eq!(other.admits(&link, &first, &object), Ok(false));
    assert_eq!(refused(other.admits(&link, &second, &object)), (1, 0));
    assert_eq!(other.required(&second).count(), 0);
}

#[test]
fn a_link_is_told_by_its_counts() {
    let mut link = Link::new();
    link.merge_elf(&object(&[("foo", 1, 1, 0)])).unwrap();
    let told = "Link { names: 3, name_bytes: 8, symbols: 2, sections: 1, inputs: 1, profile: Old, \
                broken: false, .. }";
    assert_eq!(format!("{link:?}"), told);
}
