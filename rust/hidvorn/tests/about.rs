//! What refusals are about, by name: symbols, sections, names, members, and who holds a name that
//! is defined twice.
mod support;

use hidvorn::*;
use std::fmt::Display;
use support::{object, object_of, strings};

const SMALL: Capacity = Capacity { names: 16, name_bytes: 64, symbols: 8, sections: 8, inputs: 4 };

const TEXT: usize = 1;

fn link() -> Link {
    Link::with_capacity(SMALL).expect("room for the null symbol")
}

fn told<T>(answer: Result<T, impl Display>) -> String {
    answer.err().expect("a refusal").to_string()
}

#[test]
fn who_holds_a_name() {
    let mut link = link();
    let kind = 4;
    let file = ElfSymbol { binding: 0, kind, section: 0xfff1, ..Default::default() };
    let mute = ElfSymbol { binding: 1, section: TEXT, ..Default::default() };
    link.merge_elf(&object_of(&[("core.c", file), ("mute", mute)])).unwrap();
    let name = link.find(b"mute").unwrap();
    let (value, size) = (SymbolValue::Absolute { value: 7 }, link.symbol_count());
    assert_eq!(
        told(link.add(UpcomingSymbol::GlobalHidden { name, value })),
        "duplicate strong definition, place 0, symbol `mute`, held by symbol 1 in section `.text` \
         of `core.c` (refusal 17)"
    );
    let stub = |name| ListedSymbol { elf: mute, name, file: None };
    let conversion: SectionConversion =
        [Converted::Nothing, Converted::Section(SectionId::new(0))].into_iter().collect();
    let listed = link.add_all(&[stub(name)], &conversion).unwrap_err();
    assert!(listed.to_string().starts_with("add 0: duplicate strong definition"), "{listed}");
    assert_eq!(listed.refusal, link.add(UpcomingSymbol::GlobalHidden { name, value }).unwrap_err());
    assert_eq!((link.symbol_count(), link.is_broken()), (size, false));

    let fixed = link.intern(b"fixed\n").unwrap();
    link.add(UpcomingSymbol::GlobalHidden { name: fixed, value }).unwrap();
    assert_eq!(
        told(link.add(UpcomingSymbol::GlobalHidden { name: fixed, value })),
        "duplicate strong definition, place 0, symbol `fixed\\n`, held by symbol 2 at the absolute 7 \
         (refusal 17)"
    );
    // The other object's section isn't built yet where a merge meets its own symbol again.
    assert_eq!(
        told(link.merge_elf(&object(&[("twice", 1, TEXT, 0), ("twice", 1, TEXT, 0)]))),
        "duplicate strong definition, place 2, symbol `twice`, held by symbol 3 in section 1 \
         (refusal 17)"
    );
    // A broken link is refused as a whole.
    assert_eq!(told(link.intern(b"mute")), "changing call on a broken link (refusal 22)");
    assert_eq!(
        told(link.add(UpcomingSymbol::GlobalUnknown { name })),
        "changing call on a broken link (refusal 22)"
    );
}

#[test]
fn symbols_of_objects_and_libraries() {
    let common = ElfSymbol { binding: 1, section: 0xfff2, ..Default::default() };
    assert_eq!(
        told(link().merge_elf(&object_of(&[("a", ElfSymbol::default()), ("buffer", common)]))),
        "common symbol whose alignment is zero or no power of two, place 2, symbol `buffer` (refusal 28)"
    );
    let missing = {
        let mut object = object(&[("a", 1, TEXT, 0)]);
        object.push_symbol(ElfSymbol { name: 1000, ..Default::default() });
        object.push_section(SectionHeader {
            content: SectionContent::SymbolTable { strings: 2, first: 0, count: 3 },
            ..Default::default()
        });
        object
    };
    // an empty name tells nothing
    assert_eq!(told(link().merge_elf(&missing)), "second symbol table, place 4 (refusal 24)");
    let (bytes, places) = strings(&["lib.so", "far"]);
    let mut library = SharedObject::new(bytes, LibraryName::Known(b"lib.so"));
    let name = places[1];
    library.push_symbol(ElfSymbol { name, binding: 5, section: 1, ..Default::default() });
    assert_eq!(
        told(link().load_shared_object(&library)),
        "unsupported symbol binding, place 0, symbol `far` (refusal 12)"
    );
}

#[test]
fn sections_of_objects() {
    let with = |content| {
        let mut object = object(&[("sig", 1, TEXT, 0)]);
        // named `sig` of the same table
        object.push_section(SectionHeader { name: 7, content, ..Default::default() });
        object
    };
    assert_eq!(
        told(link().merge_elf(&with(SectionContent::Dynamic))),
        "section of an unsupported kind, place 4, section `sig` (refusal 3)"
    );
    let group = |comdat, signature| {
        with(SectionContent::Group { table: 3, signature, comdat, sections: &[TEXT] })
    };
    let plain = group(false, 1);
    assert_eq!(
        told(link().merge_elf(&plain)),
        "section group that is not COMDAT, place 4, section `sig` (refusal 4)"
    );
    assert_eq!(
        told(link().add_group(&mut GroupMarks::new(&plain, 3), 4)),
        "section group that is not COMDAT, place 4, section `sig` (refusal 4)"
    );
    assert_eq!(
        told(link().merge_elf(&group(true, 9))),
        "section group whose signature symbol is missing, place 4, section `sig` (refusal 6)"
    );
}

#[test]
fn names() {
    let mut link = Link::with_capacity(Capacity { name_bytes: 4, ..SMALL }).unwrap();
    assert_eq!(
        told(link.intern(b"a long name")),
        "no free row, mark or name byte, place 0, name `a long name` (refusal 2)"
    );
    let name = link.intern(b"mute").unwrap();
    assert_eq!(told(link.get_global(name)), "unknown global name, name `mute` (refusal 23)");
    let id = link.add(UpcomingSymbol::GlobalUnknown { name }).unwrap();
    link.remove(id).unwrap();
    assert_eq!(
        told(link.get_global(name)),
        "absent or removed id, or section never built, place 1, name `mute` (refusal 21)"
    );
    assert_eq!(
        told(link.add(UpcomingSymbol::GlobalUnknown { name })),
        "absent or removed id, or section never built, place 1, symbol `mute` (refusal 21)"
    );
    // one that was never issued has none
    assert_eq!(told(link.get_global(Interned::new(9))), "unknown global name (refusal 23)");
}

/// The place of 1 and 2 may be a section's or a symbol's, a symbol's or a dependency's.
#[test]
fn one_of_two() {
    let two = object(&[("a", 1, TEXT, 0), ("b", 1, TEXT, 0)]);
    let full = Capacity { sections: 0, ..SMALL };
    assert_eq!(
        told(Link::with_capacity(full).unwrap().merge_elf(&two)),
        "no free row, mark or name byte, place 1, section `.text` or symbol `a` (refusal 2)"
    );
    let full = Capacity { symbols: 2, ..SMALL };
    assert_eq!(
        told(Link::with_capacity(full).unwrap().merge_elf(&two)),
        "no free row, mark or name byte, place 2, symbol `b` (refusal 2)"
    );
    let bad = ElfSymbol { binding: 1, kind: 77, ..Default::default() };
    let good = ElfSymbol { binding: 1, section: TEXT, ..Default::default() };
    assert_eq!(
        told(link().merge_elf(&object_of(&[("bad", bad)]))),
        "field out of range, list over its bound, index or mark list cut short, place 1, section \
         `.text` or symbol `bad` (refusal 1)"
    );
    let many = [("a", good), ("b", good), ("c", good), ("bad", bad)];
    assert_eq!(
        told(link().merge_elf(&object_of(&many))),
        "field out of range, list over its bound, index or mark list cut short, place 4, symbol \
         `bad` (refusal 1)"
    );
    let (bytes, places) = strings(&["lib.so", "far", "libc.so"]);
    let mut library = SharedObject::new(bytes, LibraryName::Known(b"lib.so"));
    library.push_symbol(ElfSymbol { name: places[1], binding: 16, ..Default::default() });
    library.push_dependency(places[2]);
    assert_eq!(
        told(link().load_shared_object(&library)),
        "field out of range, list over its bound, index or mark list cut short, place 0, symbol \
         `far` or dependency `libc.so` (refusal 1)"
    );
}

#[test]
fn members() {
    let mut link = link();
    let name = link.intern(b"mute").unwrap();
    link.add(UpcomingSymbol::GlobalUnknown { name }).unwrap();
    let mut walk = PendingArchive::new(&b"\0\0\0\x01\0\0\0\x3cmute\0"[..]).unwrap();
    let Ok(Step::Member(member)) = walk.next(&link) else { panic!("mute is undefined") };
    let mut bad = object(&[("mute", 1, TEXT, 0)]);
    bad.push_symbol(ElfSymbol { binding: 99, ..Default::default() });
    assert_eq!(
        told(walk.admits(&link, &member, &bad)),
        "field out of range, list over its bound, index or mark list cut short, place 2, member at \
         60 of archive 0, for `mute` (refusal 1)"
    );
}

/// Of a group by itself a symbol has its number in the table that was named, and 1 where the section
/// is no group is about that section alone.
#[test]
fn symbols_of_groups() {
    let (bytes, places) = strings(&["a", "b", "c", "d"]);
    let len = bytes.len();
    let mut object = Object::new(bytes);
    let header = |content| SectionHeader { content, ..Default::default() };
    object.push_section(header(SectionContent::StringTable { first: 0, len }));
    let table = |first| SectionContent::SymbolTable { strings: 0, first, count: 2 };
    object.push_section(SectionHeader { exclude: true, ..header(table(0)) });
    object.push_section(header(table(2)));
    let content = SectionContent::Group { table: 2, signature: 0, comdat: true, sections: &[1] };
    object.push_section(header(content));
    for (name, visibility) in places.into_iter().zip([0, 0, 0, 4]) {
        object.push_symbol(ElfSymbol { name, visibility, ..Default::default() });
    }
    let refused = |place, about: &str| {
        let words = "field out of range, list over its bound, index or mark list cut short";
        format!("{words}, place {place}{about} (refusal 1)")
    };
    let add = |object: &Object<'_>, table, section| {
        told(link().add_group(&mut GroupMarks::new(object, table), section))
    };
    assert_eq!(add(&object, 2, 3), refused(1, ", symbol `d`"));
    let other = object_of(&[("a", ElfSymbol::default())]);
    assert_eq!(add(&other, 3, 1), refused(1, ", section `.text`"));
}
