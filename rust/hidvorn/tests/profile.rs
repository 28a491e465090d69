//! The gABI profile beside the old one: what a name's row is after merges and loads, which members
//! a pass offers and which are admitted. The comparison with the Rust runs the old one only.
mod support;

use hidvorn::*;
use support::{refused, strings};

const SMALL: Capacity = Capacity { names: 8, name_bytes: 64, symbols: 8, sections: 8, inputs: 4 };
const BOTH: [Profile; 2] = [Profile::Old, Profile::Gabi];

const GLOBAL: u64 = 1;
const WEAK: u64 = 2;
const DEFAULT: u64 = 0;
const HIDDEN: u64 = 2;
const UNDEFINED: usize = 0;
const TEXT: usize = 1;

/// An object with a program section, `TEXT`, and one symbol `foo`.
fn object(binding: u64, visibility: u64, section: usize) -> Object<'static> {
    support::object(&[("foo", binding, section, visibility)])
}

/// A library that defines `foo`, global.
fn library(visibility: u64) -> SharedObject<'static> {
    let (bytes, places) = strings(&["foo"]);
    let mut library = SharedObject::new(bytes, LibraryName::Known(b"lib"));
    let name = places[0];
    let symbol =
        ElfSymbol { name, binding: GLOBAL, visibility, section: TEXT, ..Default::default() };
    library.push_symbol(symbol);
    library
}

fn link(profile: Profile) -> Link {
    Link::with_profile(profile, SMALL).unwrap()
}

fn foo(link: &Link) -> Symbol {
    link.get_global(link.find(b"foo").unwrap()).unwrap()
}

fn is_hidden(link: &Link) -> bool {
    matches!(foo(link).visibility, SymbolVisibility::Global { hidden: true, .. })
}

fn is_weak(link: &Link) -> bool {
    matches!(foo(link).visibility, SymbolVisibility::Global { weak: true, .. })
}

#[test]
fn chosen_when_it_is_made() {
    assert_eq!(Link::new().profile(), Profile::Old);
    for profile in BOTH {
        let mut link = link(profile);
        link.merge_elf(&object(GLOBAL, DEFAULT, TEXT)).unwrap();
        assert_eq!(link.profile(), profile);
        assert_eq!(refused(link.merge_elf(&object(GLOBAL, DEFAULT, TEXT))), (17, 1));
        assert!(link.is_broken());
        assert_eq!(link.profile(), profile);
        link.clear();
        assert_eq!(link.profile(), profile);
    }
}

#[test]
fn a_hidden_reference_hides_the_definition() {
    for profile in BOTH {
        let mut link = link(profile);
        link.merge_elf(&object(GLOBAL, HIDDEN, UNDEFINED)).unwrap();
        link.merge_elf(&object(GLOBAL, DEFAULT, TEXT)).unwrap();
        assert!(!foo(&link).value.is_undefined());
        assert_eq!(is_hidden(&link), profile == Profile::Gabi);
    }
}

#[test]
fn a_weak_hidden_definition_hides_the_row_that_stays() {
    for profile in BOTH {
        let mut link = link(profile);
        link.merge_elf(&object(GLOBAL, DEFAULT, TEXT)).unwrap();
        let before = foo(&link);
        link.merge_elf(&object(WEAK, HIDDEN, TEXT)).unwrap();
        assert_eq!(foo(&link).value, before.value);
        assert!(!is_weak(&link));
        assert_eq!(is_hidden(&link), profile == Profile::Gabi);
    }
}

#[test]
fn a_library_hides_nothing() {
    for profile in BOTH {
        let mut link = link(profile);
        link.load_shared_object(&library(HIDDEN)).unwrap();
        assert_eq!(foo(&link).value, SymbolValue::ExternallyDefined);
        assert_eq!(is_hidden(&link), profile == Profile::Old);
    }
    for profile in BOTH {
        let mut link = link(profile);
        link.merge_elf(&object(GLOBAL, DEFAULT, UNDEFINED)).unwrap();
        link.load_shared_object(&library(HIDDEN)).unwrap();
        assert_eq!(is_hidden(&link), profile == Profile::Old);
    }
}

#[test]
fn a_library_holds_a_hidden_name() {
    for profile in BOTH {
        let mut link = link(profile);
        link.merge_elf(&object(GLOBAL, HIDDEN, UNDEFINED)).unwrap();
        link.load_shared_object(&library(DEFAULT)).unwrap();
        assert_eq!(foo(&link).value, SymbolValue::ExternallyDefined);
        assert_eq!(is_hidden(&link), profile == Profile::Gabi);
    }
}

#[test]
fn a_refused_add_hides_nothing() {
    for profile in BOTH {
        let mut link = link(profile);
        link.merge_elf(&object(GLOBAL, DEFAULT, TEXT)).unwrap();
        assert_eq!(refused(link.merge_elf(&object(GLOBAL, HIDDEN, TEXT))), (17, 1));
        assert!(!is_hidden(&link));
    }
}

/// The null row stays as it is, whatever the visibility of an object's first symbol.
#[test]
fn the_first_symbol_hides_nothing() {
    for profile in BOTH {
        let mut object = Object::new(vec![0]);
        let header = |content| SectionHeader { content, ..Default::default() };
        object.push_section(header(SectionContent::Null));
        object.push_section(header(SectionContent::StringTable { first: 0, len: 1 }));
        object.push_symbol(ElfSymbol { binding: GLOBAL, visibility: HIDDEN, ..Default::default() });
        object.push_section(header(SectionContent::SymbolTable { strings: 1, first: 0, count: 1 }));
        let mut link = link(profile);
        link.merge_elf(&object).unwrap();
        let null = link.symbols().next().flatten().unwrap();
        assert_eq!(null.visibility, SymbolVisibility::Local);
        assert_eq!(link.symbol_count(), 1);
    }
}

/// An index that ties `foo` to a member at offset 60.
fn index() -> Vec<u8> {
    [&1u32.to_be_bytes()[..], &60u32.to_be_bytes(), b"foo\0"].concat()
}

#[test]
fn a_weak_reference_pulls_by_the_old_profile_only() {
    for (profile, passes) in [(Profile::Old, 2), (Profile::Gabi, 1)] {
        let mut link = link(profile);
        link.merge_elf(&object(WEAK, DEFAULT, UNDEFINED)).unwrap();
        let mut walk = PendingArchive::new(index()).unwrap();
        while let Step::Member(member) = walk.next(&link).unwrap() {
            assert_eq!((profile, member.offset), (Profile::Old, 60));
        }
        assert_eq!(walk.passes(), passes);
    }
}

#[test]
fn what_admits_a_member() {
    let cases = [
        (GLOBAL, TEXT, [true, true]),
        (GLOBAL, UNDEFINED, [true, false]),
        (WEAK, TEXT, [false, true]),
        (WEAK, UNDEFINED, [false, false]),
        (0, TEXT, [false, false]),
    ];
    for (binding, section, answers) in cases {
        for (profile, answer) in BOTH.into_iter().zip(answers) {
            let mut link = link(profile);
            link.merge_elf(&object(GLOBAL, DEFAULT, UNDEFINED)).unwrap();
            let mut walk = PendingArchive::new(index()).unwrap();
            let Step::Member(member) = walk.next(&link).unwrap() else { panic!("no member") };
            let offered = object(binding, DEFAULT, section);
            assert_eq!(walk.admits(&link, &member, &offered).unwrap(), answer);
        }
    }
}

// ---- a strong reference after a weak one (document 02, 2026-07)

/// A reference by the gABI's numbers.
fn reference(binding: u64, kind: u64, visibility: u64) -> ElfSymbol {
    ElfSymbol { binding, kind, visibility, ..Default::default() }
}

/// Adds `elf` directly under a name.
fn add(link: &mut Link, name: &str, elf: ElfSymbol, file: &str) -> Result<SymbolId, Refusal> {
    let (name, file) = (link.intern(name.as_bytes())?, link.intern(file.as_bytes())?);
    let conversion = &SectionConversion::new();
    link.add(UpcomingSymbol::Elf { elf, name, file: Some(file), conversion })
}

fn global(link: &Link, name: &str) -> Symbol {
    link.get_global(link.find(name.as_bytes()).unwrap()).unwrap()
}

/// Whether the name's row is a reference of that sort: weak, hidden, zero by default.
fn is_reference(link: &Link, name: &str, weak: bool, hidden: bool, default_zero: bool) -> bool {
    let Symbol { visibility, value, .. } = global(link, name);
    visibility == SymbolVisibility::Global { weak, hidden }
        && value == SymbolValue::Undefined { default_zero }
}

/// Whether the row of `clear` is the weak reference still.
fn clear_is_weak(link: &Link) -> bool {
    is_reference(link, "clear", true, false, true)
}

#[test]
fn a_strong_reference_takes_a_weak_ones_row() {
    for profile in BOTH {
        let mut link = link(profile);
        let id = add(&mut link, "clear", reference(WEAK, 1, DEFAULT), "weak.c").unwrap();
        assert!(is_reference(&link, "clear", true, false, true));
        assert_eq!(add(&mut link, "clear", reference(GLOBAL, 2, DEFAULT), "strong.c"), Ok(id));
        let held = global(&link, "clear");
        assert_eq!(held.id, id);
        match profile {
            Profile::Old => {
                assert!(is_reference(&link, "clear", true, false, true));
                assert_eq!((held.kind, held.file), (SymbolType::Object, link.find(b"weak.c")));
            }
            Profile::Gabi => {
                assert!(is_reference(&link, "clear", false, false, false));
                assert_eq!((held.kind, held.file), (SymbolType::Function, link.find(b"strong.c")));
            }
        }
        // Neither a later weak one nor a later strong one does.
        assert_eq!(add(&mut link, "clear", reference(WEAK, 0, DEFAULT), "w"), Ok(id));
        assert_eq!(add(&mut link, "clear", reference(GLOBAL, 1, DEFAULT), "s"), Ok(id));
        assert_eq!(global(&link, "clear"), held);
        assert_eq!(link.symbol_count(), 2);
    }
}

#[test]
fn a_strong_references_type_is_judged() {
    for profile in BOTH {
        let mut link = link(profile);
        assert_eq!(refused(add(&mut link, "clear", reference(GLOBAL, 4, DEFAULT), "")), (15, 0));
        let id = add(&mut link, "clear", reference(WEAK, 0, DEFAULT), "").unwrap();
        for (kind, number) in [(4, 15), (5, 16), (10, 16), (15, 16)] {
            let answer = add(&mut link, "clear", reference(GLOBAL, kind, HIDDEN), "");
            match profile {
                Profile::Old => assert_eq!(answer, Ok(id)),
                Profile::Gabi => assert_eq!(refused(answer), (number, 0)),
            }
            // A weak one's isn't, and a refused one hides nothing.
            assert_eq!(add(&mut link, "clear", reference(WEAK, kind, DEFAULT), ""), Ok(id));
            assert!(is_reference(&link, "clear", true, false, true));
        }
        assert!(!link.is_broken());
        // Nor is that of a strong one under a strong one.
        assert_eq!(add(&mut link, "clear", reference(GLOBAL, 3, DEFAULT), ""), Ok(id));
        assert_eq!(clear_is_weak(&link), profile == Profile::Old);
        assert_eq!(add(&mut link, "clear", reference(GLOBAL, 4, DEFAULT), ""), Ok(id));
    }
}

#[test]
fn a_bad_type_in_an_object_breaks_the_link() {
    for profile in BOTH {
        let mut link = link(profile);
        link.merge_elf(&support::object(&[("clear", WEAK, UNDEFINED, DEFAULT)])).unwrap();
        let typed = |kind| support::object_of(&[("clear", reference(GLOBAL, kind, DEFAULT))]);
        // Type 4 is a file's name there.
        link.merge_elf(&typed(4)).unwrap();
        assert!(clear_is_weak(&link));
        let answer = link.merge_elf(&typed(10));
        match profile {
            Profile::Old => drop(answer.unwrap()),
            Profile::Gabi => assert_eq!(refused(answer), (16, 1)),
        }
        assert_eq!(link.is_broken(), profile == Profile::Gabi);
        assert!(clear_is_weak(&link));
    }
}

#[test]
fn hidden_comes_from_either_reference() {
    for (weak, strong) in [(DEFAULT, HIDDEN), (HIDDEN, DEFAULT), (HIDDEN, HIDDEN)] {
        for profile in BOTH {
            let mut link = link(profile);
            link.merge_elf(&object(WEAK, weak, UNDEFINED)).unwrap();
            link.merge_elf(&object(GLOBAL, strong, UNDEFINED)).unwrap();
            match profile {
                Profile::Old => assert!(is_reference(&link, "foo", true, weak == HIDDEN, true)),
                Profile::Gabi => assert!(is_reference(&link, "foo", false, true, false)),
            }
        }
    }
}

#[test]
fn references_without_a_row_are_strong() {
    let undefined = |default_zero| SymbolValue::Undefined { default_zero };
    type Make = fn(Interned, SymbolValue) -> UpcomingSymbol<'static>;
    let unknown: Make = |name, _| UpcomingSymbol::GlobalUnknown { name };
    let made: Make = |name, value| UpcomingSymbol::GlobalHidden { name, value };
    let cases = [(unknown, false, false), (made, true, false), (made, true, true)];
    for (make, hidden, default_zero) in cases {
        for profile in BOTH {
            let mut link = link(profile);
            link.merge_elf(&object(WEAK, DEFAULT, UNDEFINED)).unwrap();
            let name = link.find(b"foo").unwrap();
            assert_eq!(link.add(make(name, undefined(default_zero))), Ok(foo(&link).id));
            match profile {
                Profile::Old => assert!(is_reference(&link, "foo", true, false, true)),
                Profile::Gabi => {
                    assert!(is_reference(&link, "foo", false, hidden, default_zero));
                }
            }
        }
    }
}

/// A definition in a section that a repeated group removes is a reference.
#[test]
fn a_repeated_groups_definition_is_a_strong_reference() {
    for profile in BOTH {
        let grouped = |binding, section| {
            let mut object =
                support::object(&[("g", WEAK, UNDEFINED, 0), ("foo", binding, section, 0)]);
            let (table, signature, comdat) = (3, 1, true);
            let content = SectionContent::Group { table, signature, comdat, sections: &[TEXT] };
            object.push_section(SectionHeader { content, ..Default::default() });
            object
        };
        let mut link = link(profile);
        link.merge_elf(&grouped(WEAK, UNDEFINED)).unwrap();
        link.merge_elf(&grouped(GLOBAL, TEXT)).unwrap();
        let weak = profile == Profile::Old;
        assert!(is_reference(&link, "foo", weak, false, weak));
    }
}

/// A weak definition is above a strong reference.
#[test]
fn a_strong_reference_leaves_a_weak_definition() {
    for profile in BOTH {
        let mut link = link(profile);
        link.merge_elf(&object(WEAK, DEFAULT, UNDEFINED)).unwrap();
        link.merge_elf(&object(GLOBAL, DEFAULT, UNDEFINED)).unwrap();
        link.merge_elf(&object(WEAK, DEFAULT, TEXT)).unwrap();
        let held = foo(&link);
        assert!(is_weak(&link) && !held.value.is_undefined());
        link.merge_elf(&object(GLOBAL, DEFAULT, UNDEFINED)).unwrap();
        assert_eq!(foo(&link), held);
    }
}

/// The title of document 02: it calls `clear` weakly in one object and strongly in another.
fn title(profile: Profile) -> Link {
    let mut link = link(profile);
    for binding in [WEAK, GLOBAL] {
        link.merge_elf(&support::object(&[("clear", binding, UNDEFINED, DEFAULT)])).unwrap();
    }
    link
}

/// An index of these names and offsets.
fn index_of(entries: &[(&str, u32)]) -> Vec<u8> {
    let mut bytes = (entries.len() as u32).to_be_bytes().to_vec();
    bytes.extend(entries.iter().flat_map(|(_, offset)| offset.to_be_bytes()));
    for (name, _) in entries {
        bytes.extend([name.as_bytes(), &[0]].concat());
    }
    bytes
}

/// A library that defines `clear`, to be loaded if it is needed.
fn library_of_clear() -> SharedObject<'static> {
    let (bytes, places) = strings(&["clear"]);
    let mut library = SharedObject::new(bytes, LibraryName::Known(b"lib"));
    let (name, section) = (places[0], TEXT);
    library.push_symbol(ElfSymbol { name, section, ..reference(GLOBAL, 2, DEFAULT) });
    library.set_as_needed(true);
    library
}

#[test]
fn the_titles_walk() {
    for profile in BOTH {
        let mut link = title(profile);
        let id = global(&link, "clear").id;
        let weak = profile == Profile::Old;
        assert!(is_reference(&link, "clear", weak, false, weak));

        let mut walk = PendingArchive::new(index_of(&[("clear", 60)])).unwrap();
        let Step::Member(member) = walk.next(&link).unwrap() else { panic!("no member") };
        assert_eq!((member.offset, member.passes), (60, 1));
        let defines = support::object(&[("clear", GLOBAL, TEXT, DEFAULT)]);
        assert!(walk.admits(&link, &member, &defines).unwrap());
        link.merge_elf(&defines).unwrap();
        assert_eq!(walk.next(&link).unwrap(), Step::Done { passes: 2 });

        let clear = global(&link, "clear");
        assert_eq!(clear.id, id);
        assert_eq!(clear.value.section(), Some(SectionId::new(2)));
        assert_eq!(link.load_shared_object(&library_of_clear()).unwrap(), Load::NotNeeded);
    }
}

/// What the walk's own members refer to counts from the next pass on.
#[test]
fn a_members_strong_reference_pulls_in_the_next_pass() {
    for profile in BOTH {
        let mut link = link(profile);
        let symbols = [("mute", GLOBAL, UNDEFINED, DEFAULT), ("clear", WEAK, UNDEFINED, DEFAULT)];
        link.merge_elf(&support::object(&symbols)).unwrap();
        let index = index_of(&[("mute", 60), ("clear", 120)]);
        let mut walk = PendingArchive::new(index).unwrap();
        let mut offers = Vec::new();
        while let Step::Member(member) = walk.next(&link).unwrap() {
            offers.push((member.offset, member.passes));
            let symbols = match member.offset {
                60 => vec![("mute", GLOBAL, TEXT, DEFAULT), ("clear", GLOBAL, UNDEFINED, DEFAULT)],
                _ => vec![("clear", GLOBAL, TEXT, DEFAULT)],
            };
            let object = support::object(&symbols);
            assert!(walk.admits(&link, &member, &object).unwrap());
            link.merge_elf(&object).unwrap();
        }
        let (second, passes) = if profile == Profile::Old { (1, 2) } else { (2, 3) };
        assert_eq!(offers, [(60, 1), (120, second)]);
        assert_eq!(walk.passes(), passes);
        assert!(!global(&link, "clear").value.is_undefined());
    }
}

/// A walk that is done stays done.
#[test]
fn a_strong_reference_after_the_walk() {
    let mut link = link(Profile::Gabi);
    link.merge_elf(&object(WEAK, DEFAULT, UNDEFINED)).unwrap();
    let mut walk = PendingArchive::new(index()).unwrap();
    assert_eq!(walk.next(&link).unwrap(), Step::Done { passes: 1 });
    link.merge_elf(&object(GLOBAL, DEFAULT, UNDEFINED)).unwrap();
    assert_eq!(walk.next(&link).unwrap(), Step::Done { passes: 1 });
    let mut walk = PendingArchive::new(index()).unwrap();
    assert!(matches!(walk.next(&link).unwrap(), Step::Member(Member { offset: 60, .. })));
}

#[test]
fn the_titles_library() {
    for profile in BOTH {
        let mut weak = link(profile);
        weak.merge_elf(&support::object(&[("clear", WEAK, UNDEFINED, DEFAULT)])).unwrap();
        assert_eq!(weak.load_shared_object(&library_of_clear()).unwrap(), Load::NotNeeded);

        let mut link = title(profile);
        let loaded = link.load_shared_object(&library_of_clear()).unwrap();
        let mut walk = PendingArchive::new(index_of(&[("clear", 60)])).unwrap();
        let step = walk.next(&link).unwrap();
        match profile {
            Profile::Old => {
                assert_eq!(loaded, Load::NotNeeded);
                assert!(clear_is_weak(&link));
                assert!(matches!(step, Step::Member(Member { offset: 60, .. })));
            }
            Profile::Gabi => {
                assert_eq!(loaded, Load::Loaded);
                assert_eq!(global(&link, "clear").value, SymbolValue::ExternallyDefined);
                assert_eq!(step, Step::Done { passes: 1 });
            }
        }
    }
}
