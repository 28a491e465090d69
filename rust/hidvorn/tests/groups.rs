//! Groups of several sections: all of a repeated one are removed, with their symbols; a section is
//! listed by one group; and what the gABI's profile drops.
mod support;

use hidvorn::*;
use support::{refused, strings};

const BOTH: [Profile; 2] = [Profile::Old, Profile::Gabi];
const LOCAL: u64 = 0;
const GLOBAL: u64 = 1;
const WEAK: u64 = 2;

/// A group: what it lists, the name of its signature, which is symbol 1 or 2 (`f` or `g`), or none.
#[derive(Clone, Copy)]
struct Group<'c> {
    sections: &'c [usize],
    signature: &'c str,
    comdat: bool,
    exclude: bool,
}

const fn group<'c>(signature: &'c str, sections: &'c [usize]) -> Group<'c> {
    Group { sections, signature, comdat: true, exclude: false }
}

const TABLE: usize = 1;
const STRINGS: usize = 5;
/// The first group's section; then the others.
const GROUPS: usize = 6;

/// Sections: 1 the symbol table, 2 to 4 programs (`.2` to `.4`), 5 strings, from 6 on the groups, then relocations of
/// a program section by a symbol's number. Symbols: 0 null, 1 `f`, 2 `g`, both weak references, then these.
fn object(
    groups: &[Group],
    symbols: &[(&str, ElfSymbol)],
    related: &[(usize, usize)],
) -> Object<'static> {
    let own: Vec<_> = symbols.iter().map(|(name, _)| *name).collect();
    let names = [&[".2", ".3", ".4", "f", "g"][..], &own].concat();
    let (bytes, places) = strings(&names);
    let len = bytes.len();
    let mut object = Object::new(bytes);
    let header = |content| SectionHeader { content, ..Default::default() };
    object.push_section(header(SectionContent::Null));
    let count = 3 + symbols.len();
    object.push_section(header(SectionContent::SymbolTable { strings: STRINGS, first: 0, count }));
    for name in &places[..3] {
        let content = SectionContent::Program;
        object.push_section(SectionHeader { name: *name, read: true, ..header(content) });
    }
    object.push_section(header(SectionContent::StringTable { first: 0, len }));
    object.set_section_names(STRINGS);
    for Group { sections, signature, comdat, exclude } in groups.iter().copied() {
        let signature = match signature {
            "f" => 1,
            "g" => 2,
            _ => 99,
        };
        let content = SectionContent::Group { table: TABLE, signature, comdat, sections };
        object.push_section(SectionHeader { exclude, ..header(content) });
    }
    for (section, symbol) in related {
        let relocations = Relocations {
            table: TABLE,
            applies_to: *section,
            symbols: std::slice::from_ref(symbol),
        };
        object.push_section(header(SectionContent::Rela(relocations)));
    }
    object.push_symbol(ElfSymbol::default());
    for name in &places[3..5] {
        object.push_symbol(ElfSymbol { name: *name, binding: WEAK, ..Default::default() });
    }
    for ((_, symbol), name) in symbols.iter().zip(&places[5..]) {
        // A name that is given stays.
        let name = if symbol.name == 0 { *name } else { symbol.name };
        object.push_symbol(ElfSymbol { name, ..*symbol });
    }
    object
}

/// A symbol of a section.
fn symbol(binding: u64, section: usize) -> ElfSymbol {
    ElfSymbol { binding, section, value: 4, ..Default::default() }
}

/// A link of that profile that knows the signature `f`, by an object with a group of no section.
fn met(profile: Profile) -> Link {
    let mut link = Link::with_profile(profile, Capacity::BOUNDS).unwrap();
    link.merge_elf(&object(&[group("f", &[60])], &[], &[])).unwrap();
    link
}

/// Of the sections 2 to 4 of the object merged last, which are built.
fn built(link: &Link) -> Vec<bool> {
    let sections: Vec<_> = link.sections().collect();
    let last = &sections[sections.len() - 3..];
    last.iter().map(|section| matches!(section, Section::Built { .. })).collect()
}

fn is_undefined(link: &Link, name: &[u8]) -> bool {
    let name = link.find(name).unwrap();
    matches!(link.get_global(name).unwrap().value, SymbolValue::Undefined { .. })
}

#[test]
fn all_that_a_repeated_group_lists_is_removed() {
    for profile in BOTH {
        let mut link = met(profile);
        let symbols =
            [("a", symbol(GLOBAL, 2)), ("b", symbol(GLOBAL, 3)), ("c", symbol(GLOBAL, 4))];
        link.merge_elf(&object(&[group("f", &[3, 2])], &symbols, &[])).unwrap();
        assert_eq!(built(&link), [false, false, true]);
        let undefined = [&b"a"[..], b"b", b"c"].map(|name| is_undefined(&link, name));
        assert_eq!(undefined, [true, true, false]);
        // The first group of a signature keeps all of its own.
        let symbols = [("d", symbol(GLOBAL, 3))];
        link.merge_elf(&object(&[group("g", &[2, 3, 4])], &symbols, &[])).unwrap();
        assert_eq!(built(&link), [true; 3]);
        assert!(!is_undefined(&link, b"d"));
        link.merge_elf(&object(&[group("g", &[2, 3, 4])], &symbols, &[])).unwrap();
        assert_eq!(built(&link), [false; 3]);
    }
}

#[test]
fn two_groups_of_one_signature_in_one_object() {
    for profile in BOTH {
        let mut link = Link::with_profile(profile, Capacity::BOUNDS).unwrap();
        link.merge_elf(&object(&[group("f", &[2]), group("f", &[3])], &[], &[])).unwrap();
        assert_eq!(built(&link), [true, false, true]);
    }
}

#[test]
fn a_section_that_two_groups_list() {
    for profile in BOTH {
        let mut link = met(profile);
        for (groups, refusal) in [
            // both new; the first a repeat; another between them
            (&[group("g", &[2]), group("g", &[2])][..], (29, GROUPS + 1)),
            (&[group("f", &[3, 2]), group("g", &[4, 2])], (29, GROUPS + 1)),
            (&[group("g", &[2]), group("f", &[3]), group("f", &[4, 3])], (29, GROUPS + 2)),
            // after 4 and 5, before 6
            (&[group("g", &[2]), Group { comdat: false, ..group("g", &[2]) }], (4, GROUPS + 1)),
            (&[group("g", &[2]), group("f", &[])], (5, GROUPS + 1)),
            (&[group("g", &[2]), group("", &[2])], (29, GROUPS + 1)),
            (&[group("g", &[2]), group("", &[3])], (6, GROUPS + 1)),
            // the null section, the table, a group's own number, an excluded group's
            (&[group("g", &[0]), group("f", &[0])], (29, GROUPS + 1)),
            (&[group("g", &[TABLE]), group("f", &[2, TABLE])], (29, GROUPS + 1)),
            (&[group("g", &[GROUPS]), group("f", &[GROUPS])], (29, GROUPS + 1)),
        ] {
            let before = link.clone();
            assert_eq!(refused(link.merge_elf(&object(groups, &[], &[]))), refusal);
            assert!(link.is_broken());
            link = before;
        }
        for groups in [
            // twice in one group; a number that no section has; an excluded group's
            &[group("f", &[2, 2])][..],
            &[group("g", &[9]), group("f", &[9])],
            &[Group { exclude: true, ..group("g", &[2]) }, group("f", &[2])],
        ] {
            link.clone().merge_elf(&object(groups, &[], &[])).unwrap();
        }
        link.merge_elf(&object(&[group("f", &[2, 2])], &[], &[])).unwrap();
        assert_eq!(built(&link), [false, true, true]);
    }
}

/// By its name, and by both groups' signatures.
#[test]
fn which_groups_list_it() {
    let two = [group("f", &[4, 3]), group("g", &[2, 3])];
    let told =
        |groups: &[Group]| met(Profile::Old).merge_elf(&object(groups, &[], &[])).unwrap_err();
    assert_eq!(
        told(&two).to_string(),
        "section that two groups of one object list, place 7, section 3 `.3`, in the groups `f` and \
         `g` (refusal 29)"
    );
    let none = [group("g", &[3]), group("", &[3])];
    assert_eq!(
        told(&none).to_string(),
        "section that two groups of one object list, place 7, section 3 `.3`, in the groups `g` and \
         (without signature) (refusal 29)"
    );
    let empty = [group("g", &[])];
    assert_eq!(
        told(&empty).to_string(),
        "section group that lists no section, place 6 (refusal 5)"
    );
    // By themselves the groups may come in any order.
    let object = object(&two, &[], &[]);
    let (mut link, mut marks) = (met(Profile::Old), GroupMarks::new(&object, TABLE));
    link.add_group(&mut marks, GROUPS + 1).unwrap();
    let alone = link.add_group(&mut marks, GROUPS).unwrap_err();
    assert_eq!(
        alone.to_string(),
        "section that two groups of one object list, place 6, section 3 `.3`, in the groups `g` and \
         `f` (refusal 29)"
    );

    // A group that a repeated one removes is no group before itself.
    let three = [group("f", &[2]), group("f", &[GROUPS + 2, 3]), group("g", &[4, 3])];
    let object = self::object(&three, &[], &[]);
    let (mut link, mut marks) = (met(Profile::Old), GroupMarks::new(&object, TABLE));
    link.add_group(&mut marks, GROUPS).unwrap();
    link.add_group(&mut marks, GROUPS + 1).unwrap();
    let alone = link.add_group(&mut marks, GROUPS + 2).unwrap_err();
    assert_eq!(alone, told(&three));
    assert_eq!(
        alone.to_string(),
        "section that two groups of one object list, place 8, section 3 `.3`, in the groups `f` and \
         `g` (refusal 29)"
    );
}

#[test]
fn groups_by_themselves() {
    for profile in BOTH {
        let mut link = met(profile);
        let object = object(&[group("f", &[2, 70, 3]), group("g", &[4])], &[], &[]);
        let mut marks = GroupMarks::new(&object, TABLE);
        assert!(!marks.is_listed(2));
        link.add_group(&mut marks, GROUPS).unwrap();
        let removed: Vec<_> = (0..80).filter(|section| marks.is_removed(*section)).collect();
        assert_eq!(removed, [2, 3, 70]);
        let listed: Vec<_> = (0..80).filter(|section| marks.is_listed(*section)).collect();
        assert_eq!(listed, [2, 3]);
        // The same again is a second group.
        assert_eq!(refused(link.add_group(&mut marks, GROUPS)), (29, GROUPS));
        assert!(!link.is_broken());
        link.add_group(&mut marks, GROUPS + 1).unwrap();
        assert!(marks.is_group(GROUPS + 1) && !marks.is_removed(4));
    }
}

/// A mark is lent for each number below 65,280 that a group lists; where one is missing no section of
/// the group is marked.
#[test]
fn a_number_without_a_mark() {
    for profile in BOTH {
        let mut link = met(profile);
        let object = object(&[group("f", &[2, 65_280, 3])], &[], &[]);
        let mut marks = GroupMarks::new(&object, TABLE);
        assert_eq!(refused(link.add_group(&mut marks, GROUPS)), (2, GROUPS));
        assert!(!(0..80).any(|section| marks.is_removed(section) || marks.is_listed(section)));
        assert_eq!(refused(link.merge_elf(&object)), (2, GROUPS));
        assert!(link.is_broken());
    }
}

#[test]
fn a_local_of_a_removed_section() {
    let repeated = [group("f", &[2, 3])];
    // Its name isn't there; behind it a local one whose file the one of type 4 would have named.
    let unnamed = ElfSymbol { name: 10_000, ..symbol(LOCAL, 3) };
    let file = |section| ElfSymbol { kind: 4, ..symbol(LOCAL, section) };
    let symbols = [
        ("kept.c", file(0xfff1)),
        ("x", unnamed),
        ("dropped.c", file(3)),
        ("y", symbol(LOCAL, 4)),
        ("z", symbol(GLOBAL, 3)),
    ];
    let mut link = met(Profile::Old);
    assert_eq!(refused(link.merge_elf(&object(&repeated, &symbols, &[]))), (8, 4));
    assert!(link.is_broken());

    let mut link = met(Profile::Gabi);
    // What an earlier merge left in the ids' cells doesn't matter.
    let many: Vec<_> = (0..20).map(|_| ("local", symbol(LOCAL, 4))).collect();
    link.merge_elf(&object(&[], &many, &[])).unwrap();
    let (names, symbols_before) = (link.name_count(), link.symbol_count());
    let merged = link.merge_elf(&object(&repeated, &symbols, &[])).unwrap();
    let ids: Vec<_> = merged.symbols().map(|id| id.is_some()).collect();
    assert_eq!(ids, [true, true, true, false, false, false, true, true]);
    let y = merged.symbol(6).unwrap();
    let file = link.get(y).unwrap().file.unwrap();
    assert_eq!(link.resolve(file).unwrap(), b"kept.c");
    // kept.c, y and z were issued; y and z are new, f and g were there.
    assert_eq!((link.name_count(), link.symbol_count()), (names + 3, symbols_before + 2));
    assert_eq!(link.find(b"dropped.c"), None);
    assert!(is_undefined(&link, b"z"));
}

#[test]
fn symbol_0_of_a_removed_section() {
    let with_first = || {
        let (bytes, places) = strings(&["f"]);
        let len = bytes.len();
        let mut object = Object::new(bytes);
        let header = |content| SectionHeader { content, ..Default::default() };
        object.push_section(header(SectionContent::Null));
        object.push_section(header(SectionContent::SymbolTable { strings: 2, first: 0, count: 2 }));
        object.push_section(header(SectionContent::StringTable { first: 0, len }));
        object.push_section(header(SectionContent::Program));
        let content =
            SectionContent::Group { table: 1, signature: 1, comdat: true, sections: &[3, 70] };
        object.push_section(header(content));
        object.set_section_names(2);
        object.push_symbol(ElfSymbol { section: 3, ..Default::default() });
        object.push_symbol(ElfSymbol { name: places[0], binding: WEAK, ..Default::default() });
        object
    };
    assert_eq!(refused(met(Profile::Old).merge_elf(&with_first())), (8, 0));
    let mut link = met(Profile::Gabi);
    let merged = link.merge_elf(&with_first()).unwrap();
    assert_eq!(merged.symbols().map(|id| id.is_some()).collect::<Vec<_>>(), [false, true]);
}

/// By a section that is kept; what a removed one names isn't looked at.
#[test]
fn a_relocation_to_a_dropped_symbol() {
    let repeated = [group("f", &[2, 3])];
    let symbols = [("x", symbol(LOCAL, 3)), ("y", symbol(GLOBAL, 3))];
    for (related, refusal) in [
        (&[(4, 3)][..], Some((19, 4))),
        (&[(2, 3)], None),
        (&[(4, 4)], None),
        // the last table for a section counts
        (&[(4, 3), (4, 4)], None),
        (&[(4, 4), (4, 3)], Some((19, 4))),
    ] {
        let mut link = met(Profile::Gabi);
        let many: Vec<_> = (0..20).map(|_| ("local", symbol(LOCAL, 4))).collect();
        link.merge_elf(&object(&[], &many, &[])).unwrap();
        let merged = link.merge_elf(&object(&repeated, &symbols, related)).map(|_| ());
        match refusal {
            Some(refusal) => assert_eq!(refused(merged), refusal),
            None => merged.unwrap(),
        }
        assert_eq!(refusal.is_some(), link.is_broken());
        // Where the group is the first of its signature all are there.
        let mut link = Link::with_profile(Profile::Gabi, Capacity::BOUNDS).unwrap();
        link.merge_elf(&object(&repeated, &symbols, related)).unwrap();
    }
    // A relocation table that a repeated group lists counts as before.
    let mut link = met(Profile::Old);
    let listing = [group("f", &[2, GROUPS + 1])];
    link.merge_elf(&object(&listing, &[("y", symbol(GLOBAL, 3))], &[(4, 3)])).unwrap();
    let sections: Vec<_> = link.sections().collect();
    let Some(Section::Built { relocations, .. }) = sections.last() else { panic!("it is built") };
    assert_eq!(relocations.len(), 1);
}
