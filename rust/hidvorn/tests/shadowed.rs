//! What a walk passes by: a weak definition's member that is not offered, a name that stays
//! undefined though its member is; and what is told of neither.
mod support;

use hidvorn::*;
use support::{object, object_of, refused};

/// The System V index of an archive: count, offsets, zero-ended names.
fn index(entries: &[(&str, u32)]) -> Vec<u8> {
    let mut out = (entries.len() as u32).to_be_bytes().to_vec();
    out.extend(entries.iter().flat_map(|(_, offset)| offset.to_be_bytes()));
    out.extend(entries.iter().flat_map(|(name, _)| [name.as_bytes(), &[0]].concat()));
    out
}

const STRONG: u64 = 1;
const WEAK: u64 = 2;

/// A link of that profile with these symbols: binding, and a definition (1) or a reference (0).
fn link(profile: Profile, symbols: &[(&str, u64, usize)]) -> Link {
    let mut link = Link::with_profile(profile, Capacity::default()).unwrap();
    let rows: Vec<_> = symbols.iter().map(|&(name, binding, at)| (name, binding, at, 0)).collect();
    link.merge_elf(&object(&rows)).unwrap();
    link
}

/// The entries that are told, and whether each name is undefined.
fn told(walk: &PendingArchive<'_>, link: &Link) -> Vec<(usize, bool)> {
    let told = walk.shadowed(link).unwrap();
    let undefined =
        |told: &Shadowed<'_>| matches!(told.holder.value, SymbolValue::Undefined { .. });
    told.iter().map(|told| (told.entry, undefined(told))).collect()
}

fn walked(walk: &mut PendingArchive<'_>, link: &Link) -> Vec<u64> {
    let mut offered = Vec::new();
    while let Step::Member(member) = walk.next(link).unwrap() {
        offered.push(member.offset);
    }
    offered
}

#[test]
fn weak_definitions_shadow_members() {
    for profile in [Profile::Old, Profile::Gabi] {
        let core = [("mute", WEAK, 1), ("mix", STRONG, 1), ("play", STRONG, 0), ("fade", WEAK, 1)];
        let link = link(profile, &core);
        // Of mute two members, one of them offered for play; mix is strong; nobody asks for blank.
        let entries =
            [("mute", 60), ("mix", 60), ("play", 70), ("mute", 70), ("fade", 80), ("blank", 90)];
        let mut walk = PendingArchive::new(index(&entries)).unwrap();
        assert_eq!(told(&walk, &link), [(0, false), (3, false), (4, false)]);
        assert_eq!(walked(&mut walk, &link), [70]);
        // play stays undefined, since the member wasn't merged.
        assert_eq!(told(&walk, &link), [(0, false), (2, true), (4, false)]);
        let shadowed = walk.shadowed(&link).unwrap()[0];
        assert_eq!((shadowed.name, shadowed.offset), (&b"mute"[..], 60));
        let weak = SymbolVisibility::Global { weak: true, hidden: false };
        assert_eq!(shadowed.holder.visibility, weak);
    }
}

#[test]
fn a_queued_member_is_not_offered_yet() {
    let mut link =
        link(Profile::Old, &[("one", STRONG, 0), ("two", STRONG, 0), ("three", WEAK, 1)]);
    let entries = [("one", 60), ("two", 70), ("three", 70)];
    let mut walk = PendingArchive::new(index(&entries)).unwrap();
    assert!(matches!(walk.next(&link), Ok(Step::Member(Member { offset: 60, .. }))));
    assert_eq!(told(&walk, &link), [(0, true), (2, false)]);
    assert!(matches!(walk.next(&link), Ok(Step::Member(Member { offset: 70, .. }))));
    assert_eq!(told(&walk, &link), [(0, true), (1, true)]);
    link.merge_elf(&object(&[("one", STRONG, 1, 0), ("two", STRONG, 1, 0)])).unwrap();
    assert!(matches!(walk.next(&link), Ok(Step::Done { .. })));
    assert_eq!(told(&walk, &link), []);
}

#[test]
fn a_weak_reference_is_told_where_its_member_was_offered() {
    for (profile, offered) in [(Profile::Old, vec![60]), (Profile::Gabi, vec![])] {
        let link = link(profile, &[("clear", WEAK, 0)]);
        let mut walk = PendingArchive::new(index(&[("clear", 60)])).unwrap();
        assert_eq!(walked(&mut walk, &link), offered);
        assert_eq!(told(&walk, &link).len(), offered.len());
    }
}

#[test]
fn removed_names_and_broken_links() {
    let mut link = link(Profile::Old, &[("mute", WEAK, 1), ("fade", WEAK, 1)]);
    let mut walk = PendingArchive::new(index(&[("mute", 60), ("fade", 70)])).unwrap();
    assert_eq!(walked(&mut walk, &link), []);
    let mute = link.find(b"mute").unwrap();
    link.remove(link.get_global(mute).unwrap().id).unwrap();
    assert_eq!(told(&walk, &link), [(1, false)]);
    // A name that is defined twice breaks the link, which still answers.
    let twice = object(&[("x", STRONG, 1, 0), ("x", STRONG, 1, 0)]);
    assert_eq!(refused(link.merge_elf(&twice)), (17, 2));
    assert!(link.is_broken());
    assert_eq!(told(&walk, &link), [(1, false)]);
}

/// A symbol's row with every field that a row of the link keeps.
fn row(binding: u64, kind: u64, visibility: u64, section: usize) -> ElfSymbol {
    ElfSymbol { binding, kind, visibility, section, value: 8, size: 4, ..Default::default() }
}

/// A link of that profile with one symbol `mute`.
fn mute_alone(profile: Profile, mute: ElfSymbol) -> Link {
    let mut link = Link::with_profile(profile, Capacity::default()).unwrap();
    link.merge_elf(&object_of(&[("mute", mute)])).unwrap();
    link
}

#[test]
fn of_every_type_and_visibility() {
    for profile in [Profile::Old, Profile::Gabi] {
        for (kind, visibility) in [(0, 0), (1, 0), (2, 0), (3, 0), (0, 2), (1, 2), (2, 2), (3, 2)] {
            let walk = PendingArchive::new(index(&[("mute", 60)])).unwrap();
            let weak = mute_alone(profile, row(WEAK, kind, visibility, 1));
            assert_eq!(told(&walk, &weak), [(0, false)], "type {kind}");
            let strong = mute_alone(profile, row(STRONG, kind, visibility, 1));
            assert_eq!(told(&walk, &strong), [], "type {kind}");
        }
    }
}

/// A common is a definition: a weak one is told, a global one is not.
#[test]
fn commons() {
    for profile in [Profile::Old, Profile::Gabi] {
        let walk = PendingArchive::new(index(&[("mute", 60)])).unwrap();
        let weak = mute_alone(profile, row(WEAK, 1, 0, 0xfff2));
        assert_eq!(told(&walk, &weak), [(0, false)]);
        let global = mute_alone(profile, row(STRONG, 1, 0, 0xfff2));
        assert_eq!(told(&walk, &global), []);
    }
}

/// A member that is offered and not admitted is told by `admits`, not here.
#[test]
fn members_that_are_not_admitted() {
    let core = [("mute", WEAK, 1), ("play", STRONG, 0)];
    let sound = object(&[("play", WEAK, 1, 0), ("mute", STRONG, 1, 0)]);
    for (profile, admitted) in [(Profile::Old, false), (Profile::Gabi, true)] {
        let link = link(profile, &core);
        let mut walk = PendingArchive::new(index(&[("play", 70), ("mute", 70)])).unwrap();
        let Step::Member(member) = walk.next(&link).unwrap() else { panic!("play is undefined") };
        assert_eq!(walk.admits(&link, &member, &sound).unwrap(), admitted);
        // play is undefined, and its member was offered.
        assert_eq!(told(&walk, &link), [(0, true)]);
    }
}
