//! Walks over several archives: what a start is refused for, members known by archive and offset,
//! one archive walked as alone.
mod support;

use hidvorn::*;
use support::{object, refused};

const BOTH: [Profile; 2] = [Profile::Old, Profile::Gabi];
const STRONG: u64 = 1;
const WEAK: u64 = 2;

/// The System V index of an archive: count, offsets, zero-ended names.
fn index(entries: &[(&str, u32)]) -> Vec<u8> {
    let mut out = (entries.len() as u32).to_be_bytes().to_vec();
    out.extend(entries.iter().flat_map(|(_, offset)| offset.to_be_bytes()));
    out.extend(entries.iter().flat_map(|(name, _)| [name.as_bytes(), &[0]].concat()));
    out
}

fn link(profile: Profile, symbols: &[(&str, u64, usize)]) -> Link {
    let mut link = Link::with_profile(profile, Capacity::BOUNDS).unwrap();
    let rows: Vec<_> = symbols.iter().map(|&(name, binding, at)| (name, binding, at, 0)).collect();
    link.merge_elf(&object(&rows)).unwrap();
    link
}

/// Every member that is offered, with the passes made; then the passes at the end.
fn offers(walk: &mut PendingArchive<'_>, link: &Link) -> (Vec<(usize, u64, u64)>, u64) {
    let mut all = Vec::new();
    loop {
        match walk.next(link).unwrap() {
            Step::Member(member) => all.push((member.archive, member.offset, member.passes)),
            Step::Done { passes } => return (all, passes),
        }
    }
}

fn started(bytes: &[u8], ends: &[u64]) -> Result<usize, (u64, usize)> {
    let walk = PendingArchive::with_ends(7, bytes, ends);
    walk.map(|walk| walk.entry_count()).map_err(|refusal| (refusal.number(), refusal.place))
}

#[test]
fn what_a_start_is_refused_for() {
    let one = index(&[("a", 8)]);
    let two = index(&[("a", 8), ("b", 16)]);
    let (short, len) = ([0, 0, 0], one.len() as u64);
    // 16 archives at most, before all else; then the lowest bad end; then the lowest empty index.
    assert_eq!(started(&one, &[99; 17]), Err((1, 16)));
    assert_eq!(started(&one, &[99; 16]), Err((1, 0)));
    let all = one.repeat(17);
    let ends: Vec<_> = (1..=17).map(|count| count * len).collect();
    assert_eq!(started(&all, &ends[..16]), Ok(16));
    assert_eq!(started(&all, &ends), Err((1, 16)));
    for (ends, refusal) in [
        (&[10, 4][..], (1, 1)),
        (&[11], (1, 0)),
        (&[0, 10, 3], (1, 2)),
        (&[u64::MAX, 10], (1, 0)),
        (&[0, 10], (20, 0)),
        (&[10, 10], (20, 1)),
        (&[3, 3], (20, 1)),
        (&[0], (20, 0)),
    ] {
        assert_eq!(started(&one[..10], ends), Err(refusal), "{ends:?}");
    }
    // Then what they hold, index by index; places count over all of them.
    let after = |first: &[u8], second: &[u8]| {
        let ends = [first.len(), first.len() + second.len()].map(|end| end as u64);
        started(&[first, second].concat(), &ends)
    };
    assert_eq!(after(&two, &one), Ok(3));
    assert_eq!(after(&two, &short), Err((1, 2)));
    assert_eq!(after(&two, &[0, 0, 0, 2]), Err((1, 2)));
    assert_eq!(after(&two, &two[..8]), Err((1, 3)));
    assert_eq!(after(&two, &two[..two.len() - 1]), Err((1, 3)));
    // A name ends with its own index, though the next begins with a zero byte.
    assert_eq!(after(&one[..one.len() - 1], &one), Err((1, 0)));
    assert_eq!(after(&short, &short), Err((1, 0)));
    // Bytes behind the last end are none's.
    assert_eq!(started(&[&one[..], &[9; 5]].concat(), &[len]), Ok(1));
    assert_eq!(started(b"whatever", &[]), Ok(0));
}

#[test]
fn entries_are_bounded_together() {
    let many = |count: usize| index(&vec![("x", 8); count]);
    let accepted = |counts: &[usize]| {
        let indexes: Vec<_> = counts.iter().map(|count| many(*count)).collect();
        let parts: Vec<&[u8]> = indexes.iter().map(Vec::as_slice).collect();
        PendingArchive::of(&parts).map(|walk| walk.entry_count()).map_err(|refusal| refusal.place)
    };
    assert_eq!(accepted(&[65_535]), Ok(65_535));
    assert_eq!(accepted(&[65_536]), Err(65_535));
    assert_eq!(accepted(&[40_000, 25_535]), Ok(65_535));
    assert_eq!(accepted(&[40_000, 25_536]), Err(65_535));
    assert_eq!(accepted(&[4_096; 16]), Err(65_535));
    assert_eq!(accepted(&[4_095; 16]), Ok(65_520));
    assert_eq!(accepted(&[65_535, 0]), Ok(65_535));
}

/// In words, with the archive where there are several.
#[test]
fn refusals_of_a_start_in_words() {
    let one = index(&[("a", 8)]);
    let told = |indexes: &[&[u8]]| PendingArchive::of(indexes).unwrap_err().to_string();
    assert_eq!(told(&[&one, &[]]), "archive without index, place 1, archive 1 (refusal 20)");
    assert_eq!(told(&[&[]]), "archive without index, place 0 (refusal 20)");
    let bad = "field out of range, list over its bound, index or mark list cut short";
    assert_eq!(told(&[&one, &one, &one[..9]]), format!("{bad}, place 2, archive 2 (refusal 1)"));
    assert_eq!(told(&[&one, &[0, 0], &one]), format!("{bad}, place 1, archive 1 (refusal 1)"));
    assert_eq!(told(&[&one[..9]]), format!("{bad}, place 0 (refusal 1)"));
    assert_eq!(told(&[&one[..]; 17]), format!("{bad}, place 16 (refusal 1)"));
    let ends = PendingArchive::with_ends(7, &one[..], &[4, 3]).unwrap_err().to_string();
    assert_eq!(ends, format!("{bad}, place 1, archive 1 (refusal 1)"));
}

#[test]
fn archives_that_need_each_other() {
    let (video, sound) = (index(&[("v", 10)]), index(&[("s", 10)]));
    for profile in BOTH {
        let mut link = link(profile, &[("v", STRONG, 0)]);
        let members = [
            object(&[("v", STRONG, 1, 0), ("s", STRONG, 0, 0)]),
            object(&[("s", STRONG, 1, 0), ("v", STRONG, 0, 0)]),
        ];
        let mut walk = PendingArchive::of(&[&video, &sound]).unwrap();
        assert_eq!((walk.archive_count(), walk.entry_count()), (2, 2));
        for (archive, name) in [(0, &b"v"[..]), (1, b"s")] {
            let Step::Member(member) = walk.next(&link).unwrap() else { panic!("{name:?}") };
            assert_eq!((member.archive, member.offset), (archive, 10));
            assert_eq!(member.passes, archive as u64 + 1);
            assert_eq!(walk.required(&member).collect::<Vec<_>>(), [name]);
            // The other archive's member has the same offset.
            assert_eq!(walk.entry(archive), Some(IndexEntry { archive, offset: 10, name }));
            assert!(walk.admits(&link, &member, &members[archive]).unwrap());
            link.merge_elf(&members[archive]).unwrap();
        }
        assert_eq!(walk.next(&link), Ok(Step::Done { passes: 3 }));
        assert_eq!(walk.entry(2), None);
    }
}

#[test]
fn an_archive_that_is_given_twice() {
    let one = index(&[("foo", 100), ("bar", 100)]);
    for profile in BOTH {
        let link = link(profile, &[("foo", STRONG, 0)]);
        let mut walk = PendingArchive::of(&[&one, &one]).unwrap();
        assert_eq!(offers(&mut walk, &link), (vec![(0, 100, 1), (1, 100, 1)], 2));
        let Ok(Step::Done { .. }) = walk.next(&link) else { panic!("it stays done") };
    }
}

#[test]
fn none_and_one() {
    for profile in BOTH {
        let link = link(profile, &[("a", STRONG, 0), ("b", STRONG, 0)]);
        let mut none = PendingArchive::of(&[]).unwrap();
        assert_eq!(offers(&mut none, &link), (vec![], 1));
        assert_eq!(none.shadowed(&link).unwrap().len(), 0);
        let one = index(&[("b", 70), ("a", 60), ("b", 60), ("c", 80)]);
        let expected = (vec![(0, 70, 1), (0, 60, 1)], 2);
        assert_eq!(offers(&mut PendingArchive::new(&one[..]).unwrap(), &link), expected);
        assert_eq!(offers(&mut PendingArchive::of(&[&one]).unwrap(), &link), expected);
        // Among others its members come where it stands.
        let other = index(&[("c", 70), ("a", 70)]);
        let mut walk = PendingArchive::of(&[&other, &one, &other]).unwrap();
        let expected = vec![(0, 70, 1), (1, 70, 1), (1, 60, 1), (2, 70, 1)];
        assert_eq!(offers(&mut walk, &link), (expected, 2));
    }
}

/// 21 has the entry's place over all indexes, and tells whose it is; nothing is queued.
#[test]
fn a_removed_name_in_a_later_index() {
    let mut link = link(Profile::Old, &[("a", STRONG, 0), ("gone", STRONG, 0)]);
    let gone = link.find(b"gone").unwrap();
    link.remove(link.get_global(gone).unwrap().id).unwrap();
    let indexes = [index(&[("a", 10), ("b", 10)]), index(&[("b", 10), ("gone", 20)])];
    let mut walk = PendingArchive::of(&[&indexes[0], &indexes[1]]).unwrap();
    assert_eq!(refused(walk.next(&link)), (21, 3));
    assert_eq!(
        walk.next(&link).unwrap_err().to_string(),
        "absent or removed id, or section never built, place 3, member at 20 of archive 1, for \
         `gone` (refusal 21)"
    );
    assert_eq!(walk.passes(), 0);
}

#[test]
fn shadowed_members_of_several_archives() {
    for profile in BOTH {
        let link = link(profile, &[("mute", WEAK, 1), ("play", STRONG, 0)]);
        let sound = index(&[("mute", 60), ("play", 60)]);
        let video = index(&[("mute", 60)]);
        let mut walk = PendingArchive::of(&[&sound, &video]).unwrap();
        assert_eq!(offers(&mut walk, &link).0, [(0, 60, 1)]);
        // The first archive's member was offered, for play, which it was not merged for.
        let told: Vec<_> = walk.shadowed(&link).unwrap();
        let told: Vec<_> =
            told.iter().map(|told| (told.entry, told.archive, told.offset, told.name)).collect();
        assert_eq!(told, [(1, 0, 60, &b"play"[..]), (2, 1, 60, b"mute")]);
    }
}
