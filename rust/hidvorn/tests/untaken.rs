//! What a member that was not taken would have defined, had it been: by what holds the name in the
//! link, and by the member's symbol.
mod support;

use hidvorn::*;
use support::{object, object_of, refused};

const STRONG: u64 = 1;
const WEAK: u64 = 2;
const COMMON: usize = 0xfff2;

/// A symbol's row. A common one's value is its alignment.
fn row(binding: u64, section: usize) -> ElfSymbol {
    ElfSymbol { binding, kind: 1, section, value: 8, size: 4, ..Default::default() }
}

/// A link of that profile with these symbols.
fn link(profile: Profile, symbols: &[(&str, ElfSymbol)]) -> Link {
    let mut link = Link::with_profile(profile, Capacity::default()).unwrap();
    link.merge_elf(&object_of(symbols)).unwrap();
    link
}

fn told(link: &Link, object: &Object<'_>) -> Vec<(usize, Vec<u8>)> {
    let told = link.would_define(object).unwrap();
    told.iter().map(|told| (told.symbol, told.name.to_vec())).collect()
}

/// Each way to hold a name, under each definition of a member: told just where a merge changes the
/// row's definition.
#[test]
fn told_is_what_a_merge_takes_over() {
    let holders =
        [(STRONG, 1), (WEAK, 1), (STRONG, COMMON), (WEAK, COMMON), (STRONG, 0), (WEAK, 0)];
    let mut seen = 0;
    for profile in [Profile::Old, Profile::Gabi] {
        for (holding, at) in holders {
            for (binding, section) in [(STRONG, 1), (WEAK, 1), (STRONG, COMMON), (WEAK, COMMON)] {
                // Of sizes of their own, so that the row tells whose it is; commons are joined.
                let mut link = link(profile, &[("mute", row(holding, at))]);
                let before = link.get_global(link.find(b"mute").unwrap()).unwrap();
                let own = ElfSymbol { size: 3, ..row(binding, section) };
                let member = object_of(&[("mute", own)]);
                let answer = told(&link, &member);
                let twice = link.merge_elf(&member).is_err();
                let after = link.get_global(link.find(b"mute").unwrap()).unwrap();
                let taken = !twice && after.size == 3;
                assert_eq!(answer, if taken { vec![(1, b"mute".to_vec())] } else { vec![] });
                assert!(taken || after == before);
                seen += usize::from(taken);
            }
        }
    }
    // All four of an undefined name, three of a weak one, one of a common.
    assert_eq!(seen, 2 * (2 * 4 + 3 + 2));
}

#[test]
fn each_that_is_told_comes_with_its_row() {
    let link = link(
        Profile::Old,
        &[("fade", row(WEAK, 1)), ("mix", row(STRONG, 1)), ("mute", row(STRONG, COMMON))],
    );
    // A reference, a name that the link doesn't have, a file's name and a local symbol beside them.
    let symbols = [
        ("play", row(STRONG, 0)),
        ("mute", ElfSymbol { size: 40, ..row(STRONG, 1) }),
        ("blank", row(STRONG, 1)),
        ("fade", ElfSymbol { kind: 4, ..row(STRONG, 0xfff1) }),
        ("fade", row(0, 1)),
        ("fade", ElfSymbol { size: 50, ..row(STRONG, 1) }),
        ("mix", row(STRONG, 1)),
    ];
    let member = object_of(&symbols);
    let told = link.would_define(&member).unwrap();
    let told: Vec<_> = told
        .iter()
        .map(|told| (told.symbol, told.name, told.definition.size, told.holder))
        .collect();
    let holder = |name: &[u8]| link.get_global(link.find(name).unwrap()).unwrap();
    assert_eq!(
        told,
        [(2, &b"mute"[..], 40, holder(b"mute")), (6, &b"fade"[..], 50, holder(b"fade"))]
    );
    assert!(told.iter().all(|(.., holder)| holder.size == 4));
}

#[test]
fn removed_names_broken_links_and_bad_objects() {
    let mut link = link(Profile::Old, &[("mute", row(WEAK, 1)), ("fade", row(WEAK, 1))]);
    let member = object(&[("mute", STRONG, 1, 0), ("fade", STRONG, 1, 0)]);
    assert_eq!(told(&link, &member).len(), 2);
    let mute = link.find(b"mute").unwrap();
    link.remove(link.get_global(mute).unwrap().id).unwrap();
    assert_eq!(told(&link, &member), [(2, b"fade".to_vec())]);
    let twice = object(&[("x", STRONG, 1, 0), ("x", STRONG, 1, 0)]);
    assert_eq!(refused(link.merge_elf(&twice)), (17, 2));
    assert!(link.is_broken());
    assert_eq!(told(&link, &member), [(2, b"fade".to_vec())]);
    let bad = object_of(&[("mute", row(16, 1))]);
    assert_eq!(
        link.would_define(&bad).map(|_| ()).map_err(|refusal| (refusal.number(), refusal.place)),
        Err((1, 1))
    );
    assert!(told(&link, &Object::new(vec![])).is_empty());
}
