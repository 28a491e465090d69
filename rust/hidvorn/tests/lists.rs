//! Lists of adds: the adds one by one, up to the first that is refused, in both profiles.
mod support;

use hidvorn::*;

const CAPACITY: Capacity =
    Capacity { names: 4096, name_bytes: 65_536, symbols: 4096, sections: 64, inputs: 8 };

fn link(profile: Profile, symbols: usize) -> Link {
    Link::with_profile(profile, Capacity { symbols, ..CAPACITY }).expect("room for the null symbol")
}

/// Undefined, or absolute of this value.
fn row(name: Interned, value: Option<u64>) -> ListedSymbol {
    let section = value.map_or(0, |_| 0xfff1);
    let elf = ElfSymbol { binding: 1, section, value: value.unwrap_or(0), ..ElfSymbol::default() };
    ListedSymbol { elf, name, file: None }
}

fn names(link: &mut Link, names: &[&str]) -> Vec<Interned> {
    names.iter().map(|name| link.intern(name.as_bytes()).expect("room")).collect()
}

fn numbers(ids: &[SymbolId]) -> Vec<usize> {
    ids.iter().map(|id| id.number()).collect()
}

fn refused(answer: Result<Vec<SymbolId>, ListRefused>) -> (u64, usize, usize, Vec<usize>) {
    let refused = answer.expect_err("a refusal");
    let Refusal { cause, place, .. } = refused.refusal;
    (cause as u64, place, refused.position, numbers(&refused.ids))
}

const PROFILES: [Profile; 2] = [Profile::Old, Profile::Gabi];

#[test]
fn two_rows_lent() {
    for profile in PROFILES {
        let mut link = link(profile, 2);
        let n = names(&mut link, &["foo", "bar", "baz"]);
        let list = [row(n[0], None), row(n[0], Some(1)), row(n[1], None), row(n[2], None)];
        let none = SectionConversion::new();
        assert_eq!(refused(link.add_all(&list, &none)), (2, 0, 2, vec![1, 1]));
    }
}

#[test]
fn a_bad_field_is_met_at_its_add() {
    for profile in PROFILES {
        let mut link = link(profile, 8);
        let n = names(&mut link, &["foo", "bar", "baz"]);
        let mut list = [row(n[0], None), row(n[1], None), row(n[2], None)];
        list[1].elf.binding = 16;
        let none = SectionConversion::new();
        assert_eq!(refused(link.add_all(&list, &none)), (1, 0, 1, vec![1]));
        assert!(link.get_global(n[0]).is_ok());
        assert!(link.get_global(n[1]).is_err());
        assert!(link.get_global(n[2]).is_err());
    }
}

#[test]
fn a_name_never_issued() {
    for profile in PROFILES {
        let mut link = link(profile, 8);
        let n = names(&mut link, &["foo"]);
        let list = [row(n[0], None), row(Interned::new(9), None), row(n[0], Some(2))];
        let none = SectionConversion::new();
        assert_eq!(refused(link.add_all(&list, &none)), (21, 9, 1, vec![1]));
    }
}

#[test]
fn a_broken_link_refuses_the_empty_list() {
    for profile in PROFILES {
        let mut link = link(profile, 8);
        let none = SectionConversion::new();
        assert_eq!(link.add_all(&[], &none), Ok(vec![]));
        let bad = support::object(&[("foo", 1, 1, 1)]);
        assert!(link.merge_elf(&bad).is_err() && link.is_broken());
        assert_eq!(refused(link.add_all(&[], &none)), (22, 0, 0, vec![]));
    }
}

/// The adds one by one, up to the first that is refused.
fn one_by_one(
    link: &mut Link,
    list: &[ListedSymbol],
    conversion: &SectionConversion,
) -> Result<Vec<SymbolId>, ListRefused> {
    let mut ids = Vec::new();
    for (position, ListedSymbol { elf, name, file }) in list.iter().copied().enumerate() {
        match link.add(UpcomingSymbol::Elf { elf, name, file, conversion }) {
            Ok(id) => ids.push(id),
            Err(refusal) => return Err(ListRefused { refusal, position, ids }),
        }
    }
    Ok(ids)
}

fn assert_alike(a: &Link, b: &Link, names: &[Interned]) {
    for &name in names {
        assert_eq!(a.get_global(name), b.get_global(name));
    }
}

/// Thousands of stubs in one call, and the same adds one by one.
#[test]
fn as_one_by_one() {
    for profile in PROFILES {
        let (mut by_list, mut single) = (link(profile, 3000), link(profile, 3000));
        let mut list = Vec::new();
        for i in 0..3500 {
            let text = format!("stub{}", i * 7 % 3100);
            let name = by_list.intern(text.as_bytes()).expect("room");
            assert_eq!(single.intern(text.as_bytes()).expect("room"), name);
            list.push(row(name, (i % 3 == 0).then_some(i as u64)));
        }
        let none = SectionConversion::new();
        let answer = by_list.add_all(&list, &none);
        assert!(answer.is_err(), "there are more names than rows");
        assert_eq!(answer, one_by_one(&mut single, &list, &none));
        let names: Vec<_> = list.iter().map(|row| row.name).collect();
        assert_alike(&by_list, &single, &names);
    }
}

/// Rows of every kind over few names, under a conversion; after a refused add the list goes on.
#[test]
fn rows_of_every_kind() {
    for profile in PROFILES {
        let (mut by_list, mut single) = (link(profile, 4000), link(profile, 4000));
        let texts: Vec<_> = (0..40).map(|i| format!("n{i}")).collect();
        let names: Vec<_> = texts.iter().map(|t| by_list.intern(t.as_bytes()).unwrap()).collect();
        for text in &texts {
            single.intern(text.as_bytes()).unwrap();
        }
        let conversion: SectionConversion =
            [Converted::Nothing, Converted::Section(SectionId::new(3)), Converted::NotLoaded]
                .into_iter()
                .collect();
        let list: Vec<_> = (0..3000usize)
            .map(|i| {
                let mix = i.wrapping_mul(2_654_435_761) >> 7;
                let elf = ElfSymbol {
                    binding: mix as u64 % 4,
                    visibility: [0, 0, 0, 2, 1, 3][mix / 4 % 6],
                    kind: mix as u64 / 24 % 6,
                    section: [0, 1, 2, 3, 0xfff1, 0xfff2][mix / 144 % 6],
                    value: mix as u64 % 977,
                    ..ElfSymbol::default()
                };
                let file = (i % 7 == 0).then(|| names[mix / 864 % 40]);
                ListedSymbol { elf, name: names[mix / 5 % 40], file }
            })
            .collect();
        let (mut from, mut accepted, mut causes) = (0, 0, std::collections::BTreeSet::new());
        while from < list.len() {
            let answer = by_list.add_all(&list[from..], &conversion);
            assert_eq!(answer, one_by_one(&mut single, &list[from..], &conversion));
            let refused = match answer {
                Ok(ids) => ListRefused { position: ids.len(), ids, refusal: NONE },
                Err(refused) => refused,
            };
            accepted += refused.ids.len();
            causes.insert(refused.refusal.cause as u64);
            from += refused.position + 1;
        }
        assert_alike(&by_list, &single, &names);
        assert!(accepted > 300, "{accepted}");
        for cause in [10, 12, 14, 15, 16, 17] {
            assert!(causes.contains(&cause), "{cause}: {causes:?}");
        }
    }
}

/// Stands for no refusal.
const NONE: Refusal = Refusal::new(Cause::BrokenLink, 0);

/// No bound on the length of a list but its cells: more adds than there are symbol rows.
#[test]
fn seventy_thousand_references() {
    let mut link = link(Profile::Old, 4);
    let name = link.intern(b"far").expect("room");
    let list = vec![row(name, None); 70_000];
    let ids = link.add_all(&list, &SectionConversion::new()).expect("a known reference");
    assert_eq!(numbers(&ids), vec![1; 70_000]);
}
