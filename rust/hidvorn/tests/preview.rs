//! What a merge would do: a preview answers what the merge then answers, shows the link that the merge then leaves, and leaves the link.
mod support;

use hidvorn::*;
use support::{object, object_of, refused};

const CAPACITY: Capacity =
    Capacity { names: 32, name_bytes: 256, symbols: 16, sections: 16, inputs: 4 };

const WEAK: u64 = 2;
const STRONG: u64 = 1;

fn link(profile: Profile) -> Link {
    Link::with_key(7, profile, CAPACITY).unwrap()
}

/// Everything that a link tells of itself.
fn all(link: &Link) -> String {
    format!(
        "{link:?} {:?} {:?} {:?} {:?} {:?} {:?}",
        link.symbols().collect::<Vec<_>>(),
        link.sections().collect::<Vec<_>>(),
        link.inputs().collect::<Vec<_>>(),
        link.global_names().map(|(name, id)| (link.resolve(name), id)).collect::<Vec<_>>(),
        link.group_signatures().collect::<Vec<_>>(),
        link.section_symbols().collect::<Vec<_>>(),
    )
}

/// Previews, into storage of its own and into a used one, then merges: the same answer and link.
fn previewed(link: &mut Link, object: &Object<'_>, place: &mut Link) -> Result<(), Refusal> {
    let before = all(link);
    let shown = link.preview(object).map(|preview| all(preview.after()));
    let answer = link.preview_in(object, place);
    assert_eq!(all(link), before);
    assert_eq!(shown.as_ref().err(), answer.as_ref().err());
    let merged = link.merge_elf(object).map(|_| ());
    assert_eq!(answer, merged);
    assert_eq!(all(place), all(link));
    if let Ok(shown) = shown {
        assert_eq!(shown, all(link));
    }
    merged
}

#[test]
fn result_and_rows_are_the_merges() {
    for profile in [Profile::Old, Profile::Gabi] {
        let (mut link, mut place) = (link(profile), link(Profile::Old));
        let core = object(&[("mute", WEAK, 1, 0), ("mixer", STRONG, 1, 0), ("fix", STRONG, 0, 2)]);
        previewed(&mut link, &core, &mut place).unwrap();
        let patch = object(&[("mute", STRONG, 1, 0), ("fix", STRONG, 1, 0), ("new", WEAK, 0, 0)]);
        previewed(&mut link, &patch, &mut place).unwrap();
        previewed(&mut link, &object(&[]), &mut place).unwrap();
        // What the merge accepted before its refusal is in both; only the copy broke until then.
        let twice = object(&[("later", STRONG, 1, 0), ("mute", STRONG, 1, 0)]);
        assert_eq!(link.preview(&twice).map(|_| ()).map_err(|r| r.number()), Err(17));
        assert!(!link.is_broken());
        assert_eq!(refused(previewed(&mut link, &twice, &mut place)), (17, 2));
        assert!(place.is_broken());
    }
}

#[test]
fn a_broken_link_previews_as_22() {
    let (mut link, mut place) = (link(Profile::Gabi), link(Profile::Gabi));
    link.merge_elf(&object(&[("a", 5, 1, 0)])).unwrap_err();
    let before = all(&place);
    assert_eq!(refused(link.preview(&object(&[("b", 16, 1, 0)]))), (22, 0));
    assert_eq!(refused(link.preview_in(&object(&[]), &mut place)), (22, 0));
    assert_eq!(all(&place), before);
    assert_eq!(refused(link.preview_file(b"no object")), (22, 0));
}

#[test]
fn one_comes_before_the_room_and_the_room_before_the_rest() {
    let link = link(Profile::Gabi);
    let short = |capacity| Link::with_key(9, Profile::Old, capacity).unwrap();
    let shorter = [
        Capacity { names: 31, ..CAPACITY },
        Capacity { name_bytes: 255, ..CAPACITY },
        Capacity { symbols: 15, ..CAPACITY },
        Capacity { sections: 15, ..CAPACITY },
        Capacity { inputs: 3, ..CAPACITY },
    ];
    for capacity in shorter {
        let mut place = short(capacity);
        let before = all(&place);
        assert_eq!(refused(link.preview_in(&object(&[("b", 16, 1, 0)]), &mut place)), (1, 1));
        assert_eq!(refused(link.preview_in(&object(&[("b", 5, 1, 0)]), &mut place)), (2, 0));
        assert_eq!(all(&place), before);
    }
    let mut place = short(Capacity { symbols: 40, ..CAPACITY });
    assert_eq!(refused(link.preview_in(&object(&[("b", 5, 1, 0)]), &mut place)), (12, 1));
}

#[test]
fn the_copy_has_the_links_room_and_no_more() {
    let capacity = Capacity { symbols: 2, ..CAPACITY };
    let mut link = Link::with_key(3, Profile::Gabi, capacity).unwrap();
    let mut place = Link::with_key(3, Profile::Gabi, CAPACITY).unwrap();
    let two = object(&[("a", STRONG, 0, 0), ("b", STRONG, 0, 0)]);
    assert_eq!(refused(link.preview_in(&two, &mut place)), (2, 2));
    assert_eq!(place.symbol_count(), 2);
    assert!(!link.is_broken());
    let name = link.intern(b"a").unwrap();
    link.add(UpcomingSymbol::GlobalUnknown { name }).unwrap();
}

#[test]
fn a_file_is_previewed_as_its_rows() {
    let link = link(Profile::Gabi);
    assert_eq!(refused(link.preview_file(b"no object")), (26, 0));
}

/// The changes by name, as words.
fn changes(preview: &Preview<'_>) -> Vec<String> {
    let word = |change: &Change| match change {
        Change::Comes(now) if now.value.is_undefined() => "undefined",
        Change::Comes(_) => "comes",
        Change::Defined { .. } => "defined",
        Change::Replaced { .. } => "replaced",
        Change::Altered { .. } => "altered",
        Change::Shadowed { .. } => "shadowed",
        _ => "other",
    };
    let name = |change: &Change| preview.after().resolve(change.name()).unwrap();
    let told =
        |change: Change| format!("{} {}", String::from_utf8_lossy(name(&change)), word(&change));
    preview.changes().map(told).collect()
}

#[test]
fn what_changes_is_told_by_name() {
    let mut link = link(Profile::Gabi);
    let common = |alignment, size| ElfSymbol {
        binding: STRONG,
        section: 0xfff2,
        value: alignment,
        size,
        ..Default::default()
    };
    let row = |binding, section, visibility| ElfSymbol {
        binding,
        section,
        visibility,
        ..Default::default()
    };
    link.merge_elf(&object_of(&[
        ("weak", row(WEAK, 1, 0)),
        ("strong", row(STRONG, 1, 0)),
        ("wanted", row(STRONG, 0, 0)),
        ("maybe", row(WEAK, 0, 0)),
        ("common", common(4, 8)),
        ("joined", common(4, 8)),
        ("same", common(4, 8)),
        ("untouched", row(STRONG, 1, 0)),
    ]))
    .unwrap();
    let patch = object_of(&[
        ("weak", row(STRONG, 1, 0)),
        ("strong", row(WEAK, 1, 2)),
        ("wanted", row(WEAK, 1, 0)),
        ("maybe", row(STRONG, 0, 0)),
        ("common", row(STRONG, 1, 0)),
        ("joined", common(8, 4)),
        ("same", common(2, 2)),
        ("untouched", row(STRONG, 0, 0)),
        ("new", row(STRONG, 1, 0)),
        ("needs", row(STRONG, 0, 0)),
    ]);
    let preview = link.preview(&patch).unwrap();
    assert_eq!(
        changes(&preview),
        [
            "weak replaced",
            "strong altered",
            "wanted defined",
            "maybe altered",
            "common replaced",
            "joined altered",
            "new comes",
            "needs undefined",
            "strong shadowed",
            "same shadowed",
        ]
    );
    let sections: Vec<_> = preview.sections().map(|(id, _)| id.number()).collect();
    assert_eq!(sections, [1]);
    assert_eq!(preview.merged().symbol(9), Some(SymbolId::new(9)));
    let text = preview.to_string();
    assert!(
        text.contains("weak: held by weak, symbol 1 in section `.text`; would be strong"),
        "{text}"
    );
    assert!(preview.into_link().merge_elf(&object(&[])).is_ok());
    assert!(link.preview(&object(&[])).unwrap().changes().next().is_none());
}
