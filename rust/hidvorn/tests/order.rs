//! Link order (request 2026-14): random lists of four adds with at most one strong definition for
//! each name, in every order. All are accepted from a new table, and each name with a strong
//! definition ends with the content that the document gives it.
use hidvorn::*;
use std::collections::BTreeSet;

struct Rng(u64);

impl Rng {
    fn below(&mut self, n: usize) -> usize {
        self.0 ^= self.0 << 13;
        self.0 ^= self.0 >> 7;
        self.0 ^= self.0 << 17;
        (self.0 % n as u64) as usize
    }
}

/// An add: its symbol, and which of the names its own and its file's are (0: the empty name, no file).
#[derive(Clone, Copy)]
struct Add {
    elf: ElfSymbol,
    name: usize,
    file: usize,
}

impl Add {
    fn is_local(&self) -> bool {
        self.elf.binding == 0
    }

    fn is_strong(&self) -> bool {
        self.elf.binding == 1 && self.elf.section != 0
    }

    fn is_hidden(&self) -> bool {
        self.elf.visibility == 2
    }
}

const NAMES: usize = 3;
const NOT_LOADED: usize = 3;
const ABSOLUTE: usize = 0xfff1;
/// Of a section of an object with many.
const FAR: usize = 0xfeff;

fn conversion() -> SectionConversion {
    let mut out = SectionConversion::new();
    out.set(1, Converted::Section(SectionId::new(0)));
    out.set(2, Converted::Section(SectionId::new(1)));
    out.set(NOT_LOADED, Converted::NotLoaded);
    out.set(FAR, Converted::Section(SectionId::new(1)));
    out
}

fn add(rng: &mut Rng) -> Add {
    let binding = rng.below(3) as u64;
    let elf = ElfSymbol {
        binding,
        visibility: if binding == 0 { 0 } else { 2 * rng.below(2) as u64 },
        kind: rng.below(4) as u64,
        section: [0, 1, 2, NOT_LOADED, ABSOLUTE, FAR][rng.below(6)],
        value: [0, 0, 5, 1 << 63, u64::MAX][rng.below(5)],
        size: rng.below(3) as u64,
        ..Default::default()
    };
    Add { elf, name: rng.below(NAMES), file: rng.below(NAMES) }
}

/// At most one strong definition for each name.
fn passes(list: &[Add; 4]) -> bool {
    let strong = |name| list.iter().filter(|a| a.name == name && a.is_strong()).count();
    (0..NAMES).all(|name| strong(name) <= 1)
}

fn arrangements(list: &[Add; 4]) -> Vec<[Add; 4]> {
    let mut out = Vec::new();
    for places in (0..256).map(|n| [n & 3, n >> 2 & 3, n >> 4 & 3, n >> 6]) {
        if BTreeSet::from(places).len() == 4 {
            out.push(places.map(|place: usize| list[place]));
        }
    }
    out
}

/// A new link with so many rows, and the names' ids.
fn new_link(profile: Profile, symbols: usize) -> (Link, [Interned; NAMES]) {
    let capacity = Capacity { names: 8, name_bytes: 64, symbols, sections: 2, inputs: 1 };
    let mut link = Link::with_profile(profile, capacity).unwrap();
    let names = [b"mute", b"play"].map(|name| link.intern(name).unwrap());
    (link, [Interned::new(0), names[0], names[1]])
}

fn add_all(
    link: &mut Link,
    list: &[Add; 4],
    names: &[Interned; NAMES],
) -> Result<usize, ListRefused> {
    let file = |a: &Add| (a.file > 0).then(|| names[a.file]);
    let adds = list.map(|a| ListedSymbol { elf: a.elf, name: names[a.name], file: file(&a) });
    link.add_all(&adds, &conversion()).map(|ids| ids.len())
}

fn value(a: &Add) -> SymbolValue {
    let section = match a.elf.section {
        ABSOLUTE => return SymbolValue::Absolute { value: a.elf.value },
        NOT_LOADED => return SymbolValue::SectionNotLoaded,
        1 => SectionId::new(0),
        _ => SectionId::new(1),
    };
    match (a.name, a.elf.value) {
        (0, 0) => SymbolValue::Section { section },
        (_, value) => SymbolValue::SectionRelative { section, offset: value as i64 },
    }
}

/// What a lookup of a strong definition's name answers, but for the id.
fn judge(link: &Link, list: &[Add; 4], profile: Profile, names: &[Interned; NAMES]) {
    for a in list.iter().filter(|a| a.is_strong()) {
        let hidden = match profile {
            Profile::Old => a.is_hidden(),
            Profile::Gabi => {
                list.iter().any(|b| b.name == a.name && !b.is_local() && b.is_hidden())
            }
        };
        let kinds =
            [SymbolType::NoType, SymbolType::Object, SymbolType::Function, SymbolType::Section];
        let held = link.get_global(names[a.name]).unwrap();
        assert_eq!(held.name, names[a.name]);
        assert_eq!(held.kind, kinds[a.elf.kind as usize]);
        assert_eq!(held.file, (a.file > 0).then(|| names[a.file]));
        assert_eq!(held.visibility, SymbolVisibility::Global { weak: false, hidden });
        assert_eq!(held.value, value(a));
        assert_eq!(held.size, a.elf.size);
    }
}

#[test]
fn any_order() {
    let mut rng = Rng(88172645463325252);
    for round in 0..4000 {
        let profile = if round % 2 == 0 { Profile::Old } else { Profile::Gabi };
        let list = [(); 4].map(|()| add(&mut rng));
        if !passes(&list) {
            continue;
        }
        let locals = list.iter().filter(|a| a.is_local()).count();
        let held: BTreeSet<_> = list.iter().filter(|a| !a.is_local()).map(|a| a.name).collect();
        let rows = 1 + locals + held.len();
        for arranged in arrangements(&list) {
            let (mut link, names) = new_link(profile, rows);
            assert!(matches!(add_all(&mut link, &arranged, &names), Ok(4)));
            judge(&link, &list, profile, &names);
            let (mut short, names) = new_link(profile, rows - 1);
            assert!(add_all(&mut short, &arranged, &names).is_err(), "a row too few");
        }
    }
}
