//! Common symbols and sizes (document 02, request 2026-06): random lists of adds against a model from
//! the document's words alone, the calls one by one, and an object with commons from the compiler.
mod support;

use hidvorn::*;
use std::collections::BTreeMap;
use std::path::Path;
use std::process::Command;
use support::{object_of, refused};

const PROFILES: [Profile; 2] = [Profile::Old, Profile::Gabi];

const CAPACITY: Capacity =
    Capacity { names: 64, name_bytes: 1024, symbols: 256, sections: 64, inputs: 16 };

const COMMON: usize = 0xfff2;
const ABSOLUTE: usize = 0xfff1;

// ---- the model

/// An add as the documents see it.
#[derive(Clone, Copy, Debug)]
struct Add {
    name: usize,
    binding: u64,
    kind: u64,
    visibility: u64,
    section: usize,
    value: u64,
    size: u64,
    file: Option<usize>,
}

impl Add {
    fn is_common(&self) -> bool {
        self.section == COMMON
    }

    fn is_undefined(&self) -> bool {
        self.section == 0
    }

    /// A definition, strong or not, that is no common.
    fn defines(&self, binding: u64) -> bool {
        !self.is_common() && !self.is_undefined() && self.binding == binding
    }
}

/// What section numbers stand for: 1 and 2 have ids, 3 isn't loaded, all others have nothing.
const SECTIONS: [Converted; 4] = [
    Converted::Nothing,
    Converted::Section(SectionId::new(3)),
    Converted::Section(SectionId::new(7)),
    Converted::NotLoaded,
];

/// A name: its id and its accepted adds, in order. Its row follows from them.
#[derive(Clone, Debug, Default)]
struct Name {
    id: usize,
    adds: Vec<Add>,
}

/// 0.7 of the reading: "In such links a name's holder is the first strong definition that is no common,
/// else the commons joined, else as before": the first weak definition, in the gABI profile the first
/// strong reference, else the first add. The position of the add that gives the row its content.
fn holder(profile: Profile, adds: &[Add]) -> usize {
    let first = |is: &dyn Fn(&Add) -> bool| adds.iter().position(is);
    let strong = first(&|add| add.defines(1));
    let common = strong.or_else(|| first(&Add::is_common));
    let weak = common.or_else(|| first(&|add| add.defines(2)));
    let reference = weak.or_else(|| match profile {
        Profile::Old => None,
        Profile::Gabi => first(&|add| add.is_undefined() && add.binding == 1),
    });
    reference.unwrap_or(0)
}

#[derive(Clone, Debug, Default)]
struct Model {
    names: BTreeMap<usize, Name>,
    /// Local rows by their ids.
    locals: BTreeMap<usize, Add>,
    count: usize,
}

impl Model {
    fn new() -> Self {
        // The null symbol.
        Model { count: 1, ..Model::default() }
    }

    /// The refusals in the order of document 01's table and of the reading's 0.5: 10, 11, 12, 13 or 28,
    /// 14, then the type where the add makes a row or takes it, then 17.
    fn add(&mut self, profile: Profile, add: Add) -> Result<usize, u64> {
        match (add.binding, add.visibility) {
            (_, 1 | 3) => return Err(10),
            (0, 2) => return Err(11),
            (0..=2, _) => {}
            _ => return Err(12),
        }
        if add.is_common() {
            match add.binding {
                0 => return Err(13),
                _ if add.value == 0 || (add.value - 1) & add.value != 0 => return Err(28),
                _ => {}
            }
        }
        let has_id = |number: usize| number != 0 && number < SECTIONS.len();
        if !add.is_undefined()
            && !add.is_common()
            && add.section != ABSOLUTE
            && !has_id(add.section)
        {
            return Err(14);
        }
        let judged: Result<(), u64> = match add.kind {
            0..=3 => Ok(()),
            4 => Err(15),
            _ => Err(16),
        };
        if add.binding == 0 {
            judged?;
            self.locals.insert(self.count, add);
            self.count += 1;
            return Ok(self.count - 1);
        }
        let Some(name) = self.names.get_mut(&add.name) else {
            judged?;
            self.names.insert(add.name, Name { id: self.count, adds: vec![add] });
            self.count += 1;
            return Ok(self.count - 1);
        };
        let known = name.adds.iter().any(|add| add.defines(1));
        let mut adds = name.adds.clone();
        adds.push(add);
        if holder(profile, &adds) == name.adds.len() {
            judged?;
        } else if known && add.defines(1) {
            return Err(17);
        }
        name.adds = adds;
        Ok(name.id)
    }

    /// The rows by their ids, as the library shows them.
    fn rows(&self, profile: Profile, names: &[Interned]) -> Vec<Symbol> {
        let mut rows = BTreeMap::new();
        for (id, add) in &self.locals {
            rows.insert(*id, shown(*id, add, SymbolVisibility::Local, names));
        }
        for Name { id, adds } in self.names.values() {
            let mut add = adds[holder(profile, adds)];
            if add.is_common() {
                // "the larger size and the larger alignment", of all accepted commons
                let commons = || adds.iter().filter(|add| add.is_common());
                add.size = commons().map(|add| add.size).max().unwrap();
                add.value = commons().map(|add| add.value).max().unwrap();
            }
            let hidden = match profile {
                Profile::Old => add.visibility == 2,
                Profile::Gabi => adds.iter().any(|add| add.visibility == 2),
            };
            let weak = add.binding == 2;
            let visibility = SymbolVisibility::Global { weak, hidden };
            rows.insert(*id, shown(*id, &add, visibility, names));
        }
        rows.into_values().collect()
    }
}

fn shown(id: usize, add: &Add, visibility: SymbolVisibility, names: &[Interned]) -> Symbol {
    use SymbolType::*;
    let value = match (add.section, SECTIONS.get(add.section)) {
        (0, _) => SymbolValue::Undefined { default_zero: add.binding == 2 },
        (ABSOLUTE, _) => SymbolValue::Absolute { value: add.value },
        (COMMON, _) => SymbolValue::Common { alignment: add.value },
        (_, Some(Converted::Section(section))) => {
            SymbolValue::SectionRelative { section: *section, offset: add.value as i64 }
        }
        _ => SymbolValue::SectionNotLoaded,
    };
    Symbol {
        id: SymbolId::new(id),
        name: names[add.name],
        kind: [NoType, Object, Function, Section][add.kind as usize],
        file: add.file.map(|file| names[file]),
        visibility,
        value,
        size: add.size,
    }
}

// ---- random lists

/// splitmix64.
struct Random(u64);

impl Random {
    fn next(&mut self) -> u64 {
        self.0 = self.0.wrapping_add(0x9e37_79b9_7f4a_7c15);
        let mut z = self.0;
        z = (z ^ (z >> 30)).wrapping_mul(0xbf58_476d_1ce4_e5b9);
        z = (z ^ (z >> 27)).wrapping_mul(0x94d0_49bb_1331_11eb);
        z ^ (z >> 31)
    }

    fn pick<T: Copy>(&mut self, from: &[T]) -> T {
        from[(self.next() % from.len() as u64) as usize]
    }

    fn add(&mut self, names: usize) -> Add {
        let section = self.pick(&[0, 0, 1, 1, 2, 3, 4, ABSOLUTE, COMMON, COMMON, COMMON, COMMON]);
        let any = self.next();
        let power = 1 << self.pick(&[0, 1, 2, 3, 4, 12, 62, 63]);
        let other = self.pick(&[0, 3, 6, 12, (1 << 63) - 1, (1 << 63) + 1, u64::MAX, any]);
        Add {
            name: (self.next() % names as u64) as usize,
            binding: self.pick(&[0, 1, 1, 1, 1, 1, 2, 2, 2, 2, 2, 3]),
            kind: self.pick(&[0, 1, 1, 2, 2, 3, 0, 1, 1, 4, 5, 9]),
            visibility: self.pick(&[0, 0, 0, 0, 0, 0, 0, 0, 2, 2, 1, 3]),
            section,
            value: if section == COMMON {
                self.pick(&[power, power, power, power, other])
            } else {
                any
            },
            size: self.pick(&[0, 0, 1, 4, 8, 64, 1 << 63, u64::MAX, any >> 32]),
            file: self.pick(&[None, None, Some(0), Some(1)]),
        }
    }
}

/// How often what the request speaks of was met.
#[derive(Debug, Default)]
struct Met {
    joined: u64,
    grown_apart: u64,
    over_weak: u64,
    under_strong: u64,
    accepted_type: u64,
    refused: BTreeMap<u64, u64>,
}

impl Met {
    fn count(&mut self, name: &Name, add: &Add, answer: Result<usize, u64>) {
        if let Err(number) = answer {
            *self.refused.entry(number).or_default() += 1;
            return;
        }
        let has = |is: &dyn Fn(&Add) -> bool| name.adds.iter().any(is) as u64;
        let (strong, common) = (has(&|add| add.defines(1)), has(&Add::is_common));
        if add.is_common() {
            let commons = name.adds.iter().filter(|add| add.is_common());
            let largest = commons
                .fold((0, 0), |(size, align), add| (size.max(add.size), align.max(add.value)));
            let grew = [add.size > largest.0, add.value > largest.1];
            self.joined += common * (1 - strong);
            self.grown_apart += common * (grew[0] != grew[1]) as u64;
            self.over_weak += has(&|add| add.defines(2)) * (1 - strong) * (1 - common);
            self.under_strong += strong;
            self.accepted_type += (add.kind > 3) as u64;
        }
    }
}

#[test]
fn random_lists_against_the_model() {
    let conversion: SectionConversion = SECTIONS.into_iter().collect();
    let mut random = Random(6);
    for profile in PROFILES {
        let mut link = Link::with_profile(profile, CAPACITY).expect("room");
        let mut met = Met::default();
        for _ in 0..20_000 {
            link.clear();
            let texts = ["buf", "mix", "pcm", "out"];
            let names: Vec<_> =
                texts.iter().map(|text| link.intern(text.as_bytes()).unwrap()).collect();
            let used = random.pick(&[1, 1, 2, 4]);
            let length = random.pick(&[2, 3, 4, 6, 10, 20]);
            let adds: Vec<_> = (0..length).map(|_| random.add(used)).collect();
            let listed = |add: &Add| ListedSymbol {
                elf: ElfSymbol {
                    name: 0,
                    binding: add.binding,
                    kind: add.kind,
                    visibility: add.visibility,
                    section: add.section,
                    value: add.value,
                    size: add.size,
                },
                name: names[add.name],
                file: add.file.map(|file| names[file]),
            };
            let list: Vec<_> = adds.iter().map(listed).collect();
            let mut model = Model::new();
            let mut from = 0;
            // Up to the first refused one, and on behind it.
            while from < list.len() {
                let mut ids = Vec::new();
                let mut expected = None;
                for (position, add) in adds[from..].iter().enumerate() {
                    let before = model.names.get(&add.name).cloned().unwrap_or_default();
                    let answer = model.add(profile, *add);
                    met.count(&before, add, answer);
                    match answer {
                        Ok(id) => ids.push(SymbolId::new(id)),
                        Err(number) => {
                            expected = Some((number, position));
                            break;
                        }
                    }
                }
                let done = expected.map_or(ids.len(), |(_, position)| position + 1);
                match (link.add_all(&list[from..], &conversion), expected) {
                    (Ok(told), None) => assert_eq!(told, ids, "{adds:?}"),
                    (Err(refusal), Some((number, position))) => {
                        let told = (refusal.refusal.number(), refusal.refusal.place);
                        assert_eq!((told, refusal.position), ((number, 0), position), "{adds:?}");
                        assert_eq!(refusal.ids, ids, "{adds:?}");
                    }
                    other => panic!("{other:?}: {adds:?}"),
                }
                from += done;
            }
            let rows: Vec<_> = link.symbols().skip(1).map(Option::unwrap).collect();
            assert_eq!(rows, model.rows(profile, &names), "{profile:?} {adds:?}");
            for Name { id, adds } in model.names.values() {
                let found = link.get_global(names[adds[0].name]).unwrap();
                assert_eq!(found, rows[id - 1]);
                assert_eq!(found, link.get(SymbolId::new(*id)).unwrap());
            }
        }
        let Met { joined, grown_apart, over_weak, under_strong, accepted_type, refused } = &met;
        for count in [joined, grown_apart, over_weak, under_strong, accepted_type] {
            assert!(*count > 1000, "{met:?}");
        }
        let numbers = [10, 11, 12, 13, 14, 15, 16, 17, 28];
        assert!(numbers.iter().all(|number| refused[number] > 1000), "{met:?}");
        assert_eq!(refused.len(), numbers.len(), "{met:?}");
    }
}

// ---- calls one by one

fn common(binding: u64, size: u64, alignment: u64) -> ElfSymbol {
    ElfSymbol { binding, kind: 1, section: COMMON, value: alignment, size, ..Default::default() }
}

#[test]
fn the_alignment_of_a_symbol() {
    for profile in PROFILES {
        let mut link = Link::with_profile(profile, CAPACITY).unwrap();
        let name = link.intern(b"buf").unwrap();
        let conversion = SectionConversion::new();
        let add = |link: &mut Link, elf| {
            link.add(UpcomingSymbol::Elf { elf, name, file: None, conversion: &conversion })
        };
        let held = |link: &Link| {
            let symbol = link.get_global(name).unwrap();
            (symbol.value, symbol.size, symbol.alignment())
        };
        assert_eq!(refused(add(&mut link, common(1, 4, 0))), (28, 0));
        assert_eq!(refused(add(&mut link, common(2, 4, 24))), (28, 0));
        assert_eq!(refused(add(&mut link, common(0, 4, 24))), (13, 0));
        assert!(add(&mut link, common(2, 4, 8)).is_ok());
        assert!(add(&mut link, common(1, 64, 2)).is_ok());
        assert_eq!(held(&link), (SymbolValue::Common { alignment: 8 }, 64, 8));
        assert!(!link.get_global(name).unwrap().value.is_undefined());
        assert_eq!(link.get_global(name).unwrap().value.section(), None);
        let strong = ElfSymbol { section: ABSOLUTE, ..common(1, 3, 16) };
        assert!(add(&mut link, strong).is_ok());
        assert_eq!(held(&link), (SymbolValue::Absolute { value: 16 }, 3, 0));
        assert!(add(&mut link, common(1, 64, 2)).is_ok());
        assert_eq!(held(&link), (SymbolValue::Absolute { value: 16 }, 3, 0));
        assert_eq!(refused(add(&mut link, strong)), (17, 0));
        // One that the linker makes has no size.
        let name = link.intern(b"made").unwrap();
        let made = |alignment| {
            let value = SymbolValue::Common { alignment };
            UpcomingSymbol::GlobalHidden { name, value }
        };
        assert_eq!(refused(link.add(made(3))), (28, 0));
        assert!(link.add(made(32)).is_ok());
        let symbol = link.get_global(name).unwrap();
        assert_eq!((symbol.size, symbol.alignment()), (0, 32));
    }
}

#[test]
fn the_refusal_of_a_merge() {
    let object =
        object_of(&[("a", common(1, 8, 8)), ("b", common(2, 8, 3)), ("c", common(1, 8, 8))]);
    for profile in PROFILES {
        let mut link = Link::with_profile(profile, CAPACITY).unwrap();
        let refusal = link.merge_elf(&object).map(|_| ()).unwrap_err();
        assert_eq!((refusal.number(), refusal.place, link.is_broken()), (28, 2, true));
        assert_eq!(refusal.cause, Cause::CommonAlignment);
        assert_eq!(Cause::of_number(28), Some(Cause::CommonAlignment));
        let words = "common symbol whose alignment is zero or no power of two";
        assert!(refusal.to_string().starts_with(words), "{refusal}");
        assert_eq!(link.symbol_count(), 2);
    }
}

#[test]
fn the_second_common_may_be_a_library_s_and_admits() {
    for profile in PROFILES {
        let mut link = Link::with_profile(profile, CAPACITY).unwrap();
        assert!(link.merge_elf(&object_of(&[("a", common(1, 8, 8))])).is_ok());
        let name = link.find(b"a").unwrap();
        let mut library = SharedObject::new(b"\0a\0".to_vec(), LibraryName::Known(b"l"));
        library.push_symbol(ElfSymbol { name: 1, ..common(2, 64, 3) });
        assert!(matches!(link.load_shared_object(&library), Ok(Load::Loaded)));
        let symbol = link.get_global(name).unwrap();
        assert_eq!((symbol.size, symbol.alignment()), (8, 8));
    }
}

// ---- the compiler's

const FIRST: &str = "char small; int word; double wide[3]; struct { char bytes[100]; } big \
                     __attribute__((aligned(64))); int *use(void) { return &word; }";
const SECOND: &str = "short small; int word[40]; float wide; extern char big[]; char own[7];
                      char *reads(void) { return big; }";
const THIRD: &str = "int word = 5; long double own;";

/// Size and alignment of each global common, as the assembler is told them; nothing without a compiler.
fn told(compiler: &str, source: &Path) -> Option<BTreeMap<String, (u64, u64)>> {
    let args = ["-fcommon", "-O1", "-S", "-o", "-"];
    let out = Command::new(compiler).args(args).arg(source).output().ok()?;
    assert!(out.status.success(), "{}", String::from_utf8_lossy(&out.stderr));
    let text = String::from_utf8(out.stdout).unwrap();
    let lines = text.lines().filter_map(|line| line.trim().strip_prefix(".comm"));
    Some(
        lines
            .map(|line| {
                let words: Vec<_> = line.trim().split(',').map(str::trim).collect();
                (words[0].into(), (words[1].parse().unwrap(), words[2].parse().unwrap()))
            })
            .collect(),
    )
}

#[test]
fn commons_of_the_compiler() {
    let compiler = std::env::var("CC").unwrap_or("cc".into());
    let folder = Path::new(env!("CARGO_TARGET_TMPDIR"));
    let mut files = Vec::new();
    let mut commons: Vec<BTreeMap<String, (u64, u64)>> = Vec::new();
    for (number, text) in [FIRST, SECOND, THIRD].iter().enumerate() {
        let source = folder.join(format!("commons{number}.c"));
        let object = folder.join(format!("commons{number}.o"));
        std::fs::write(&source, text).unwrap();
        let Some(told) = told(&compiler, &source) else {
            eprintln!("no C compiler: nothing is tried");
            return;
        };
        commons.push(told);
        let built = Command::new(&compiler)
            .args(["-fcommon", "-O1", "-fno-asynchronous-unwind-tables", "-c", "-o"])
            .args([&object, &source])
            .status();
        assert!(built.unwrap().success());
        files.push(std::fs::read(&object).unwrap());
    }
    assert!(commons[0].len() == 4 && commons[1].len() == 4 && commons[2].len() == 1, "{commons:?}");
    assert_eq!(commons[0]["big"], (100, 64));
    assert_eq!(commons[0]["word"], (4, 4));
    for profile in PROFILES {
        let capacity = Capacity { symbols: 64, ..CAPACITY };
        let mut link = Link::with_profile(profile, capacity).unwrap();
        let held = |link: &Link, name: &str| {
            let symbol = link.get_global(link.find(name.as_bytes()).unwrap()).unwrap();
            let common = matches!(symbol.value, SymbolValue::Common { .. });
            (common, symbol.size, symbol.alignment())
        };
        link.merge_file(&files[0]).unwrap();
        for (name, (size, alignment)) in &commons[0] {
            assert_eq!(held(&link, name), (true, *size, *alignment), "{name}");
        }
        link.merge_file(&files[1]).unwrap();
        for (name, (size, alignment)) in &commons[0] {
            let other = commons[1].get(name).copied().unwrap_or_default();
            let joined = (true, (*size).max(other.0), (*alignment).max(other.1));
            assert_eq!(held(&link, name), joined, "{name}");
        }
        link.merge_file(&files[2]).unwrap();
        assert_eq!(held(&link, "word"), (false, 4, 0));
        let (own, more) = (commons[1]["own"], commons[2]["own"]);
        assert_eq!(held(&link, "own"), (true, own.0.max(more.0), own.1.max(more.1)));
    }
}
