//! Takes the lines of a list one by one, runs them on this port and gives its answers.
use crate::rows::{ArchiveRows, LibraryRows, ObjectRows, SectionRow, SymbolRow, Words};
use crate::rows::{counted, shown};
use hidvorn::*;
use std::any::Any;
use std::cell::Cell;
use std::collections::{BTreeMap, BTreeSet};
use std::panic::{AssertUnwindSafe, catch_unwind};

/// Enough for the links of the lists: the Rust's have no bounds, so that none may be met here, nor
/// have those of the plain reading.
const CAPACITY: Capacity =
    Capacity { names: 512, name_bytes: 65_536, symbols: 1024, sections: 256, inputs: 64 };

pub struct Ours {
    link: Link,
    /// A link of the other profile, for the next one that is.
    other: Link,
    /// Has the groups of the merged objects, each added by itself.
    alone: Link,
    /// What previews write into, over whatever the last one left.
    place: Link,
    conversion: SectionConversion,
    object: ObjectRows,
    library: LibraryRows,
    /// Symbol rows belong to the library.
    in_library: bool,
    archive: ArchiveRows,
    /// In place of it several archives: their indexes, and where each ends.
    indexes: Option<(Vec<u8>, Vec<u64>)>,
    members: BTreeMap<u64, ObjectRows>,
    walk: Option<PendingArchive<'static>>,
    offered: Option<Member>,
    /// Required names that were set by hand.
    required: Option<Vec<String>>,
    /// The id of the empty name.
    empty: Interned,
}

thread_local! {
    static ANSWERS: Cell<bool> = const { Cell::new(false) };
}

/// Panics on this side are answers: they aren't printed.
pub fn silence_panics() {
    let loud = std::panic::take_hook();
    std::panic::set_hook(Box::new(move |info| {
        if !ANSWERS.get() {
            loud(info);
        }
    }));
}

fn message(panic: &(dyn Any + Send)) -> String {
    let text = match (panic.downcast_ref::<&str>(), panic.downcast_ref::<String>()) {
        (Some(text), _) => text,
        (None, Some(text)) => text.as_str(),
        (None, None) => "",
    };
    format!("panicked: {}", text.lines().next().unwrap_or_default())
}

impl Default for Ours {
    fn default() -> Self {
        Ours::new()
    }
}

impl Ours {
    pub fn new() -> Self {
        let new =
            |profile| Link::with_profile(profile, CAPACITY).expect("room for the null symbol");
        let mut link = new(Profile::Old);
        Ours {
            empty: link.intern(b"").expect("the empty name"),
            alone: link.clone(),
            place: new(Profile::Old),
            link,
            other: new(Profile::Gabi),
            conversion: SectionConversion::new(),
            object: ObjectRows::default(),
            library: LibraryRows::default(),
            in_library: false,
            archive: ArchiveRows::default(),
            indexes: None,
            members: BTreeMap::new(),
            walk: None,
            offered: None,
            required: None,
        }
    }

    pub fn is_broken(&self) -> bool {
        self.link.is_broken()
    }

    /// The answers to a line, without their `> `. A panic is one, so that its link isn't lost.
    pub fn line(&mut self, line: &str) -> Vec<String> {
        let counts = |link: &Link| format!("{link:?}");
        let before = (self.is_broken() && !oracle::begins(line)).then(|| counts(&self.link));
        ANSWERS.set(true);
        let answers = catch_unwind(AssertUnwindSafe(|| self.answers(line)));
        ANSWERS.set(false);
        let mut answers = answers.unwrap_or_else(|panic| vec![message(&*panic)]);
        // Names aren't in any dump.
        if before.is_some_and(|before| before != counts(&self.link)) {
            answers.push(format!("changed though broken: {:?}", self.link));
        }
        answers
    }

    fn answers(&mut self, line: &str) -> Vec<String> {
        let (keyword, mut words) = Words::of(line);
        match keyword {
            "link" => self.clear(match words.0.next() {
                // With commons the Rust isn't asked; here nothing differs.
                None | Some("commons") => Profile::Old,
                Some("gabi") => Profile::Gabi,
                Some(other) => panic!("no profile {other:?}"),
            }),
            "conversion" => self.conversion = words.0.map(converted).collect(),
            "add" => return vec![told(self.add(&mut words).map(id))],
            "remove" => {
                let removed = self.link.remove(SymbolId::new(words.number() as usize));
                return vec![told(removed.map(|()| "ok".into()))];
            }
            "get" => {
                let found = self.link.get(SymbolId::new(words.number() as usize));
                return vec![told(found.map(|symbol| self.symbol(&symbol)))];
            }
            "global" => return vec![told(self.global(words.name()))],
            "sectionsymbol" => {
                let section = SectionId::new(words.number() as usize);
                return vec![self.link.section_symbol_id(section).map_or("none".into(), id)];
            }
            "object" => {
                words.number();
                words.number();
                self.object = ObjectRows { names: words.number(), ..ObjectRows::default() };
                self.in_library = false;
            }
            "section" => self.object.sections.push(SectionRow::read(&mut words)),
            "symbol" if self.in_library => self.library.symbols.push(SymbolRow::read(&mut words)),
            "symbol" => self.object.symbols.push(SymbolRow::read(&mut words)),
            "merge" => {
                let Ours { link, alone, place, object, .. } = self;
                return vec![previewed_merge(link, alone, place, object)];
            }
            "library" => {
                self.library = LibraryRows {
                    as_needed: words.flag(),
                    soname: words.optional_name().map(String::from),
                    file: words.optional_name().map(String::from),
                    ..LibraryRows::default()
                };
                self.in_library = true;
            }
            "strings" => self.library.strings = words.bytes(),
            "needs" => self.library.needs.push(words.name().into()),
            "load" => return vec![told(self.load())],
            "archive" => {
                self.archive = ArchiveRows { has_index: words.flag(), entries: Vec::new() };
                self.indexes = None;
                (self.walk, self.offered, self.required) = (None, None, None);
                self.members.clear();
            }
            "indexes" => {
                self.indexes = Some((words.bytes(), words.numbers()));
                self.archive = ArchiveRows::default();
                (self.walk, self.offered, self.required) = (None, None, None);
                self.members.clear();
            }
            "entry" => self.archive.entries.push((words.number(), words.name().into())),
            "index" => {}
            "member" => drop(self.members.insert(words.number(), self.object.clone())),
            "start" => return vec![told(self.start())],
            "next" => return vec![told(self.next())],
            "require" => {
                let count = words.number();
                self.required = Some((0..count).map(|_| words.name().into()).collect());
            }
            "admit" => return vec![told(self.admit())],
            "walk" => return self.whole_walk(),
            "collect" => return vec![told(self.collect(&mut words))],
            "dump" => return self.dump(),
            other => panic!("no operation {other:?}"),
        }
        Vec::new()
    }

    fn clear(&mut self, profile: Profile) {
        if self.link.profile() != profile {
            std::mem::swap(&mut self.link, &mut self.other);
        }
        self.link.clear();
        self.alone.clear();
        (self.object, self.library) = (ObjectRows::default(), LibraryRows::default());
        (self.archive, self.in_library) = (ArchiveRows::default(), false);
        self.indexes = None;
        (self.walk, self.offered, self.required) = (None, None, None);
        self.members.clear();
    }

    // ---- symbols

    /// A broken link issues no names. There it is the empty one's id, which every link has, so
    /// that the call by it is judged too.
    fn intern(&mut self, name: &str) -> Interned {
        let name = self.link.intern(name.as_bytes());
        match name {
            Err(Refusal { cause: Cause::BrokenLink, place: 0, .. }) if self.is_broken() => {
                self.empty
            }
            _ => name.expect("room for a name"),
        }
    }

    fn add(&mut self, words: &mut Words) -> Result<SymbolId, Refusal> {
        let symbol = match words.word() {
            "null" => UpcomingSymbol::Null,
            "section" => {
                UpcomingSymbol::Section { section: SectionId::new(words.number() as usize) }
            }
            "unknown" => UpcomingSymbol::GlobalUnknown { name: self.intern(words.name()) },
            "hidden" => UpcomingSymbol::GlobalHidden {
                name: self.intern(words.name()),
                value: value(words),
            },
            "external" => UpcomingSymbol::ExternallyDefined {
                name: self.intern(words.name()),
                binding: words.number(),
                visibility: words.number(),
            },
            "elf" => {
                let name = self.intern(words.name());
                let mut elf = ElfSymbol {
                    name: 0,
                    binding: words.number(),
                    kind: words.number(),
                    visibility: words.number(),
                    section: words.number() as usize,
                    value: words.number(),
                    size: 0,
                };
                let file = words.optional_name().map(|file| self.intern(file));
                elf.size = words.optional_number();
                UpcomingSymbol::Elf { elf, name, file, conversion: &self.conversion }
            }
            other => panic!("no add {other:?}"),
        };
        self.link.add(symbol)
    }

    /// The name is issued first, as the Rust does.
    fn global(&mut self, name: &str) -> Result<String, Refusal> {
        // On a broken link no name is issued any more; one that wasn't is held by nobody.
        let issued = self.link.intern(name.as_bytes()).ok();
        let Some(name) = issued.or_else(|| self.link.find(name.as_bytes())) else {
            return Err(Refusal::new(Cause::UnknownGlobalName, 0));
        };
        let symbol = self.link.get_global(name)?;
        Ok(self.symbol(&symbol))
    }

    // ---- libraries, archives, collections

    fn load(&mut self) -> Result<String, Refusal> {
        let rows = &self.library;
        let mut strings = rows.strings.clone();
        assert!(strings.last().is_none_or(|last| *last == 0), "a table that ends inside a name");
        let mut offset = |name: &str| {
            let at = strings.len();
            strings.extend(name.as_bytes());
            strings.push(0);
            at
        };
        let soname = rows.soname.as_deref().map(&mut offset);
        let needs: Vec<_> = rows.needs.iter().map(|name| offset(name)).collect();
        let name = match &rows.file {
            Some(name) => LibraryName::Known(name.as_bytes()),
            None => LibraryName::InsideArchive,
        };
        let mut library = SharedObject::new(strings, name);
        library.set_as_needed(rows.as_needed);
        soname.into_iter().for_each(|offset| library.set_soname(offset));
        rows.symbols.iter().for_each(|row| library.push_symbol(symbol(row)));
        needs.into_iter().for_each(|offset| library.push_dependency(offset));
        Ok(match self.link.load_shared_object(&library)? {
            Load::Loaded => "loaded".into(),
            Load::NotNeeded => "notneeded".into(),
        })
    }

    fn start(&mut self) -> Result<String, Refusal> {
        (self.walk, self.offered, self.required) = (None, None, None);
        self.walk = Some(match &self.indexes {
            None => PendingArchive::new(self.archive.index())?,
            Some((bytes, ends)) => start_over(bytes, ends)?,
        });
        Ok("started".into())
    }

    fn next(&mut self) -> Result<String, Refusal> {
        let walk = self.walk.as_mut().expect("a walk");
        Ok(match walk.next(&self.link)? {
            Step::Done { passes } => format!("done {passes}"),
            Step::Member(member) => {
                self.offered = Some(member);
                self.required = None;
                let names: BTreeSet<_> = walk.required(&member).map(text).map(shown).collect();
                let whose = match self.indexes {
                    Some(_) => format!("of {} ", member.archive),
                    None => String::new(),
                };
                format!("{whose}member {} {} {}", member.offset, member.passes, counted(names))
            }
        })
    }

    fn admit(&self) -> Result<String, Refusal> {
        let object = object(&self.object);
        let admitted = match (&self.required, &self.walk, &self.offered) {
            (Some(names), _, _) => by_hand(self.link.profile(), names, &object)?,
            (None, Some(walk), Some(member)) => walk.admits(&self.link, member, &object)?,
            _ => panic!("nothing is required"),
        };
        Ok(if admitted { "yes".into() } else { "no".into() })
    }

    /// Offer, admission, merge, as `ObjectsReader`'s caller does.
    fn whole_walk(&mut self) -> Vec<String> {
        let mut answers = Vec::new();
        let mut walk = match PendingArchive::new(self.archive.index()) {
            Ok(walk) => walk,
            Err(refusal) => return vec![refused(refusal)],
        };
        loop {
            let member = match walk.next(&self.link) {
                Ok(Step::Member(member)) => member,
                Ok(Step::Done { .. }) => {
                    answers.push("done".into());
                    return answers;
                }
                Err(refusal) => {
                    answers.push(refused(refusal));
                    return answers;
                }
            };
            let rows = &self.members[&member.offset];
            let outcome = match walk.admits(&self.link, &member, &object(rows)) {
                Ok(false) => "no".into(),
                Ok(true) => previewed_merge(&mut self.link, &mut self.alone, &mut self.place, rows),
                Err(refusal) => refused(refusal),
            };
            let ends = outcome.starts_with("refused");
            answers.push(format!("offer {} {outcome}", member.offset));
            if ends {
                return answers;
            }
        }
    }

    fn collect(&mut self, words: &mut Words) -> Result<String, Refusal> {
        let there = words.flag();
        let entry = SymbolId::new(words.number() as usize);
        let present = |link: &Link| link.symbols().flatten().count();
        let before = present(&self.link);
        let collected = self.link.gc_sections(&words.bytes(), there.then_some(entry))?;
        // The Rust doesn't tell how many symbols it removes; the rows do.
        if before - present(&self.link) != collected.symbols {
            return Ok(format!("removed {} symbols", collected.symbols));
        }
        let names: Vec<_> = self.link.sections().map(|section| section_name(&section)).collect();
        let names = collected.sections.iter().map(|id| {
            let name = names[id.number()].expect("a dropped section keeps its name");
            shown(self.name(name))
        });
        Ok(format!("dropped {}", counted(names)))
    }

    // ---- rows as lines

    fn name(&self, name: Interned) -> &str {
        text(self.link.resolve(name).expect("an issued name"))
    }

    fn symbol(&self, symbol: &Symbol) -> String {
        let (class, hidden) = match symbol.visibility {
            SymbolVisibility::Local => ("local", false),
            SymbolVisibility::Global { weak: false, hidden } => ("global", hidden),
            SymbolVisibility::Global { weak: true, hidden } => ("weak", hidden),
        };
        let kind = match symbol.kind {
            SymbolType::NoType => 0,
            SymbolType::Object => 1,
            SymbolType::Function => 2,
            SymbolType::Section => 3,
        };
        let file = match symbol.file {
            Some(file) => format!("1 {}", shown(self.name(file))),
            None => "0 -".into(),
        };
        format!(
            "symbol {} {} {class} {} {kind} {file} {}",
            symbol.id.number(),
            shown(self.name(symbol.name)),
            hidden as u8,
            value_line(symbol.value)
        ) + &match symbol.size {
            0 => String::new(),
            size => format!(" size {size}"),
        }
    }

    fn dump(&self) -> Vec<String> {
        let link = &self.link;
        let mut out = Vec::new();
        out.push(format!("symbols {}", link.symbol_count()));
        out.extend(link.symbols().enumerate().map(|(id, row)| match row {
            Some(symbol) => self.symbol(&symbol),
            None => format!("symbol {id} removed"),
        }));
        let of_sections = link.section_symbols().map(|(section, symbol)| {
            format!("sectionsymbol {} {}", section.number(), symbol.number())
        });
        extend(&mut out, "sectionsymbols", of_sections);
        let mut names: Vec<_> = link.global_names().map(|(name, id)| (id, name)).collect();
        names.sort();
        let names = names
            .iter()
            .map(|(id, name)| format!("global {} {}", shown(self.name(*name)), id.number()));
        extend(&mut out, "globals", names);
        let sections = link.sections().enumerate().map(|(id, section)| self.section(id, &section));
        extend(&mut out, "sections", sections);
        let groups: BTreeSet<_> = link.group_signatures().map(|name| self.name(name)).collect();
        extend(&mut out, "groups", groups.iter().map(|name| format!("group {}", shown(name))));
        extend(&mut out, "inputs", link.inputs().map(|input| self.input(&input)));
        out
    }

    fn section(&self, id: usize, section: &Section) -> String {
        match section {
            Section::Reserved => format!("section {id} reserved"),
            Section::Dropped { name, .. } => {
                format!("section {id} dropped {}", shown(self.name(*name)))
            }
            Section::Built { name, program, retain, read, relocations, .. } => format!(
                "section {id} built {} {} {} {} {}",
                shown(self.name(*name)),
                if *program { 1 } else { 2 },
                *retain as u8,
                *read as u8,
                counted(relocations.iter().map(SymbolId::number))
            ),
        }
    }

    fn input(&self, input: &Input) -> String {
        let names = |names: &Names| counted(names.iter().map(|name| shown(self.name(name))));
        match input {
            Input::Object => "input object".into(),
            Input::Library { name, dependencies, undefined } => format!(
                "input library {} {} {}",
                shown(self.name(*name)),
                names(dependencies),
                names(undefined)
            ),
        }
    }
}

/// A line with the count, then the lines.
fn extend(out: &mut Vec<String>, title: &str, lines: impl Iterator<Item = String>) {
    let at = out.len();
    out.push(String::new());
    out.extend(lines);
    out[at] = format!("{title} {}", out.len() - at - 1);
}

fn told(answer: Result<String, Refusal>) -> String {
    answer.unwrap_or_else(refused)
}

fn refused(refusal: Refusal) -> String {
    format!("refused {} {}", refusal.number(), refusal.place)
}

fn id(symbol: SymbolId) -> String {
    format!("id {}", symbol.number())
}

fn text(bytes: &[u8]) -> &str {
    std::str::from_utf8(bytes).expect("the lists' names are ASCII")
}

fn section_name(section: &Section) -> Option<Interned> {
    match section {
        Section::Reserved => None,
        Section::Built { name, .. } | Section::Dropped { name, .. } => Some(*name),
    }
}

fn converted(word: &str) -> Converted {
    match word {
        "none" => Converted::Nothing,
        "unloaded" => Converted::NotLoaded,
        id => Converted::Section(SectionId::new(id.parse().expect("an id"))),
    }
}

fn value(words: &mut Words) -> SymbolValue {
    let section = |words: &mut Words| SectionId::new(words.number() as usize);
    match words.word() {
        "null" => SymbolValue::Null,
        "abs" => SymbolValue::Absolute { value: words.number() },
        "sec" => SymbolValue::Section { section: section(words) },
        "rel" => {
            let section = section(words);
            let negative = words.word() == "-";
            let size = words.number() as i64;
            let offset = if negative { size.wrapping_neg() } else { size };
            SymbolValue::SectionRelative { section, offset }
        }
        "addr" => {
            SymbolValue::SectionVirtualAddress { section: section(words), address: words.number() }
        }
        "notloaded" => SymbolValue::SectionNotLoaded,
        "external" => SymbolValue::ExternallyDefined,
        "undef" => SymbolValue::Undefined { default_zero: words.flag() },
        "com" => SymbolValue::Common { alignment: words.number() },
        other => panic!("no value {other:?}"),
    }
}

fn value_line(value: SymbolValue) -> String {
    match value {
        SymbolValue::Null => "null".into(),
        SymbolValue::Absolute { value } => format!("abs {value}"),
        SymbolValue::Section { section } => format!("sec {}", section.number()),
        SymbolValue::SectionRelative { section, offset } => {
            let sign = if offset < 0 { '-' } else { '+' };
            format!("rel {} {sign} {}", section.number(), offset.unsigned_abs())
        }
        SymbolValue::SectionVirtualAddress { section, address } => {
            format!("addr {} {address}", section.number())
        }
        SymbolValue::SectionNotLoaded => "notloaded".into(),
        SymbolValue::ExternallyDefined => "external".into(),
        SymbolValue::Undefined { default_zero } => format!("undef {}", default_zero as u8),
        SymbolValue::Common { alignment } => format!("com {alignment}"),
    }
}

fn symbol(row: &SymbolRow) -> ElfSymbol {
    let SymbolRow { name, binding, kind, visibility, section, value, size } = *row;
    let [name, section] = [name, section].map(|number| number as usize);
    ElfSymbol { name, binding, kind, visibility, section, value, size }
}

/// The object's rows; its string tables, one after the other, are its file.
pub fn object(rows: &ObjectRows) -> Object<'static> {
    let mut file = Vec::new();
    let mut places = Vec::new();
    for row in &rows.sections {
        places.push(file.len());
        if row.kind == 4 {
            file.extend(&row.bytes);
        }
    }
    let mut object = Object::new(file);
    object.set_section_names(rows.names as usize);
    rows.symbols.iter().for_each(|row| object.push_symbol(symbol(row)));
    for (row, place) in rows.sections.iter().zip(places) {
        let [name, link, info] = [row.name, row.link, row.info].map(|number| number as usize);
        let items: Vec<_> = row.items.iter().map(|number| *number as usize).collect();
        let (strings, table, items) = (link, link, items.as_slice());
        let range = || (items[0], items[1]);
        let relocations = Relocations { table, applies_to: info, symbols: items };
        let content = match row.kind {
            0 => SectionContent::Null,
            1 => SectionContent::Program,
            2 => SectionContent::Uninitialized,
            3 => {
                let (first, count) = range();
                SectionContent::SymbolTable { strings, first, count }
            }
            4 => SectionContent::StringTable { first: place, len: row.bytes.len() },
            5 => SectionContent::Rel(relocations),
            6 => SectionContent::Rela(relocations),
            7 => SectionContent::Group {
                table,
                signature: info,
                comdat: row.comdat,
                sections: items,
            },
            8 => SectionContent::Hash,
            9 => SectionContent::GnuHash,
            10 => {
                let (first, count) = range();
                SectionContent::DynamicSymbolTable { strings, first, count }
            }
            11 => SectionContent::EhFrameHdr,
            12 => SectionContent::Dynamic,
            13 => SectionContent::Unknown,
            14 => SectionContent::Note,
            other => panic!("no section kind {other}"),
        };
        let SectionRow { exclude, retain, read, .. } = *row;
        object.push_section(SectionHeader {
            name,
            exclude,
            retain,
            read,
            content,
            ..Default::default()
        });
    }
    object
}

/// A walk over indexes by their ends. Where these leave no byte out, the indexes by themselves are to
/// be answered alike, and walked; one alone too.
fn start_over(bytes: &[u8], ends: &[u64]) -> Result<PendingArchive<'static>, Refusal> {
    let by_ends = PendingArchive::with_ends(7, bytes.to_vec(), ends);
    let starts = [0].iter().chain(ends);
    let part = |(start, end): (&u64, &u64)| bytes.get(*start as usize..*end as usize);
    let parts: Option<Vec<&[u8]>> = starts.zip(ends).map(part).collect();
    let Some(parts) = parts.filter(|_| ends.last().is_none_or(|end| *end == bytes.len() as u64))
    else {
        return by_ends;
    };
    let told = |walk: &PendingArchive| {
        let entries = (0..walk.entry_count()).map(|at| {
            let entry = walk.entry(at).expect("an entry");
            (entry.archive, entry.offset, entry.name.to_vec())
        });
        (walk.archive_count(), entries.collect::<Vec<_>>())
    };
    let by_parts = PendingArchive::of(&parts);
    assert_eq!(by_parts.as_ref().map(told), by_ends.as_ref().map(told), "by parts and by ends");
    if let [one] = parts[..] {
        let alone = PendingArchive::new(one);
        assert_eq!(alone.as_ref().map(told), by_ends.as_ref().map(told), "alone and by ends");
    }
    // It may borrow the parts; the walk is to live on.
    by_parts?;
    by_ends
}

/// Whether a merge tells each section's id: they ascend over what is loaded, excluded ones have none.
fn told_ids(merged: &Merged, rows: &ObjectRows, first: usize) -> bool {
    let mut next = first;
    rows.sections.iter().enumerate().all(|(number, row)| {
        let expected = match (row.exclude, row.kind) {
            (true, _) => Converted::Nothing,
            (false, 1 | 2) => {
                next += 1;
                Converted::Section(SectionId::new(next - 1))
            }
            _ => Converted::NotLoaded,
        };
        merged.section(number) == expected
    })
}

/// All that a link tells of itself.
fn everything(link: &Link) -> String {
    format!(
        "{link:?} {:?} {:?} {:?} {:?} {:?} {:?}",
        link.symbols().collect::<Vec<_>>(),
        link.sections().collect::<Vec<_>>(),
        link.inputs().collect::<Vec<_>>(),
        link.global_names().map(|(name, id)| (link.resolve(name), id)).collect::<Vec<_>>(),
        link.group_signatures().collect::<Vec<_>>(),
        link.section_symbols().collect::<Vec<_>>(),
    )
}

/// Previews the object, then merges it: the preview's answer and rows have to be the merge's, and
/// the link stays as it was until then.
fn previewed_merge(
    link: &mut Link,
    alone: &mut Link,
    place: &mut Link,
    rows: &ObjectRows,
) -> String {
    let (before, untouched) = (everything(link), everything(place));
    let shown = told(link.preview_in(&object(rows), place).map(|()| "merged".into()));
    if everything(link) != before {
        return "the preview changed the link".into();
    }
    let answer = merge(link, alone, rows);
    let expected = match shown.split(' ').nth(1) {
        Some("22" | "1") => untouched,
        _ => everything(link),
    };
    match (shown == answer, everything(place) == expected) {
        (true, true) => answer,
        (false, _) => format!("{answer}, but previewed as {shown}"),
        (true, false) => format!("{answer}, but the preview shows another link"),
    }
}

/// Merges, and adds the object's groups by themselves to the other link. They must be refused as
/// in the merge, and remove the sections that it leaves reserved.
fn merge(link: &mut Link, alone: &mut Link, rows: &ObjectRows) -> String {
    let (object, first, broken) = (object(rows), link.section_count(), link.is_broken());
    let gabi = link.profile() == Profile::Gabi;
    let merged = link
        .merge_elf(&object)
        .map(|merged| told_ids(&merged, rows, first).then(|| merged.symbols().collect::<Vec<_>>()));
    if let Ok(None) = merged {
        return "other ids of sections than the rows have".into();
    }
    let ids = merged.as_ref().map_or(Vec::new(), |ids| ids.clone().unwrap_or_default());
    let merged = merged.map(|_| ());
    if broken {
        return told(merged.map(|()| "merged".into()));
    }
    let numbers = |kinds: &'static [u64]| {
        let all = (0..).zip(&rows.sections);
        all.filter(|(_, row)| !row.exclude && kinds.contains(&row.kind)).map(|(number, _)| number)
    };
    let table = numbers(&[3]).next().unwrap_or(usize::MAX);
    let mut marks = GroupMarks::new(&object, table);
    let added = numbers(&[7]).try_for_each(|section| alone.add_group(&mut marks, section));
    let same = match merged.as_ref().map_err(Refusal::number) {
        // It is refused before its groups are judged.
        Err(1 | 3 | 24) => true,
        Err(4..=7 | 29) => added == merged,
        Err(_) => added.is_ok(),
        Ok(()) => {
            let mut sections = numbers(&[1, 2]).zip(link.sections().skip(first));
            added.is_ok()
                && numbers(&[7]).all(|number| marks.is_group(number) || marks.is_removed(number))
                && sections.all(|(number, section)| {
                    marks.is_removed(number) == (section == Section::Reserved)
                })
                && are_given(gabi, rows, table, &marks, &ids)
        }
    };
    match same {
        true => told(merged.map(|()| "merged".into())),
        false => format!("groups by themselves {added:?} {marks:?}"),
    }
}

/// Whether just those symbols have ids that are neither of type 4, of a section that defines a group,
/// nor dropped: local ones of removed sections, in the gABI profile.
fn are_given(
    gabi: bool,
    rows: &ObjectRows,
    table: usize,
    marks: &GroupMarks,
    ids: &[Option<SymbolId>],
) -> bool {
    let symbols = match rows.sections.get(table).map(|row| &row.items[..]) {
        Some([first, count]) => &rows.symbols[*first as usize..][..*count as usize],
        _ => &[],
    };
    let has_id = |row: &SymbolRow| {
        let section = row.section as usize;
        let removed = row.section != 0 && row.section < 0xff00 && marks.is_removed(section);
        let dropped = gabi && removed && row.binding == 0;
        !dropped && row.kind != 4 && !marks.is_group(section)
    };
    ids.len() == symbols.len()
        && symbols.iter().zip(ids).all(|(row, id)| has_id(row) == id.is_some())
}

/// Admission by names that were set by hand: a walk over a link in which just these are
/// undefined, of an index that ties them all to one member.
fn by_hand(profile: Profile, names: &[String], object: &Object) -> Result<bool, Refusal> {
    if names.is_empty() {
        return Ok(false);
    }
    let mut link = Link::with_profile(profile, CAPACITY)?;
    let mut archive = ArchiveRows { has_index: true, entries: Vec::new() };
    for name in names {
        archive.entries.push((8, name.clone()));
        let name = link.intern(name.as_bytes())?;
        link.add(UpcomingSymbol::GlobalUnknown { name })?;
    }
    let mut walk = PendingArchive::new(archive.index())?;
    match walk.next(&link)? {
        Step::Member(member) => walk.admits(&link, &member, object),
        Step::Done { .. } => panic!("an undefined name is tied to a member"),
    }
}
