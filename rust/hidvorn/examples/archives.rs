//! What the members of archives are answered: `archives FILE ..`. Each is merged by itself into a new
//! link of each profile; and once more into one in which every group of it was met before, as when an
//! earlier object had the same templates. Prints how many members have each answer, 0 for accepted.
use hidvorn::{Capacity, ElfSymbol, Link, Object, Profile, Refusal, SectionContent, SectionHeader};
use std::collections::BTreeMap;
use std::{env, fs, io};

/// The members of an archive but its index and its long names.
fn members(archive: &[u8]) -> impl Iterator<Item = &[u8]> {
    let mut at = 8;
    std::iter::from_fn(move || {
        loop {
            let header = archive.get(at..at + 60)?;
            let size: usize = str::from_utf8(&header[48..58]).ok()?.trim().parse().ok()?;
            let file = archive.get(at + 60..at + 60 + size)?;
            at += 60 + size + size % 2;
            if !matches!(header[..16].trim_ascii_end(), b"/" | b"//" | b"/SYM64/") {
                return Some(file);
            }
        }
    })
}

/// An object with a group of no section for each of these signatures.
fn groups(signatures: &[Vec<u8>]) -> Object<'static> {
    let mut strings = vec![0];
    let mut names = Vec::new();
    for signature in signatures {
        names.push(strings.len());
        strings.extend(signature);
        strings.push(0);
    }
    let len = strings.len();
    let mut object = Object::new(strings);
    let header = |content| SectionHeader { content, ..Default::default() };
    object.push_section(header(SectionContent::Null));
    object.push_section(header(SectionContent::StringTable { first: 0, len }));
    let count = names.len();
    object.push_section(header(SectionContent::SymbolTable { strings: 1, first: 0, count }));
    for (signature, name) in names.into_iter().enumerate() {
        // Of type 4: it gets no row.
        object.push_symbol(ElfSymbol { name, kind: 4, section: 0xfff1, ..Default::default() });
        let sections = &[65_000];
        let content = SectionContent::Group { table: 2, signature, comdat: true, sections };
        object.push_section(header(content));
    }
    object
}

type Counts = BTreeMap<u64, usize>;

fn count(counts: &mut Counts, answer: Result<(), Refusal>) {
    *counts.entry(answer.map_or_else(|refusal| refusal.number(), |()| 0)).or_default() += 1;
}

fn main() -> io::Result<()> {
    for profile in [Profile::Old, Profile::Gabi] {
        let mut link = Link::with_profile(profile, Capacity::BOUNDS).expect("room for a link");
        let (mut alone, mut met) = (Counts::new(), Counts::new());
        for path in env::args_os().skip(1) {
            let archive = fs::read(path)?;
            for file in members(&archive) {
                link.clear();
                count(&mut alone, link.merge_file(file).map(|_| ()));
                let names = link.group_signatures();
                let signatures: Vec<_> =
                    names.map(|name| link.resolve(name).expect("a name").to_vec()).collect();
                if !signatures.is_empty() {
                    link.clear();
                    link.merge_elf(&groups(&signatures)).expect("groups alone");
                    count(&mut met, link.merge_file(file).map(|_| ()));
                }
            }
        }
        println!("{profile:?}: {alone:?}");
        println!("{profile:?}, with groups that were met before: {met:?}");
    }
    Ok(())
}
