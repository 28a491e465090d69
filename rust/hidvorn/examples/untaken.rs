//! What is told of members that were not taken, over a static link of real files: objects are
//! merged, then the archives are walked in turn until none gives a member more. Counts what
//! `PendingArchive::shadowed` tells at the walks' ends and at the link's, and what
//! `Link::would_define` tells of each member that no walk took, by how the link holds the name.
//!
//!     cargo run --release --example untaken -- crt1.o main.o libc.a libgcc.a
use hidvorn::{Capacity, Link, Object, PendingArchive, Profile, Step};
use std::collections::{BTreeMap, BTreeSet};
use std::{env, error::Error, fs};
use support::strength;

#[allow(dead_code)]
mod support;

type Outcome<T> = Result<T, Box<dyn Error>>;

fn number(bytes: &[u8], at: usize, len: usize) -> usize {
    bytes[at..at + len].iter().rev().fold(0, |n, byte| n << 8 | usize::from(*byte))
}

/// The file without what a link refuses: sections of other types are program data, groups are
/// left out, and symbols are of the types 0 to 3, of the bindings 0 to 2 and of visibility 0 or 2.
fn plain(file: &[u8]) -> Vec<u8> {
    let mut out = file.to_vec();
    let (headers, count) = (number(file, 40, 8), number(file, 60, 2));
    for header in (0..count).map(|section| headers + 64 * section) {
        match number(file, header + 4, 4) {
            17 => out[header + 4] = 0,
            0..=4 | 7..=9 => {}
            _ => out[header + 4..header + 8].copy_from_slice(&[1, 0, 0, 0]),
        }
        let (first, len) = (number(file, header + 24, 8), number(file, header + 32, 8));
        let symbols = if number(file, header + 4, 4) == 2 { len / 24 } else { 0 };
        for symbol in (0..symbols).map(|symbol| first + 24 * symbol) {
            let (binding, kind) = (file[symbol + 4] >> 4, file[symbol + 4] & 15);
            let kind = [0, 1, 2, 3, 4, 1, 1, 0, 0, 0, 2, 0, 0, 0, 0, 0][usize::from(kind)];
            out[symbol + 4] = if binding == 10 { 2 } else { binding } << 4 | kind;
            out[symbol + 5] = if file[symbol + 5] & 3 == 2 { 2 } else { 0 };
        }
    }
    out
}

/// The bytes of the member whose header is at that offset of the archive.
fn member(archive: &[u8], offset: usize) -> Outcome<&[u8]> {
    let header = archive.get(offset..offset + 60).ok_or("no member there")?;
    let size: usize = str::from_utf8(&header[48..58])?.trim().parse()?;
    Ok(archive.get(offset + 60..offset + 60 + size).ok_or("a member cut short")?)
}

struct Archive {
    path: String,
    bytes: Vec<u8>,
    taken: BTreeSet<u64>,
}

impl Archive {
    fn walk(&self) -> Outcome<PendingArchive<'_>> {
        Ok(PendingArchive::new(member(&self.bytes, 8)?)?)
    }

    fn member(&self, offset: u64) -> Outcome<Vec<u8>> {
        Ok(plain(member(&self.bytes, offset as usize)?))
    }
}

fn main() -> Outcome<()> {
    let mut link = Link::with_profile(Profile::Gabi, Capacity::BOUNDS)?;
    let mut archives = Vec::new();
    for path in env::args().skip(1) {
        let bytes = fs::read(&path)?;
        if path.ends_with(".a") {
            archives.push(Archive { path, bytes, taken: BTreeSet::new() });
        } else {
            link.merge_file(&plain(&bytes)).map_err(|refusal| format!("{path}: {refusal}"))?;
        }
    }
    // Of each archive what its last walk passed by, at its end.
    let mut walked = vec![0; archives.len()];
    let mut more = true;
    while more {
        more = false;
        for (archive, walked) in archives.iter_mut().zip(&mut walked) {
            let mut taken = Vec::new();
            let mut walk = archive.walk()?;
            while let Step::Member(offered) = walk.next(&link)? {
                let file = archive.member(offered.offset)?;
                let known =
                    archive.taken.contains(&offered.offset) || taken.contains(&offered.offset);
                if !known && walk.admits(&link, &offered, &Object::read(&file)?)? {
                    link.merge_file(&file)
                        .map_err(|refusal| format!("{}: {refusal}", archive.path))?;
                    taken.push(offered.offset);
                }
            }
            *walked = walk.shadowed(&link)?.len();
            more |= !taken.is_empty();
            archive.taken.extend(taken);
        }
    }
    let mut left = 0;
    let mut told: BTreeMap<_, usize> = BTreeMap::new();
    for archive in &archives {
        let walk = archive.walk()?;
        let untaken = |offset: &u64| !archive.taken.contains(offset);
        left += walk.shadowed(&link)?.iter().filter(|told| untaken(&told.offset)).count();
        let entries = (0..walk.entry_count()).filter_map(|entry| walk.entry(entry));
        let members: BTreeSet<_> = entries.map(|entry| entry.offset).filter(untaken).collect();
        for offset in members {
            let object = archive.member(offset)?;
            let object = Object::read(&object)?;
            for untaken in link.would_define(&object)? {
                let name = String::from_utf8_lossy(untaken.name);
                println!("{name}: {} at {offset}: {}", archive.path, strength(&untaken.holder));
                *told.entry(strength(&untaken.holder)).or_default() += 1;
            }
        }
    }
    let undefined = link.symbols().flatten().filter(|symbol| symbol.value.is_undefined());
    println!(
        "members taken: {}",
        archives.iter().map(|archive| archive.taken.len()).sum::<usize>()
    );
    println!("undefined at the end: {}", undefined.count());
    println!("told by shadowed at the walks' ends: {}", walked.iter().sum::<usize>());
    println!("told by shadowed at the link's end, of members not taken: {left}");
    println!("told by would_define, by how the name is held: {told:?}");
    Ok(())
}
