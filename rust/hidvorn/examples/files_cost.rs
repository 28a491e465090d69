//! Merges the members of archives as files, or walks over them with a plain map of borrowed names, so
//! many rounds: for a profiler to count, by the difference of two numbers of rounds.
use hidvorn::Link;
use std::collections::HashMap;
use std::{env, error::Error, fs};

/// The members of an archive that are object files; of its other ones nothing.
fn members(archive: &[u8]) -> Vec<&[u8]> {
    let mut members = Vec::new();
    let mut at = 8;
    while let Some(header) = archive.get(at..at + 60) {
        let size: usize = String::from_utf8_lossy(&header[48..58]).trim().parse().unwrap_or(0);
        let file = &archive[at + 60..at + 60 + size];
        if file.starts_with(b"\x7fELF\x02\x01") {
            members.push(file);
        }
        at += 60 + size + size % 2;
    }
    members
}

fn word(file: &[u8], at: usize) -> usize {
    u32::from_le_bytes(file[at..at + 4].try_into().expect("four bytes")) as usize
}

fn long(file: &[u8], at: usize) -> usize {
    u64::from_le_bytes(file[at..at + 8].try_into().expect("eight bytes")) as usize
}

/// What a plain walk keeps: ids by borrowed names, rows of sections and of symbols, and the symbols of
/// relocations.
#[derive(Default)]
struct Plain<'f> {
    names: HashMap<&'f [u8], usize>,
    sections: Vec<[usize; 3]>,
    symbols: Vec<[usize; 5]>,
    relocations: Vec<usize>,
}

impl<'f> Plain<'f> {
    fn id(&mut self, file: &'f [u8], at: usize) -> usize {
        let name = &file[at..];
        let name = &name[..name.iter().position(|byte| *byte == 0).expect("an end")];
        let known = self.names.len();
        *self.names.entry(name).or_insert(known)
    }

    /// Keeps what a merge of the file would, and judges nothing.
    fn walk(&mut self, file: &'f [u8]) {
        let table = long(file, 40);
        let half = |at: usize| usize::from(file[at]) + 256 * usize::from(file[at + 1]);
        let header = |number: usize| {
            let at = table + 64 * number;
            (word(file, at), word(file, at + 4), long(file, at + 24), long(file, at + 32), at)
        };
        let headers: Vec<_> = (0..half(60)).map(header).collect();
        let names = headers[half(62)].2;
        for (name, kind, _, size, _) in headers.iter().filter(|header| matches!(header.1, 1 | 8)) {
            let id = self.id(file, names + name);
            self.sections.push([id, *kind, *size]);
        }
        let before = self.symbols.len();
        for (.., first, size, at) in headers.iter().filter(|header| header.1 == 2) {
            let strings = headers[word(file, at + 40)].2;
            for at in (*first..first + size).step_by(24) {
                let local = file[at + 4] < 16;
                let id = if local { 0 } else { self.id(file, strings + word(file, at)) };
                let row = [
                    id,
                    file[at + 4].into(),
                    half(at + 6),
                    long(file, at + 8),
                    long(file, at + 16),
                ];
                self.symbols.push(row);
            }
        }
        for (.., first, size, _) in headers.iter().filter(|header| header.1 == 4) {
            for at in (*first..first + size).step_by(24) {
                self.relocations.push(self.symbols[before + word(file, at + 12)][0]);
            }
        }
    }
}

fn main() -> Result<(), Box<dyn Error>> {
    let words: Vec<_> = env::args().skip(1).collect();
    let [kind, rounds, paths @ ..] = &words[..] else {
        return Err("files_cost merge|walk ROUNDS ARCHIVE ..".into());
    };
    let archives: Vec<_> = paths.iter().map(fs::read).collect::<Result<_, _>>()?;
    let files: Vec<_> = archives.iter().flat_map(|archive| members(archive)).collect();
    let mut link = Link::new();
    let (mut merged, mut symbols) = (0, 0);
    for _ in 0..rounds.parse()? {
        let mut plain = Plain::default();
        (merged, symbols) = (0, 0);
        for file in &files {
            let before = link.symbol_count();
            if kind == "walk" {
                plain.walk(file);
            } else if let Ok(answer) = link.merge_file(file) {
                (merged, symbols) = (merged + 1, symbols + answer.symbols().len());
            }
            // A link has room for some hundred files; a refused one begins a new one too.
            if link.is_broken() || link.symbol_count() > 60_000 || link.section_count() > 60_000 {
                assert!(before > 0);
                link.clear();
            }
        }
        if kind == "walk" {
            (merged, symbols) = (files.len(), plain.symbols.len());
        }
        link.clear();
    }
    println!("{} files, {merged} merged, {symbols} symbols", files.len());
    Ok(())
}
