//! Object files against a reader of the tests' own: its sums are of 128 bits, it goes by elf.h's
//! structures, and it shares nothing with the proved one. Files compiled on the spot, every member
//! of the system's archives, damaged copies; each is read, then merged as a file and as rows.
use crate::ffi::{FileRows, count_file};
use crate::{Link, Object, PendingArchive, Profile, Refusal, Step};
use std::collections::BTreeMap;
use std::path::{Path, PathBuf};
use std::process::Command;
use std::sync::atomic::{AtomicUsize, Ordering};
use std::{env, fs, process};

// ---- the reader of the tests

#[derive(Debug, Default, PartialEq)]
struct Rows {
    headers: Vec<u64>,
    entries: Vec<u64>,
    contents: Vec<u64>,
    names: usize,
}

/// The number and place of a refusal.
type Refused = (u64, usize);

struct Shdr {
    name: u64,
    kind: u64,
    flags: u64,
    offset: u128,
    size: u128,
    link: u64,
    info: u64,
}

fn field(file: &[u8], at: u128, len: u128) -> u64 {
    let bytes = &file[at as usize..(at + len) as usize];
    bytes.iter().rev().fold(0, |n, byte| n << 8 | u64::from(*byte))
}

fn shdr(file: &[u8], table: u128, number: u128) -> Shdr {
    let at = |offset, len| field(file, table + 64 * number + offset, len);
    Shdr {
        name: at(0, 4),
        kind: at(4, 4),
        flags: at(8, 8),
        offset: at(24, 8).into(),
        size: at(32, 8).into(),
        link: at(40, 4),
        info: at(44, 4),
    }
}

fn read(file: &[u8]) -> Result<Rows, Refused> {
    let len = file.len() as u128;
    if file.len() < 64 || file[..6] != *b"\x7fELF\x02\x01" || field(file, 16, 2) != 1 {
        return Err((26, 0));
    }
    let table = u128::from(field(file, 40, 8));
    let mut count = u128::from(field(file, 60, 2));
    let mut names = u128::from(field(file, 62, 2));
    if table == 0 {
        (count, names) = (0, 0);
    } else {
        if table + 64 > len {
            return Err((27, 0));
        }
        let first = shdr(file, table, 0);
        count = if count == 0 { first.size } else { count };
        names = if names == 0xffff { first.link.into() } else { names };
        if table + 64 * count > len {
            return Err((27, 0));
        }
    }
    let sections: Vec<_> = (0..count).map(|number| shdr(file, table, number)).collect();
    let excluded = |section: &Shdr| section.flags >> 31 & 1 == 1;
    for (number, section) in sections.iter().enumerate().filter(|(_, section)| !excluded(section)) {
        let entry = match section.kind {
            2 | 4 => 24,
            9 => 16,
            17 => 4,
            3 => 1,
            _ => continue,
        };
        let empty_group = section.kind == 17 && section.size == 0;
        if section.offset + section.size > len || section.size % entry != 0 || empty_group {
            return Err((27, number));
        }
    }
    let strings = sections
        .get(names as usize)
        .filter(|section| names != 0 && names < count && section.kind == 3 && !excluded(section));
    let is_frame_header = |section: &Shdr| {
        let Some(strings) = strings else { return false };
        let bytes = &file[strings.offset as usize..(strings.offset + strings.size) as usize];
        bytes.get(section.name as usize..).is_some_and(|name| name.starts_with(b".eh_frame_hdr\0"))
    };
    let names = if names != 0 && names < count { names } else { count } as usize;
    let mut rows = Rows { names, ..Rows::default() };
    for section in &sections {
        let kind = match section.kind {
            1 if is_frame_header(section) => 11,
            0 => 0,
            1 | 14 | 15 | 16 => 1,
            2 => 3,
            3 => 4,
            4 => 6,
            5 => 8,
            6 => 12,
            7 => 14,
            8 => 2,
            9 => 5,
            11 => 10,
            17 => 7,
            0x6ffffff6 => 9,
            _ => 13,
        };
        let mut flags = section.flags >> 31 & 1
            | (section.flags >> 21 & 1) << 1
            | (section.flags >> 1 & 1) << 2;
        let (mut first, mut number) = (0, 0);
        if !excluded(section) {
            let entries =
                |size: u128| (0..section.size / size).map(move |i| section.offset + i * size);
            match section.kind {
                2 => {
                    first = rows.entries.len() as u64 / 8;
                    for at in entries(24) {
                        let [info, other] = [4, 5].map(|byte| field(file, at + byte, 1));
                        let section = field(file, at + 6, 2);
                        let [name, value] = [field(file, at, 4), field(file, at + 8, 8)];
                        let kind = [info >> 4, info & 15, other & 3];
                        let size = field(file, at + 16, 8);
                        rows.entries.push(name);
                        rows.entries.extend(kind);
                        rows.entries.extend([section, value, size, 0]);
                        number += 1;
                    }
                }
                3 => (first, number) = (section.offset as u64, section.size as u64),
                4 | 9 => {
                    first = rows.contents.len() as u64;
                    for at in entries(if section.kind == 4 { 24 } else { 16 }) {
                        rows.contents.push(field(file, at + 12, 4));
                        number += 1;
                    }
                }
                17 => {
                    first = rows.contents.len() as u64;
                    flags |= (field(file, section.offset, 4) & 1) << 3;
                    for at in entries(4).skip(1) {
                        rows.contents.push(field(file, at, 4));
                        number += 1;
                    }
                }
                _ => {}
            }
        }
        rows.headers.extend([
            kind,
            section.name,
            flags,
            section.link,
            section.info,
            first,
            number,
            section.size as u64,
        ]);
    }
    let cells = rows.headers.len() + rows.entries.len() + rows.contents.len();
    if cells > file.len().max(1 << 24) { Err((2, 0)) } else { Ok(rows) }
}

// ---- each file: its rows, then merged as a file and as rows

fn refusal(refusal: Refusal) -> Refused {
    (refusal.number(), refusal.place)
}

/// The counts, and what a link holds, rows past the counts too; of the lists as many as are counted.
fn held(link: &Link) -> (&[u64], &[u8], [&[u64]; 5]) {
    let lists = &link.lists[..link.header[5] as usize];
    let rows = [&link.names[..], &link.symbols, &link.sections, &link.inputs, lists];
    (&link.header[..9], &link.bytes, rows)
}

/// Answers the number that the merge gave, 0 for none, and asserts all else.
fn try_file(file: &[u8], link: &mut Link, by_hand: &mut Link, whole: bool) -> u64 {
    let wanted = read(file);
    let object = Object::read(file);
    match (&wanted, &object) {
        (Ok(rows), Ok(object)) => {
            assert_eq!(rows.headers, object.headers);
            assert_eq!(rows.entries, object.entries);
            assert_eq!(rows.contents, object.contents);
            assert_eq!((rows.names, file), (object.names, &*object.file));
        }
        (Err(wanted), Err(refused)) => assert_eq!(*wanted, refusal(refused.clone())),
        _ => panic!("{:?} and {:?}", wanted.err(), object.err()),
    }
    let answer = link.merge_file(file).map(|merged| format!("{merged:?}"));
    let expected = match object {
        // what they are about is the same too
        Ok(object) => {
            let counted = count_file(file).expect("it was read");
            assert_eq!(counted.work_rows, object.work_rows());
            assert_eq!(counted.relocations + counted.listed, object.contents.len());
            by_hand.merge_elf(&object).map(|merged| format!("{merged:?}"))
        }
        Err(refused) => {
            let about = answer.as_ref().err().and_then(|refusal| refusal.about.clone());
            Err(Refusal { about, ..refused })
        }
    };
    assert_eq!(answer, expected);
    let answer = answer.map_err(refusal);
    if whole {
        assert!(held(link) == held(by_hand));
    }
    let number = answer.err().map_or(0, |(number, _)| number);
    if link.is_broken() {
        assert_eq!(link.merge_file(file).map_err(refusal).err(), Some((22, 0)));
        link.clear();
        by_hand.clear();
    }
    number
}

fn links(profile: Profile) -> (Link, Link) {
    let link = Link::with_key(7, profile, crate::Capacity::BOUNDS).unwrap();
    (link.clone(), link)
}

// ---- files

struct Folder(PathBuf);

impl Folder {
    /// Of its own for each test, since they run side by side.
    fn new(name: &str) -> Self {
        static MADE: AtomicUsize = AtomicUsize::new(0);
        let number = MADE.fetch_add(1, Ordering::Relaxed);
        let path = env::temp_dir().join(format!("hidvorn-{name}-{}-{number}", process::id()));
        fs::create_dir_all(&path).unwrap();
        Folder(path)
    }

    /// A file compiled by that command, or nothing where the command isn't there.
    fn compiled(&self, command: &str, name: &str, source: &str, words: &[&str]) -> Option<Vec<u8>> {
        let (from, to) = (self.0.join(name), self.0.join("out.o"));
        fs::write(&from, source).unwrap();
        let mut run = Command::new(command);
        run.args(words).arg("-o").arg(&to).arg(&from);
        let done = match run.output() {
            Ok(done) => done,
            Err(_) => {
                eprintln!("{command} is missing: its files are left out");
                return None;
            }
        };
        assert!(done.status.success(), "{command}: {}", String::from_utf8_lossy(&done.stderr));
        Some(fs::read(to).unwrap())
    }
}

impl Drop for Folder {
    fn drop(&mut self) {
        let _ = fs::remove_dir_all(&self.0);
    }
}

const C: &str = "
#include <stddef.h>
extern int other(int); extern int weakly(void) __attribute__((weak));
int common_one; static int local[9]; const char *text = \"mute\";
__attribute__((visibility(\"hidden\"))) int hidden(void) { return local[2]; }
__attribute__((weak)) void mute(void) {}
__attribute__((section(\".odd\"), used)) int odd = 3;
__attribute__((constructor)) static void first(void) { local[0] = other(1); }
int main(int argc, char **argv) { mute(); return weakly ? weakly() : hidden() + common_one; }
";
const TLS: &str = "__thread int each = 4; int *of(void) { return &each; }\n";
const CXX: &str = "
#include <string>
#include <vector>
template <class T> T twice(T x) { return x + x; }
struct Shape { virtual ~Shape() {} virtual int area() const { return 1; } };
inline int counted() { static int n = 0; return ++n; }
int use(std::vector<std::string> &all) {
  Shape shape; all.push_back(twice(std::string(\"x\"))); return counted() + shape.area();
}
";
const ASM: &str = "
	.text
	.globl mute
	.type mute, @function
mute:	call clear@PLT
	ret
	.section .text.one,\"axG\",@progbits,one,comdat
	.weak one
one:	ret
	.section .kept,\"awR\",@progbits
	.quad mute
	.section .gone,\"e\",@progbits
	.byte 1
	.section .eh_frame_hdr,\"a\",@progbits
	.byte 1
	.section .init_array,\"aw\",@init_array
	.quad mute
	.comm shared,16,8
	.hidden shared
";

fn compiled() -> Vec<(String, Vec<u8>)> {
    let folder = Folder::new("compiled");
    let mut files = Vec::new();
    let mut add = |what: &str, file: Option<Vec<u8>>| {
        files.extend(file.map(|file| (what.to_string(), file)));
    };
    let plain = ["-c", "-O1"];
    let sections = ["-c", "-O2", "-ffunction-sections", "-fdata-sections"];
    let debug = ["-c", "-g"];
    let common = ["-c", "-fcommon"];
    for command in ["gcc", "clang"] {
        for (kind, words) in
            [("plain", &plain[..]), ("sections", &sections), ("-g", &debug), ("-fcommon", &common)]
        {
            let what = format!("{command} {kind}");
            add(&what, folder.compiled(command, "a.c", C, words));
            add(&format!("{what} TLS"), folder.compiled(command, "t.c", TLS, words));
        }
    }
    for command in ["g++", "clang++"] {
        for (kind, words) in [("plain", &plain[..]), ("sections", &sections), ("-g", &debug)] {
            let what = format!("{command} {kind}");
            add(&what, folder.compiled(command, "a.cc", CXX, words));
        }
    }
    add("as", folder.compiled("as", "a.s", ASM, &[]));
    let frames = ASM
        .replace(".eh_frame_hdr", ".frames")
        .replace("\t.comm shared,16,8\n\t.hidden shared\n", "");
    add("as without kinds that are refused", folder.compiled("as", "b.s", &frames, &[]));
    files
}

/// The members of an archive: offset, name, bytes. The index is the first.
fn members(archive: &[u8]) -> Vec<(u64, String, &[u8])> {
    assert_eq!(&archive[..8], b"!<arch>\n");
    let (mut at, mut members, mut long) = (8, Vec::new(), &[][..]);
    while at + 60 <= archive.len() {
        let text = |from: usize, to: usize| String::from_utf8_lossy(&archive[at + from..at + to]);
        let size: usize = text(48, 58).trim().parse().unwrap();
        let bytes = &archive[at + 60..at + 60 + size];
        let short = text(0, 16).trim_end().to_string();
        if short == "//" {
            long = bytes;
        }
        let name = match short.strip_prefix('/').and_then(|place| place.parse::<usize>().ok()) {
            Some(place) => {
                let end = long[place..].iter().position(|byte| *byte == b'/').unwrap();
                String::from_utf8_lossy(&long[place..place + end]).into_owned()
            }
            None => short,
        };
        members.push((at as u64, name, bytes));
        at += 60 + size + size % 2;
    }
    members
}

fn archives() -> Vec<PathBuf> {
    let system = Path::new("/usr/lib/x86_64-linux-gnu");
    let compiler = Path::new("/usr/lib/gcc/x86_64-linux-gnu/12");
    let all = [
        system.join("libc.a"),
        system.join("libm-2.36.a"),
        compiler.join("libgcc.a"),
        compiler.join("libstdc++.a"),
        system.join("libz.a"),
    ];
    let (there, missing): (Vec<_>, Vec<_>) = all.into_iter().partition(|path| path.exists());
    for path in missing {
        eprintln!("{} is missing: it is left out", path.display());
    }
    there
}

/// The answers by number, as a line of docs/DIFFERENCES.md.
fn told(what: &str, answers: &BTreeMap<u64, usize>) {
    let tally: Vec<_> =
        answers.iter().map(|(number, files)| format!("{number}: {files}")).collect();
    println!("{what}: {}", tally.join(", "));
}

#[test]
fn compiled_files() {
    let files = compiled();
    for profile in [Profile::Old, Profile::Gabi] {
        for (what, file) in &files {
            let (mut link, mut by_hand) = links(profile);
            let number = try_file(file, &mut link, &mut by_hand, true);
            println!("{profile:?} {what}: {number}");
        }
    }
}

#[test]
fn system_archives() {
    for path in archives() {
        let archive = fs::read(&path).unwrap();
        let (mut link, mut by_hand) = links(Profile::Old);
        let mut answers = BTreeMap::new();
        for (number, (_, name, file)) in members(&archive).into_iter().enumerate() {
            if name == "/" || name == "//" {
                continue;
            }
            link.clear();
            by_hand.clear();
            let answer = try_file(file, &mut link, &mut by_hand, number % 64 == 0);
            *answers.entry(answer).or_insert(0) += 1;
        }
        told(&path.display().to_string(), &answers);
    }
}

/// The members of an archive, each merged as a file where the walk offers and admits it.
#[test]
fn walk_over_an_archive() {
    let Some(path) = archives().into_iter().find(|path| path.ends_with("libz.a")) else { return };
    let archive = fs::read(path).unwrap();
    let members = members(&archive);
    for profile in [Profile::Old, Profile::Gabi] {
        let (mut link, _) = links(profile);
        let name = link.intern(b"deflate").unwrap();
        link.add(crate::UpcomingSymbol::GlobalUnknown { name }).unwrap();
        let mut walk = PendingArchive::new(members[0].2).unwrap();
        let mut merged = Vec::new();
        while let Step::Member(member) = walk.next(&link).unwrap() {
            let (_, name, file) = members.iter().find(|(at, ..)| *at == member.offset).unwrap();
            let object = Object::read(*file).unwrap();
            assert!(walk.admits(&link, &member, &object).unwrap());
            link.merge_file(file).unwrap();
            merged.push(name.trim_end_matches('/').to_string());
        }
        println!("{profile:?}: {merged:?}");
        assert!(
            merged.contains(&"deflate.o".to_string()) && merged.contains(&"trees.o".to_string())
        );
        assert!(!merged.contains(&"inflate.o".to_string()));
        assert!(link.get_global(name).unwrap().value.section().is_some());
    }
}

// ---- damaged files

fn small() -> Vec<u8> {
    let folder = Folder::new("small");
    let source =
        "\t.text\n\t.globl f\nf:\tcall g\n\t.section .one,\"axG\",@progbits,f,comdat\n\tret\n";
    folder.compiled("as", "s.s", source, &[]).expect("as is needed to make the file")
}

fn cases(what: &str, files: impl Iterator<Item = Vec<u8>>) {
    let small =
        crate::Capacity { names: 64, name_bytes: 4096, symbols: 64, sections: 64, inputs: 8 };
    let mut link = Link::with_key(7, Profile::Old, small).unwrap();
    let mut by_hand = link.clone();
    let mut answers = BTreeMap::new();
    for file in files {
        let number = try_file(&file, &mut link, &mut by_hand, true);
        link.clear();
        by_hand.clear();
        *answers.entry(number).or_insert(0) += 1;
    }
    told(what, &answers);
    assert!(answers.len() > 1);
}

#[test]
fn cut_files() {
    let file = small();
    cases("cut at every byte", (0..=file.len()).map(|len| file[..len].to_vec()));
}

/// Every field of the ELF header and of every section header, those that aren't read too, at its
/// limits and at those of the file; so tables overlap, and headers lie over the ELF header.
#[test]
fn fields_at_their_limits() {
    let file = small();
    let (table, count) = (field(&file, 40, 8) as usize, field(&file, 60, 2) as usize);
    let mut fields: Vec<_> = [(0, 4), (4, 1), (5, 1), (6, 1), (16, 2), (18, 2), (20, 4)].into();
    fields.extend([(24, 8), (32, 8), (40, 8), (48, 4), (52, 2), (58, 2), (60, 2), (62, 2)]);
    for header in (0..count).map(|number| table + 64 * number) {
        let own = [0, 4, 40, 44].map(|at| (at, 4));
        let long = [8, 16, 24, 32, 48, 56].map(|at| (at, 8));
        fields.extend(own.into_iter().chain(long).map(|(at, len)| (header + at, len)));
    }
    let end = file.len() as u64;
    let mut values: Vec<u64> = (0..20).collect();
    values.extend([24, 25, 48, 63, 64, 65, 128, 0xff00, 0xffff, 1 << 21, 1 << 31, 0x6fff_fff6]);
    values.extend([0x7000_0001, u32::MAX.into(), 1 << 63, u64::MAX, u64::MAX - 1, u64::MAX - 63]);
    values.extend([end, end - 1, end + 1, end - 64, end - 24, table as u64, count as u64]);
    let mut files = Vec::new();
    for (at, len) in fields {
        for value in &values {
            let mut damaged = file.clone();
            damaged[at..at + len].copy_from_slice(&value.to_le_bytes()[..len]);
            files.push(damaged);
        }
    }
    cases("fields at their limits", files.into_iter());
}

/// The number of sections, and the section of their names, in the first section header.
#[test]
fn numbers_in_the_first_header() {
    let file = small();
    let (table, count) = (field(&file, 40, 8) as usize, field(&file, 60, 2));
    let mut files = Vec::new();
    for size in [0, 1, count - 1, count, count + 1, 1 << 58, u64::MAX] {
        let mut other = file.clone();
        other[60..62].fill(0);
        other[table + 32..table + 40].copy_from_slice(&size.to_le_bytes());
        files.push(other);
    }
    for link in 0..=count as u32 + 1 {
        let mut other = file.clone();
        other[62..64].fill(0xff);
        other[table + 40..table + 44].copy_from_slice(&link.to_le_bytes());
        files.push(other);
    }
    cases("numbers in the first header", files.into_iter());
}

/// What is refused of a file is told by its names, though its rows stay nowhere.
#[test]
fn names_of_files() {
    let folder = Folder::new("names");
    let told = |source: &str, damage: &dyn Fn(&mut Vec<u8>)| {
        let mut file = folder.compiled("as", "n.s", source, &[]).expect("as is needed");
        damage(&mut file);
        let (mut link, _) = links(Profile::Old);
        (0..2).find_map(|_| link.merge_file(&file).err()).expect("a refusal").to_string()
    };
    let twice = told("\t.text\n\t.globl f\nf:\tret\n", &|_| ());
    assert_eq!(
        twice,
        "duplicate strong definition, place 1, symbol `f`, held by symbol 1 in section `.text` \
         (refusal 17)"
    );
    // the alignment of a common
    let common = told("\t.comm shared,16,8\n", &|file| {
        let table = field(file, 40, 8) as usize;
        let mut headers = (0..field(file, 60, 2) as usize).map(|number| table + 64 * number);
        let symbols = headers.find(|at| field(file, *at as u128 + 4, 4) == 2).expect("symbols");
        let first = field(file, symbols as u128 + 24, 8) as usize;
        file[first + 32..first + 40].copy_from_slice(&3u64.to_le_bytes());
    });
    assert!(common.ends_with("place 1, symbol `shared` (refusal 28)"), "{common}");
    let kind = told("\t.section .eh_frame_hdr,\"a\",@progbits\n\t.byte 1\n", &|_| ());
    assert!(kind.ends_with("section `.eh_frame_hdr` (refusal 3)"), "{kind}");
    // a section whose table lies past the end
    let cut = told("\tcall g\n", &|file| {
        let table = field(file, 40, 8) as usize;
        let count = field(file, 60, 2) as usize;
        let mut headers = (0..count).map(|number| table + 64 * number);
        let at = headers.find(|at| field(file, *at as u128 + 4, 4) == 4).expect("relocations");
        file[at + 32..at + 40].copy_from_slice(&24_000u64.to_le_bytes());
    });
    assert!(cut.ends_with("section `.rela.text` (refusal 27)"), "{cut}");
}

/// A file of that many headers of one type, whose contents all begin with the file and are that long.
fn headers_over(count: usize, kind: u32, size: usize, tail: usize) -> Vec<u8> {
    let mut file = vec![0; 64 + 64 * count + tail];
    file[..6].copy_from_slice(b"\x7fELF\x02\x01");
    (file[16], file[40]) = (1, 64);
    file[60..62].copy_from_slice(&(count as u16).to_le_bytes());
    for header in file[64..64 + 64 * count].as_chunks_mut::<64>().0 {
        header[4..8].copy_from_slice(&kind.to_le_bytes());
        header[32..40].copy_from_slice(&(size as u64).to_le_bytes());
    }
    file
}

/// A file whose tables overlap is lent what they need, whatever was merged before.
#[test]
fn overlapping_whatever_came_before() {
    let file = headers_over(60, 9, 3_840, 0);
    let long = headers_over(0, 0, 0, 60_000);
    let relocations = 60 * 240;
    assert_eq!(file.len(), 3_904);
    let wanted = FileRows { sections: 60, relocations, work_rows: 60, ..FileRows::default() };
    assert_eq!(count_file(&file), Ok(wanted));
    assert_eq!(Object::read(&file[..]).unwrap().contents.len(), relocations);
    for profile in [Profile::Old, Profile::Gabi] {
        let (mut link, mut by_hand) = links(profile);
        let mut answers = Vec::new();
        for before in [None, Some(&long), Some(&file)] {
            for clear in [false, true] {
                let (mut link, mut by_hand) = (link.clone(), by_hand.clone());
                if let Some(before) = before {
                    try_file(before, &mut link, &mut by_hand, true);
                }
                if clear {
                    link.clear();
                    by_hand.clear();
                }
                answers.push(try_file(&file, &mut link, &mut by_hand, true));
            }
        }
        assert_eq!(answers, [0; 6]);
        // the same in one link, without new storage in between
        for file in [&long, &file, &file] {
            assert_eq!(try_file(file, &mut link, &mut by_hand, true), 0);
        }
    }
}

/// Past the bound a file is refused with 2 at 0, and nothing changes; a relocation fewer in each
/// table, and it is read.
#[test]
fn more_rows_than_the_bound() {
    let over = |relocations: usize| headers_over(1_000, 9, 16 * relocations, 300_000);
    let most = (1 << 24) / 1_000 - 8;
    let (fits, past) = (over(most), over(most + 1));
    let (mut link, mut by_hand) = links(Profile::Old);
    assert_eq!(count_file(&fits).unwrap().cells(), 1_000 * (8 + most));
    assert_eq!(count_file(&past).map_err(refusal), Err((2, 0)));
    assert_eq!(Object::read(&past[..]).map(|_| ()).map_err(refusal), Err((2, 0)));
    for _ in 0..2 {
        assert_eq!(try_file(&past, &mut link, &mut by_hand, true), 2);
        assert!(!link.is_broken());
        assert_eq!(try_file(&fits, &mut link, &mut by_hand, true), 0);
    }
}

/// Two relocation tables over the same bytes.
#[test]
fn overlapping_tables() {
    let folder = Folder::new("overlapping");
    let source = "\t.section .one,\"ax\"\n\tcall g\n\t.section .two,\"ax\"\n\tcall g\n";
    let mut file = folder.compiled("as", "o.s", source, &[]).expect("as is needed");
    let (table, count) = (field(&file, 40, 8) as usize, field(&file, 60, 2) as usize);
    let mut tables: Vec<_> = (0..count).map(|number| table + 64 * number).collect();
    tables.retain(|at| field(&file, *at as u128 + 4, 4) == 4);
    assert_eq!(tables.len(), 2);
    let (start, entry) = (file.len(), field(&file, tables[0] as u128 + 24, 8) as usize);
    (0..1_000).for_each(|_| file.extend_from_within(entry..entry + 24));
    for at in tables {
        file[at + 24..at + 32].copy_from_slice(&(start as u64).to_le_bytes());
        file[at + 32..at + 40].copy_from_slice(&24_000u64.to_le_bytes());
    }
    let (mut link, mut by_hand) = links(Profile::Old);
    assert_eq!(try_file(&file, &mut link, &mut by_hand, true), 0);
}

#[test]
fn fields_at_random() {
    let file = small();
    let mut seed = 0x9e37_79b9_7f4a_7c15u64;
    let mut next = move |below: usize| {
        seed ^= seed << 13;
        seed ^= seed >> 7;
        seed ^= seed << 17;
        (seed % below as u64) as usize
    };
    let table = field(&file, 40, 8) as usize;
    let files = (0..20_000).map(|_| {
        let mut damaged = file.clone();
        for _ in 0..1 + next(4) {
            let at = match next(3) {
                0 => next(64),
                1 => 64 + next(table - 64),
                _ => table + next(file.len() - table),
            };
            damaged[at] = if next(2) == 0 { next(256) as u8 } else { next(25) as u8 };
        }
        damaged
    });
    cases("bytes at random", files);
}
