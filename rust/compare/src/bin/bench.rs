//! The time per element of each call, ours and the Rust's and that of two tables which judge nothing
//! (compare/src/plain.rs), in turns in one run; and the memory of ours and the Rust's. Prints the
//! tables of docs/PERFORMANCE.md. Times are the thread's own, the median of as many rounds as there
//! is time for.
//!
//! `bench`: all. `bench NAME ...`: only these; `fresh`, `made` and `memory` are the smaller tables.
//! `bench ours NAME SIZE SECONDS`: only ours, again and again, for a profile. `BENCH_SECONDS` (8):
//! how long each size is measured.
use compare::ours::object;
use compare::plain::{self, Map, Open, Table};
use compare::rows::{ArchiveRows, ObjectRows, SectionRow, SymbolRow};
use hidvorn::{
    Capacity, Converted, ElfSymbol, LibraryName, Link, Load, PendingArchive, SectionConversion,
    SectionId, SharedObject, Step, UpcomingSymbol,
};
use oracle::bench::Clock;
use oracle::{Machine, Random, bench};
use std::alloc::{GlobalAlloc, Layout, System};
use std::hint::black_box;
use std::sync::atomic::{AtomicBool, AtomicIsize, Ordering::Relaxed};
use std::time::{Duration, Instant};

/// Counts the bytes that are in use, while `COUNTS` is set: counting takes time.
struct Counting;

static COUNTS: AtomicBool = AtomicBool::new(false);
static IN_USE: AtomicIsize = AtomicIsize::new(0);

fn count(bytes: isize) {
    if COUNTS.load(Relaxed) {
        IN_USE.fetch_add(bytes, Relaxed);
    }
}

// SAFETY: all calls go to the system's allocator as they come.
unsafe impl GlobalAlloc for Counting {
    unsafe fn alloc(&self, layout: Layout) -> *mut u8 {
        count(layout.size() as isize);
        unsafe { System.alloc(layout) }
    }

    unsafe fn alloc_zeroed(&self, layout: Layout) -> *mut u8 {
        count(layout.size() as isize);
        unsafe { System.alloc_zeroed(layout) }
    }

    unsafe fn realloc(&self, at: *mut u8, layout: Layout, size: usize) -> *mut u8 {
        count(size as isize - layout.size() as isize);
        unsafe { System.realloc(at, layout, size) }
    }

    unsafe fn dealloc(&self, at: *mut u8, layout: Layout) {
        count(-(layout.size() as isize));
        unsafe { System.dealloc(at, layout) }
    }
}

#[global_allocator]
static ALLOCATOR: Counting = Counting;

/// What is timed, from a fresh state at each call.
type Round = Box<dyn FnMut() -> Duration>;

/// One benchmark at one size: what is timed on each side, and on the open-addressing table and the
/// standard library's map where they have such a call.
struct Pair {
    ours: Round,
    rust: Round,
    plain: Option<[Round; 2]>,
}

type Make = fn(usize) -> Pair;

/// Name, what an element is, the largest size, how it is made.
const ALL: [(&str, &str, usize, Make); 9] = [
    ("intern", "new name", 65_535, intern),
    ("find", "known name", 65_535, find),
    ("add", "new symbol by name id", 65_534, add),
    ("merge", "symbol of the object", 65_000, merge),
    ("load", "symbol of the library", 65_000, load),
    ("need", "recorded name of an earlier library", 100_000, need),
    ("start", "index entry", 65_535, start),
    ("walk", "index entry of a pass", 65_535, walk),
    ("collect", "section, half of them dropped", 65_000, collect),
];

fn main() {
    oracle::silence_panics();
    let words: Vec<String> = std::env::args().skip(1).collect();
    let words: Vec<&str> = words.iter().map(String::as_str).collect();
    if let ["ours", name, size, seconds] = words[..] {
        return profile(name, size.parse().expect("a size"), seconds.parse().expect("seconds"));
    }
    let wanted = |name: &str| words.is_empty() || words.contains(&name);
    // First, while no memory was given back that could be used again.
    let memory = wanted("memory").then(memory);
    if ALL.iter().any(|(name, ..)| wanted(name)) {
        times(wanted);
    }
    if wanted("fresh") {
        fresh();
    }
    if wanted("made") {
        made();
    }
    memory.into_iter().for_each(|tables| println!("{tables}"));
}

fn each(time: Duration, size: usize) -> f64 {
    time.as_nanos() as f64 / size as f64
}

fn times(wanted: impl Fn(&str) -> bool) {
    println!(
        "| call | an element | size | ours, ns | the Rust, ns | plain table, ns | HashMap, ns \
         | the Rust / ours | ours / plain | ours / HashMap | growth, ours | growth, the Rust |"
    );
    println!("|---|---|---|---|---|---|---|---|---|---|---|---|");
    for (name, element, largest, make) in ALL.into_iter().filter(|(name, ..)| wanted(name)) {
        let mut before: Option<(f64, f64)> = None;
        for size in [100, 10_000, largest] {
            let [ours, rust, plain, map] = run(make(size)).map(|time| time.map(|t| each(t, size)));
            let (ours, rust) = (ours.expect("ours"), rust.expect("the Rust's"));
            let shown = |time: Option<f64>| time.map_or("".into(), |time| format!("{time:.1}"));
            let growth = |now: f64, before: Option<f64>| match before {
                Some(before) => format!("{:.2}", now / before),
                None => "".into(),
            };
            println!(
                "| {name} | {element} | {size} | {ours:.1} | {rust:.1} | {} | {} | {:.1} | {} | {} | {} | {} |",
                shown(plain),
                shown(map),
                rust / ours,
                shown(plain.map(|plain| ours / plain)),
                shown(map.map(|map| ours / map)),
                growth(ours, before.map(|(ours, _)| ours)),
                growth(rust, before.map(|(_, rust)| rust)),
            );
            before = Some((ours, rust));
        }
    }
    println!();
}

/// New names in a link that is made, or cleared, inside of the time.
fn fresh() {
    println!("| our time has | size | ours, ns | the Rust, ns | ratio |");
    println!("|---|---|---|---|---|");
    let all: [(&str, Make); 3] = [
        ("`Link::new` and freeing it", intern_made),
        ("`Link::with_capacity` for the names, and freeing it", intern_fitted),
        ("`clear`", intern_cleared),
    ];
    for (has, make) in all {
        for size in [100, 10_000] {
            let [ours, rust, ..] = run(make(size)).map(|time| time.map_or(0.0, |t| each(t, size)));
            println!("| {has} | {size} | {ours:.1} | {rust:.1} | {:.2} |", rust / ours);
        }
    }
    println!();
}

/// A link that is made and freed, with nothing in it.
fn made() {
    println!("| a link made and freed, for | µs |");
    println!("|---|---|");
    let links = [("100 names", fitted(100)), ("10,000 names", fitted(10_000))];
    for (what, capacity) in links.into_iter().chain([("all bounds", Capacity::BOUNDS)]) {
        let make = || timed(|| drop(black_box(Link::with_capacity(capacity).unwrap())));
        let time = median((0..1000).map(|_| make()).collect());
        println!("| {what} | {:.1} |", each(time, 1000));
    }
    println!();
}

/// In turns for some seconds, at least once each: the median of each, without the clock's own.
fn run(mut pair: Pair) -> [Option<Duration>; 4] {
    let mut times: [Vec<Duration>; 5] = Default::default();
    let [ours, rust, plain, map, clock] = &mut times;
    let seconds = std::env::var("BENCH_SECONDS").ok().and_then(|word| word.parse().ok());
    let limit = Duration::from_secs(seconds.unwrap_or(8));
    let start = Instant::now();
    while ours.is_empty() || (start.elapsed() < limit && ours.len() < 5000) {
        ours.push((pair.ours)());
        rust.push((pair.rust)());
        if let Some([open, standard]) = &mut pair.plain {
            plain.push(open());
            map.push(standard());
        }
        clock.push(timed(|| ()));
    }
    let [times @ .., clock] = times;
    let clock = median(clock);
    times.map(|times| (!times.is_empty()).then(|| median(times).saturating_sub(clock)))
}

fn median(mut times: Vec<Duration>) -> Duration {
    times.sort();
    times[times.len() / 2]
}

fn profile(name: &str, size: usize, seconds: u64) {
    let (.., make) = ALL.into_iter().find(|(other, ..)| *other == name).expect("a benchmark");
    let mut pair = make(size);
    let (start, mut times) = (Instant::now(), Vec::new());
    while start.elapsed() < Duration::from_secs(seconds) {
        times.push((pair.ours)());
    }
    let rounds = times.len();
    println!("{name} {size}: {:.1} ns, {rounds} rounds", each(median(times), size));
}

// ---- inputs

/// Different names of 12 bytes in no order, as of a program's routines.
fn names(count: usize) -> Vec<String> {
    let mut out: Vec<_> = (0..count).map(|at| format!("mix_{at:05}_{:02x}", at % 251)).collect();
    Random::new(7).shuffle(&mut out);
    out
}

fn timed<T>(call: impl FnOnce() -> T) -> Duration {
    let start = Clock::start();
    black_box(call());
    start.elapsed()
}

/// A machine of the oracle over an empty process-wide list of names.
fn fresh_machine() -> Machine {
    bench::forget_names();
    Machine::new()
}

fn say(machine: &mut Machine, lines: &[String]) {
    for line in lines {
        machine.line(line).expect("a good line");
    }
}

fn object_lines(rows: &ObjectRows) -> Vec<String> {
    let mut out =
        vec![format!("object {} {} {}", rows.sections.len(), rows.symbols.len(), rows.names)];
    out.extend(rows.sections.iter().map(SectionRow::to_string));
    out.extend(rows.symbols.iter().map(SymbolRow::to_string));
    out
}

/// A string table of these names, and where each starts.
fn strings<'a>(names: impl IntoIterator<Item = &'a str>) -> (Vec<u8>, Vec<u64>) {
    let mut bytes = vec![0];
    let mut places = Vec::new();
    for name in names {
        places.push(bytes.len() as u64);
        bytes.extend(name.as_bytes());
        bytes.push(0);
    }
    (bytes, places)
}

fn intern_all(link: &mut Link, names: &[String]) {
    for name in names {
        black_box(link.intern(name.as_bytes()).unwrap());
    }
}

// ---- the benchmarks

fn intern(size: usize) -> Pair {
    let all = names(size);
    let rust = all.clone();
    let mut link = Link::new();
    let ours = move || {
        link.clear();
        timed(|| intern_all(&mut link, &all))
    };
    let plain = [plain_interns::<Open>(&rust), plain_interns::<Map>(&rust)];
    Pair { ours: Box::new(ours), rust: rust_interns(rust), plain: Some(plain) }
}

/// Room for so many names of 12 bytes, with a symbol each.
fn fitted(names: usize) -> Capacity {
    let (names, symbols) = (names + 1, names + 1);
    Capacity { names, name_bytes: 12 * names, symbols, sections: names, inputs: 16 }
}

fn intern_fitted(size: usize) -> Pair {
    let all = names(size);
    let rust = all.clone();
    let ours = move || timed(|| intern_all(&mut Link::with_capacity(fitted(size)).unwrap(), &all));
    Pair { ours: Box::new(ours), rust: rust_interns(rust), plain: None }
}

fn intern_made(size: usize) -> Pair {
    let all = names(size);
    let rust = all.clone();
    let ours = move || timed(|| intern_all(&mut Link::new(), &all));
    Pair { ours: Box::new(ours), rust: rust_interns(rust), plain: None }
}

fn intern_cleared(size: usize) -> Pair {
    let all = names(size);
    let rust = all.clone();
    let mut link = Link::new();
    let ours = move || {
        timed(|| {
            link.clear();
            intern_all(&mut link, &all);
        })
    };
    Pair { ours: Box::new(ours), rust: rust_interns(rust), plain: None }
}

fn rust_interns(names: Vec<String>) -> Box<dyn FnMut() -> Duration> {
    Box::new(move || {
        bench::forget_names();
        bench::time_interns(&names)
    })
}

fn plain_interns<T: Table + 'static>(all: &[String]) -> Round {
    let (all, mut table) = (all.to_vec(), T::with_room(all.len()));
    Box::new(move || {
        table.clear();
        timed(|| plain_intern_all(&mut table, &all))
    })
}

fn plain_intern_all(table: &mut impl Table, names: &[String]) {
    for name in names {
        black_box(table.intern(name.as_bytes()));
    }
}

fn plain_finds<T: Table + 'static>(all: &[String], again: &[String]) -> Round {
    let (all, again, mut table) = (all.to_vec(), again.to_vec(), T::with_room(all.len()));
    Box::new(move || {
        table.clear();
        plain_intern_all(&mut table, &all);
        timed(|| plain_intern_all(&mut table, &again))
    })
}

fn plain_adds<T: Table + 'static>(all: &[String]) -> Round {
    let (all, mut table) = (all.to_vec(), T::with_room(all.len()));
    Box::new(move || {
        table.clear();
        plain_intern_all(&mut table, &all);
        timed(|| {
            for name in 0..all.len() as u32 {
                black_box(table.add(plain::Row { name, weak: false, section: 1, value: 16 }));
            }
        })
    })
}

fn plain_merges<T: Table + 'static>(rows: &ObjectRows) -> Round {
    let (rows, mut table) = (rows.clone(), T::with_room(rows.symbols.len() + rows.sections.len()));
    Box::new(move || {
        table.clear();
        timed(|| plain::merge(&mut table, &rows))
    })
}

fn plain_loads<T: Table + 'static>(
    wanted: &[String],
    strings: &[u8],
    symbols: &[SymbolRow],
) -> Round {
    let (wanted, strings, symbols) = (wanted.to_vec(), strings.to_vec(), symbols.to_vec());
    let mut table = T::with_room(wanted.len() + symbols.len());
    Box::new(move || {
        table.clear();
        for name in &wanted {
            let name = table.intern(name.as_bytes());
            table.add(plain::Row { name, weak: false, section: 0, value: 0 });
        }
        timed(|| plain::load(&mut table, &strings, &symbols))
    })
}

fn find(size: usize) -> Pair {
    let all = names(size);
    let mut again = all.clone();
    Random::new(8).shuffle(&mut again);
    let (rust, rust_again) = (all.clone(), again.clone());
    let plain = [plain_finds::<Open>(&all, &again), plain_finds::<Map>(&all, &again)];
    let mut link = Link::new();
    Pair {
        plain: Some(plain),
        ours: Box::new(move || {
            link.clear();
            intern_all(&mut link, &all);
            timed(|| intern_all(&mut link, &again))
        }),
        rust: Box::new(move || {
            bench::forget_names();
            bench::time_interns(&rust);
            bench::time_interns(&rust_again)
        }),
    }
}

fn add(size: usize) -> Pair {
    let all = names(size);
    let rust = all.clone();
    let mut link = Link::new();
    let conversion: SectionConversion =
        [Converted::Nothing, Converted::Section(SectionId::new(1))].into_iter().collect();
    Pair {
        plain: Some([plain_adds::<Open>(&rust), plain_adds::<Map>(&rust)]),
        ours: Box::new(move || {
            link.clear();
            let ids: Vec<_> =
                all.iter().map(|name| link.intern(name.as_bytes()).unwrap()).collect();
            let elf =
                ElfSymbol { binding: 1, kind: 2, section: 1, value: 16, ..Default::default() };
            timed(|| {
                for &name in &ids {
                    let conversion = &conversion;
                    link.add(UpcomingSymbol::Elf { elf, name, file: None, conversion }).unwrap();
                }
            })
        }),
        rust: Box::new(move || fresh_machine().time_adds(&rust)),
    }
}

/// Of eight symbols one is local, five are strong definitions, one a weak one, one a reference; a
/// program section for each eight, with four relocations.
fn program(size: usize) -> ObjectRows {
    let all = names(size);
    let count = (size / 8).max(1);
    let section_names: Vec<_> = (0..count).map(|at| format!(".text.{at:05}")).collect();
    let (bytes, places) = strings(all.iter().chain(&section_names).map(String::as_str));
    let row = |kind| SectionRow { kind, ..SectionRow::default() };
    let mut sections = vec![row(0)];
    sections.extend(places[size..].iter().map(|name| SectionRow {
        name: *name,
        read: true,
        ..row(1)
    }));
    let (table, strings) = (count as u64 + 1, count as u64 + 2);
    sections.push(SectionRow { link: strings, items: vec![0, size as u64], ..row(3) });
    sections.push(SectionRow { bytes, ..row(4) });
    let mut random = Random::new(9);
    for number in 0..count as u64 {
        let items = (0..4).map(|_| random.below(size as u64)).collect();
        sections.push(SectionRow { link: table, info: number + 1, items, ..row(6) });
    }
    let symbol = |at: usize| {
        let section = (at as u64 / 8).min(count as u64 - 1) + 1;
        let (binding, section) = match at % 8 {
            0 => (0, section),
            6 => (2, section),
            7 => (1, 0),
            _ => (1, section),
        };
        let value = 16 * (at as u64 % 8);
        SymbolRow { name: places[at], binding, kind: 2, section, value, ..SymbolRow::default() }
    };
    ObjectRows { sections, symbols: (0..size).map(symbol).collect(), names: strings }
}

fn merge(size: usize) -> Pair {
    let rows = program(size);
    let (object, lines) = (object(&rows), object_lines(&rows));
    let mut link = Link::new();
    Pair {
        plain: Some([plain_merges::<Open>(&rows), plain_merges::<Map>(&rows)]),
        ours: Box::new(move || {
            link.clear();
            timed(|| link.merge_elf(&object).unwrap())
        }),
        rust: Box::new(move || {
            let mut machine = fresh_machine();
            say(&mut machine, &lines);
            machine.time_merge().unwrap()
        }),
    }
}

/// Half strong definitions, a quarter weak ones, a quarter references; as-needed over a table of a
/// quarter as many strong references, of which the last alone asks for the library.
fn load(size: usize) -> Pair {
    let all = names(size);
    let (strings, places) = strings(all.iter().map(String::as_str));
    let symbols: Vec<_> = (0..size)
        .map(|at| {
            let (binding, section) = [(1, 1), (1, 1), (2, 1), (1, 0)][at % 4];
            SymbolRow { name: places[at], binding, section, ..SymbolRow::default() }
        })
        .collect();
    let mut wanted: Vec<_> = (0..size / 4 - 1).map(|at| format!("ref_{at:05}")).collect();
    wanted.push(all[size / 4 * 4 - 4].clone());

    let mut lines: Vec<_> = wanted.iter().map(|name| format!("add unknown {name}")).collect();
    lines.extend(library_lines(true, &strings, &symbols));
    let plain = [
        plain_loads::<Open>(&wanted, &strings, &symbols),
        plain_loads::<Map>(&wanted, &strings, &symbols),
    ];
    let library = shared_object(true, strings, &symbols);
    let mut link = Link::new();
    Pair {
        plain: Some(plain),
        ours: Box::new(move || {
            link.clear();
            for name in &wanted {
                let name = link.intern(name.as_bytes()).unwrap();
                link.add(UpcomingSymbol::GlobalUnknown { name }).unwrap();
            }
            timed(|| assert_eq!(link.load_shared_object(&library), Ok(Load::Loaded)))
        }),
        rust: Box::new(move || {
            let mut machine = fresh_machine();
            say(&mut machine, &lines);
            machine.time_load().unwrap()
        }),
    }
}

/// Earlier libraries record a hundred undefined names each. The one that is judged defines eight
/// names that nobody asks for, so that all recorded names are gone through and nothing changes.
fn need(size: usize) -> Pair {
    let recorded: Vec<_> = (0..size).map(|at| format!("u_{at:06}")).collect();
    let unasked: Vec<_> = (0..8).map(|at| format!("d_{at:06}")).collect();
    let made = |all: &[String], section, as_needed| {
        let (bytes, places) = strings(all.iter().map(String::as_str));
        let row = |name: &u64| SymbolRow { name: *name, binding: 1, section, ..Default::default() };
        let rows: Vec<_> = places.iter().map(row).collect();
        (library_lines(as_needed, &bytes, &rows), shared_object(as_needed, bytes, &rows))
    };
    let (lines, earlier): (Vec<_>, Vec<_>) =
        recorded.chunks(100).map(|names| made(names, 0, false)).unzip();
    let (last_lines, last) = made(&unasked, 1, true);
    let mut link = Link::new();
    Pair {
        plain: None,
        ours: Box::new(move || {
            link.clear();
            for library in &earlier {
                assert_eq!(link.load_shared_object(library), Ok(Load::Loaded));
            }
            timed(|| assert_eq!(link.load_shared_object(&last), Ok(Load::NotNeeded)))
        }),
        rust: Box::new(move || {
            let mut machine = fresh_machine();
            for lines in &lines {
                say(&mut machine, lines);
                machine.time_load().unwrap();
            }
            say(&mut machine, &last_lines);
            machine.time_load().unwrap()
        }),
    }
}

fn library_lines(as_needed: bool, strings: &[u8], rows: &[SymbolRow]) -> Vec<String> {
    let mut lines = vec![format!("library {} 0 - 1 lib.so {} 0", as_needed as u8, rows.len())];
    lines.push(format!("strings {}", compare::rows::Hex(strings)));
    lines.extend(rows.iter().map(SymbolRow::to_string));
    lines
}

fn shared_object(as_needed: bool, strings: Vec<u8>, rows: &[SymbolRow]) -> SharedObject<'static> {
    let mut library = SharedObject::new(strings, LibraryName::Known(b"lib.so"));
    library.set_as_needed(as_needed);
    for row in rows {
        let SymbolRow { name, binding, section, .. } = *row;
        let [name, section] = [name, section].map(|number| number as usize);
        library.push_symbol(ElfSymbol { name, binding, section, ..Default::default() });
    }
    library
}

/// An index of eight entries for each member, and a table: half of the names are defined, one in a
/// hundred is undefined, the rest nobody knows.
struct Indexed {
    index: Vec<u8>,
    table: Vec<(String, bool)>,
    /// The same for the Rust.
    lines: Vec<String>,
}

impl Indexed {
    fn new(size: usize) -> Self {
        let all = names(size);
        let entries = (0..).zip(&all).map(|(at, name)| (60 * (at / 8), name.clone())).collect();
        let archive = ArchiveRows { has_index: true, entries };
        let mut table = Vec::new();
        for (at, name) in all.iter().enumerate() {
            match at % 200 {
                0 | 100 => table.push((name.clone(), false)),
                _ if at % 2 == 1 => table.push((name.clone(), true)),
                _ => {}
            }
        }
        let mut lines = vec!["conversion none 1".to_string()];
        lines.extend(table.iter().map(|(name, defined)| match defined {
            true => format!("add hidden {name} abs 16"),
            false => format!("add unknown {name}"),
        }));
        lines.push(format!("archive 1 {size}"));
        lines.extend(archive.entries.iter().map(|(at, name)| format!("entry {at} {name}")));
        Indexed { index: archive.index(), table, lines }
    }

    fn fill(&self, link: &mut Link) {
        link.clear();
        for (name, defined) in &self.table {
            let name = link.intern(name.as_bytes()).unwrap();
            let value = hidvorn::SymbolValue::Absolute { value: 16 };
            let symbol = match defined {
                true => UpcomingSymbol::GlobalHidden { name, value },
                false => UpcomingSymbol::GlobalUnknown { name },
            };
            link.add(symbol).unwrap();
        }
    }
}

/// Ours reads the index, and makes no pass. The Rust's makes its first one, over an index that the
/// stand-in doesn't read.
fn start(size: usize) -> Pair {
    let Indexed { index, lines, .. } = Indexed::new(size);
    Pair {
        plain: None,
        ours: Box::new(move || {
            let start = Clock::start();
            let walk = PendingArchive::new(&index[..]).unwrap();
            let time = start.elapsed();
            black_box(walk);
            time
        }),
        rust: Box::new(move || {
            let mut machine = fresh_machine();
            say(&mut machine, &lines);
            machine.time_start().unwrap()
        }),
    }
}

/// The walk's last pass is timed: nothing is queued, all names were met before.
fn walk(size: usize) -> Pair {
    let made = Indexed::new(size);
    let mut lines = made.lines.clone();
    lines.push("start".into());
    let mut link = Link::new();
    Pair {
        plain: None,
        ours: Box::new(move || {
            made.fill(&mut link);
            let mut walk = PendingArchive::new(&made.index[..]).unwrap();
            loop {
                let start = Clock::start();
                let step = walk.next(&link).unwrap();
                let time = start.elapsed();
                if let Step::Done { passes } = step {
                    assert_eq!(passes, 2);
                    return time;
                }
            }
        }),
        rust: Box::new(move || {
            let mut machine = fresh_machine();
            say(&mut machine, &lines);
            loop {
                if let (time, None) = machine.time_next().unwrap() {
                    return time;
                }
            }
        }),
    }
}

/// Two objects of half as many sections, each section with a symbol and a relocation by the next
/// section's; the entry is in the middle, so that the second half of each object's chain stays.
fn chain(size: usize, which: usize) -> ObjectRows {
    let count = size / 2;
    let name = |at: usize| format!("s{which}_{at:05}");
    let mut all: Vec<_> = (0..count).map(name).collect();
    all.push(".text".into());
    // The first object's chain goes on in the second's, at its middle.
    all.push(format!("s1_{:05}", count / 2));
    let (bytes, places) = strings(all.iter().map(String::as_str));
    let row = |kind| SectionRow { kind, ..SectionRow::default() };
    let mut sections = vec![row(0)];
    for _ in 0..count {
        sections.push(SectionRow { name: places[count], read: true, ..row(1) });
    }
    let (table, strings) = (count as u64 + 1, count as u64 + 2);
    let mut symbols: Vec<_> = (0..count)
        .map(|at| SymbolRow {
            name: places[at],
            binding: 1,
            section: at as u64 + 1,
            ..SymbolRow::default()
        })
        .collect();
    if which == 0 {
        symbols.push(SymbolRow { name: places[count + 1], binding: 1, ..SymbolRow::default() });
    }
    let symbol_count = symbols.len() as u64;
    sections.push(SectionRow { link: strings, items: vec![0, symbol_count], ..row(3) });
    sections.push(SectionRow { bytes, ..row(4) });
    for at in 0..count as u64 {
        let items = if at + 1 < symbol_count { vec![at + 1] } else { vec![] };
        sections.push(SectionRow { link: table, info: at + 1, items, ..row(6) });
    }
    ObjectRows { sections, symbols, names: strings }
}

fn collect(size: usize) -> Pair {
    let rows = [0, 1].map(|which| chain(size, which));
    let lines = rows.each_ref().map(object_lines);
    let objects = rows.each_ref().map(object);
    let entry = format!("s0_{:05}", size / 4);
    let rust_entry = entry.clone();
    let mut link = Link::new();
    Pair {
        plain: None,
        ours: Box::new(move || {
            link.clear();
            for object in &objects {
                link.merge_elf(object).unwrap();
            }
            let name = link.intern(entry.as_bytes()).unwrap();
            let entry = link.get_global(name).unwrap().id;
            let marks = vec![0; link.symbol_count()];
            timed(|| {
                let collected = link.gc_sections(&marks, Some(entry)).unwrap();
                assert_eq!(collected.sections.len(), size / 2);
            })
        }),
        rust: Box::new(move || {
            let mut machine = fresh_machine();
            for lines in &lines {
                say(&mut machine, lines);
                machine.time_merge().unwrap();
            }
            let entry = machine.id_of(&rust_entry).unwrap();
            let (time, dropped) = machine.time_collect(entry);
            assert_eq!(dropped, size / 2);
            time
        }),
    }
}

// ---- memory

/// Bytes in use after a call that weren't before, for each of so many.
fn grown<T>(count: usize, call: impl FnOnce() -> T) -> f64 {
    let before = IN_USE.load(Relaxed);
    let kept = call();
    let after = IN_USE.load(Relaxed);
    drop(kept);
    (after - before) as f64 / count as f64
}

/// Bytes of this process that are in memory.
fn resident() -> usize {
    let text = std::fs::read_to_string("/proc/self/statm").expect("Linux");
    let pages = text.split(' ').nth(1).and_then(|word| word.parse::<usize>().ok());
    pages.expect("a number of pages") * 4096
}

/// What the Rust uses for a name, a symbol and a section.
fn rust_memory(count: usize, all: &[String]) -> [f64; 3] {
    let row = |kind| SectionRow { kind, ..SectionRow::default() };
    let (bytes, places) = strings([".text"]);
    let mut sections = vec![row(0), SectionRow { bytes, ..row(4) }];
    for _ in 0..count {
        sections.push(SectionRow { name: places[0], read: true, ..row(1) });
    }
    let lines = object_lines(&ObjectRows { sections, symbols: Vec::new(), names: 1 });
    let mut machine = fresh_machine();
    let name = grown(count, || bench::time_interns(all));
    let symbol = grown(count, || machine.time_adds(all));
    say(&mut machine, &lines);
    [name, symbol, grown(count, || machine.time_merge().unwrap())]
}

fn memory() -> String {
    COUNTS.store(true, Relaxed);
    let count = 10_000;
    let all = names(count);
    let [name, symbol, section] = rust_memory(count, &all);
    let before = resident();
    let mut link = Link::new();
    let empty = resident() - before;
    let space = grown(1, Link::new) / 1e6;
    let ids: Vec<_> = all.iter().map(|name| link.intern(name.as_bytes()).unwrap()).collect();
    for name in ids {
        link.add(UpcomingSymbol::GlobalUnknown { name }).unwrap();
    }
    let full = (resident() - before - empty) as f64 / count as f64;
    COUNTS.store(false, Relaxed);

    let (length, empty) = (all[0].len(), empty as f64 / 1e6);
    // A name: a row of 8 cells, the head of a chain, a load's mark, and its bytes.
    let ours = 80 + length;
    format!(
        "| bytes for | ours | the Rust, measured over {count} |\n\
         |---|---|---|\n\
         | a symbol (its name apart) | 64 | {symbol:.0} |\n\
         | a name of {length} bytes | {ours} | {name:.0} |\n\
         | a section without relocations | 72 | {section:.0} |\n\
         \n\
         | a link at all bounds | has |\n\
         |---|---|\n\
         | address space | {space:.1} MB |\n\
         | of it resident while it is empty | {empty:.1} MB |\n\
         | more resident for each of {count} names with a symbol | {full:.0} bytes |"
    )
}
