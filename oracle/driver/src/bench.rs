//! Calls of the Rust between two looks at the clock, for the benchmark of rust/compare. What only
//! the stand-ins do (making the containers of an object, a library or an index) is done before.
//! The clock counts the thread's own time, so that other programs of a busy machine aren't timed.
use crate::form::Fault;
use crate::inputs::TemporaryFile;
use crate::interner::{access, intern};
use crate::machine::Machine;
use crate::passes::gc_sections;
use crate::passes::load_inputs;
use crate::repr::sections::SectionId;
use crate::repr::symbols::{SymbolId, UpcomingSymbol};
use crate::rows::SymbolRow;
use cuddld_diagnostics::ObjectSpan;
use cuddld_elf::ids::ElfSectionId;
use std::collections::{BTreeMap, BTreeSet};
use std::time::Duration;

#[repr(C)]
struct Time {
    seconds: i64,
    nanoseconds: i64,
}

/// The time that this thread has run since the start.
pub struct Clock(Duration);

impl Clock {
    pub fn start() -> Self {
        Clock(Clock::now())
    }

    pub fn elapsed(&self) -> Duration {
        Clock::now() - self.0
    }

    fn now() -> Duration {
        unsafe extern "C" {
            fn clock_gettime(clock: i32, time: *mut Time) -> i32;
        }
        /// `CLOCK_THREAD_CPUTIME_ID` of Linux.
        const THREAD: i32 = 3;
        let mut time = Time { seconds: 0, nanoseconds: 0 };
        // SAFETY: POSIX' function, which writes the struct that it is lent; the struct is C's
        // `timespec` on 64-bit Linux.
        let failed = unsafe { clock_gettime(THREAD, &mut time) };
        assert_eq!(failed, 0, "the thread's clock");
        Duration::new(time.seconds as u64, time.nanoseconds as u32)
    }
}

/// Begins anew, with no names. Every machine must be gone.
pub fn forget_names() {
    access::forget_all();
}

/// Interns the names in order.
pub fn time_interns(names: &[String]) -> Duration {
    let start = Clock::start();
    for name in names {
        std::hint::black_box(intern::<String>(name.as_str()));
    }
    start.elapsed()
}

fn timed<T>(call: impl FnOnce() -> T) -> (Duration, T) {
    let start = Clock::start();
    let answer = call();
    (start.elapsed(), answer)
}

impl Machine {
    /// Adds a definition in section 1 for each name, in order; names are interned before.
    pub fn time_adds(&mut self, names: &[String]) -> Duration {
        let not_loaded = BTreeSet::new();
        let conversion = BTreeMap::from([(ElfSectionId(1), SectionId::of(1))]);
        let span = intern(ObjectSpan::new_synthetic());
        let row = SymbolRow { binding: 1, kind: 2, section: 1, value: 16, ..SymbolRow::default() };
        let names: Vec<_> = names.iter().map(|name| intern::<String>(name.as_str())).collect();
        let symbols = &mut self.link.object.symbols;
        let start = Clock::start();
        for name in names {
            let added = symbols.add(UpcomingSymbol::Elf {
                sections_not_loaded: &not_loaded,
                section_conversion: &conversion,
                elf: row.elf(0),
                resolved_name: name,
                span,
                stt_file: None,
            });
            assert!(added.is_ok());
        }
        start.elapsed()
    }

    /// Merges the object announced last.
    pub fn time_merge(&mut self) -> Result<Duration, Fault> {
        let elf = self.rows.object.elf()?;
        let link = &mut self.link;
        let source = ObjectSpan::new_synthetic();
        let (time, merged) =
            timed(|| load_inputs::merge(&mut link.object, &mut link.groups, elf, source));
        merged.map(|()| time).map_err(|error| error.to_string())
    }

    /// Loads the library announced last.
    pub fn time_load(&mut self) -> Result<Duration, Fault> {
        let rows = &self.rows.library;
        let (library, file) = (rows.library(), rows.file.clone());
        let object = &mut self.link.object;
        let (time, loaded) = timed(|| load_inputs::load(object, library, file, rows.as_needed));
        loaded.map(|()| time).map_err(|error| error.to_string())
    }

    /// Opens the archive announced last, with the first pass, which must offer something. The
    /// stand-in reads a file of a few bytes, which is opened before.
    pub fn time_start(&mut self) -> Result<Duration, Fault> {
        cuddld_ar::clear_shelf();
        let file = TemporaryFile::new(&cuddld_ar::shelve(self.rows.archive.archive()?))?;
        let time = load_inputs::time_new(&file.path, &self.link.object.symbols);
        time.map_err(|error| error.to_string())?.ok_or_else(|| "nothing is offered".into())
    }

    /// A step of the walk; the member's offset, unless it is done.
    pub fn time_next(&mut self) -> Result<(Duration, Option<u64>), Fault> {
        let walk = self.walk.as_mut().ok_or("no walk was started")?;
        let symbols = &self.link.object.symbols;
        let (time, step) = timed(|| walk.next(symbols));
        let step = step.map_err(|error| error.to_string())?;
        Ok((time, step.map(|(offset, _)| offset)))
    }

    /// A collection from the entry symbol alone, and how many sections it dropped.
    pub fn time_collect(&mut self, entry: u64) -> (Duration, usize) {
        self.link.object.entry_point = Some(SymbolId::of(entry));
        let (time, dropped) = timed(|| gc_sections::run(&mut self.link.object));
        (time, dropped.len())
    }

    /// The id of the symbol that holds a name.
    pub fn id_of(&self, name: &str) -> Option<u64> {
        let symbol = self.link.object.symbols.get_global(intern::<String>(name)).ok()?;
        Some(symbol.id().number())
    }
}
