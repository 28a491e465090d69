//! The Rust's errors and panics as document 01's numbers, with the place where one can be told.
use crate::passes::load_inputs::{
    MergeElfError, ReadObjectsError, SectionGroupsError, SharedObjectError,
};
use crate::repr::symbols::LoadSymbolsError;
use std::any::Any;
use std::cell::RefCell;
use std::panic::{AssertUnwindSafe, catch_unwind};

/// A place of `None` isn't compared: the Rust doesn't tell it, or it is the id of a name.
#[derive(Debug, Clone, Copy, PartialEq, Eq)]
pub(crate) struct Refusal {
    pub(crate) number: u64,
    pub(crate) place: Option<u64>,
}

impl std::fmt::Display for Refusal {
    fn fmt(&self, f: &mut std::fmt::Formatter<'_>) -> std::fmt::Result {
        match self.place {
            Some(place) => write!(f, "refused {} {place}", self.number),
            None => write!(f, "refused {} ?", self.number),
        }
    }
}

pub(crate) fn refusal(number: u64, place: Option<u64>) -> Refusal {
    Refusal { number, place }
}

#[derive(Debug, Clone)]
pub(crate) struct Panic {
    message: String,
    file: String,
}

thread_local! {
    static LAST: RefCell<Option<Panic>> = const { RefCell::new(None) };
}

/// Panics inside a guarded call are answers: they are kept instead of printed.
pub fn silence_panics() {
    let loud = std::panic::take_hook();
    std::panic::set_hook(Box::new(move |info| {
        let message = message(info.payload());
        let file = info.location().map(|at| at.file().to_string()).unwrap_or_default();
        let panic = Panic { message, file };
        if panic.number().is_none() {
            loud(info);
        }
        LAST.set(Some(panic));
    }));
}

/// A panic's words: a `&str` if they are constant, else a `String`.
fn message(payload: &dyn Any) -> String {
    match payload.downcast_ref::<&str>() {
        Some(words) => words.to_string(),
        None => payload.downcast_ref::<String>().cloned().unwrap_or_default(),
    }
}

/// Runs a call of the Rust. A panic that stands for no refusal is a fault of the oracle itself.
pub(crate) fn guarded<T>(call: impl FnOnce() -> T) -> Result<T, u64> {
    trace::clear();
    catch_unwind(AssertUnwindSafe(call)).map_err(|_| {
        let panic = LAST.with_borrow(Option::clone).expect("a panic leaves its message");
        panic.number().unwrap_or_else(|| {
            eprintln!("oracle: a panic without a number: {panic:?}");
            std::process::exit(3);
        })
    })
}

pub(crate) fn last_message() -> String {
    LAST.with_borrow(|last| last.as_ref().map(|panic| panic.message.clone())).unwrap_or_default()
}

impl Panic {
    fn number(&self) -> Option<u64> {
        let is = |file: &str, text: &str| self.file.ends_with(file) && self.message.contains(text);
        Some(match () {
            () if is("repr/symbols/symbol.rs", "not yet implemented") => 13,
            () if is("repr/symbols/symbol.rs", "missing section conversion") => 14,
            () if is("repr/relocations.rs", "`Option::unwrap()` on a `None` value") => 19,
            () if is("repr/symbols/mod.rs", "points to a removed symbol") => 21,
            () if is("repr/symbols/mod.rs", "trying to access a placeholder symbol") => 21,
            () if is("repr/symbols/mod.rs", "trying to access a missing symbol") => 21,
            () if is("repr/symbols/mod.rs", "index out of bounds") => 21,
            () if is("repr/sections.rs", "section is a placeholder") => 21,
            () if is("repr/sections.rs", "missing section") => 21,
            () if is("repr/sections.rs", "was removed") => 21,
            () if is("load_inputs/shared_objects.rs", "not yet implemented") => 25,
            () => return None,
        })
    }
}

pub(crate) fn of_add(error: &LoadSymbolsError) -> u64 {
    match error {
        LoadSymbolsError::UnsupportedVisibility(_) => 10,
        LoadSymbolsError::LocalHiddenSymbol => 11,
        LoadSymbolsError::UnsupportedUnknownSymbolBinding => 12,
        LoadSymbolsError::UnsupportedFileSymbolType => 15,
        LoadSymbolsError::UnsupportedUnknownSymbolType => 16,
        LoadSymbolsError::DuplicateGlobalSymbol(_) => 17,
    }
}

/// The place of a panic inside a merge: the symbol or section that its loop had reached.
pub(crate) fn of_merge_panic(number: u64) -> Refusal {
    let seen = trace::seen();
    match number {
        13 | 14 => refusal(number, seen.symbol),
        19 => refusal(number, seen.unwound),
        21 => refusal(number, None),
        other => panic!("oracle: refusal {other} in a merge"),
    }
}

pub(crate) fn of_merge(error: &MergeElfError) -> Refusal {
    let seen = trace::seen();
    match error {
        MergeElfError::UnsupportedDynamicSymbolTable
        | MergeElfError::UnsupportedDynamicSection
        | MergeElfError::UnsupportedUnknownSection { .. }
        | MergeElfError::UnsupportedEhFrameHdr => refusal(3, seen.section),
        MergeElfError::SectionGroups(error) => match error {
            SectionGroupsError::NoCOMDAT => refusal(4, seen.group),
            SectionGroupsError::MultipleSections => refusal(5, seen.group),
            SectionGroupsError::MissingSignatureSymbol(_) => refusal(6, seen.group),
            SectionGroupsError::MissingSignatureString(_) => refusal(7, seen.group),
            SectionGroupsError::NonGlobalSymbolInGroup(symbol) => refusal(8, Some(symbol.number)),
        },
        MergeElfError::MissingSymbolName { symbol, .. } => {
            assert_eq!(Some(symbol.number), seen.symbol, "the noted place is the Rust's");
            refusal(9, Some(symbol.number))
        }
        MergeElfError::AddSymbolFailed { err, .. } => refusal(of_add(err), seen.symbol),
        MergeElfError::MissingSectionName { id, .. } => refusal(18, Some(id.0)),
        MergeElfError::UnsupportedUnknownNote { .. }
        | MergeElfError::UnsupportedUnknownGnuProperty { .. }
        | MergeElfError::UnsupportedRelocation(_)
        | MergeElfError::DuplicateGnuProperty => {
            panic!("oracle: outside the compared domain: {error}")
        }
    }
}

pub(crate) fn of_load(error: &SharedObjectError) -> Refusal {
    match error {
        SharedObjectError::AddSymbol(error) => refusal(of_add(error), trace::seen().symbol),
        SharedObjectError::ReadSymbols(_) => refusal(9, None),
        SharedObjectError::ReadSegment(_)
        | SharedObjectError::ReadSoname(_)
        | SharedObjectError::NeededFailed(_) => panic!("oracle: {error}"),
    }
}

pub(crate) fn of_load_panic(number: u64) -> Refusal {
    refusal(number, if number == 25 { Some(0) } else { None })
}

pub(crate) fn of_walk(error: &ReadObjectsError) -> Refusal {
    match error {
        ReadObjectsError::NoSymbolTableAtArchiveStart { .. } => refusal(20, Some(0)),
        other => panic!("oracle: {other}"),
    }
}
