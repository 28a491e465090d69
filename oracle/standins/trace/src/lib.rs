//! How far the Rust's loops had come when a call was refused.
//!
//! Most of the Rust's errors and panics name no place. The containers of the stand-ins note here
//! what they handed out last, so that the driver can tell the place without a change to the Rust.
use std::cell::Cell;

#[derive(Debug, Clone, Copy, Default, PartialEq, Eq)]
pub struct Seen {
    /// The section that the loop over an object's sections took last.
    pub section: Option<u64>,
    /// The symbol that the loop over a symbol table, or over a library's names, took last.
    pub symbol: Option<u64>,
    /// The group section whose COMDAT flag was asked last.
    pub group: Option<u64>,
    /// The first section whose parts were thrown away by a panic: the one being built.
    pub unwound: Option<u64>,
    /// The index entry that a pass took last.
    pub entry: Option<u64>,
}

thread_local! {
    static SEEN: Cell<Seen> = const {
        Cell::new(Seen { section: None, symbol: None, group: None, unwound: None, entry: None })
    };
}

pub fn clear() {
    SEEN.set(Seen::default());
}

pub fn seen() -> Seen {
    SEEN.get()
}

fn note(change: impl FnOnce(&mut Seen)) {
    let mut seen = SEEN.get();
    change(&mut seen);
    SEEN.set(seen);
}

pub fn section(number: u64) {
    note(|seen| seen.section = Some(number));
}

pub fn symbol(number: u64) {
    note(|seen| seen.symbol = Some(number));
}

pub fn group(number: u64) {
    note(|seen| seen.group = Some(number));
}

pub fn entry(number: u64) {
    note(|seen| seen.entry = Some(number));
}

/// Kept inside a value that belongs to a section. While a panic unwinds, the value of the section
/// being built is dropped first.
#[derive(Debug, Clone)]
pub struct UnwindMark(pub u64);

impl Drop for UnwindMark {
    fn drop(&mut self) {
        if std::thread::panicking() {
            let number = self.0;
            note(|seen| seen.unwound = seen.unwound.or(Some(number)));
        }
    }
}
