//! Shared objects as rows, for a load.
use crate::ElfSymbol;
use crate::names::name_at;
use std::borrow::Cow;

/// Under which name a library without a soname is known.
#[derive(Clone, Copy, Debug)]
pub enum LibraryName<'a> {
    /// The name by which it was asked for.
    Known(&'a [u8]),
    /// It is an archive's member and has none (25 if it has no soname either).
    InsideArchive,
}

/// A shared object: the symbols and names of its dynamic part.
#[derive(Clone, Debug)]
pub struct SharedObject<'a> {
    pub(crate) entries: Vec<u64>,
    pub(crate) strings: Cow<'a, [u8]>,
    pub(crate) needs: Vec<u64>,
    pub(crate) name: LibraryName<'a>,
    pub(crate) soname: Option<usize>,
    pub(crate) as_needed: bool,
}

impl<'a> SharedObject<'a> {
    /// A library without symbols, over its string table.
    pub fn new(strings: impl Into<Cow<'a, [u8]>>, name: LibraryName<'a>) -> Self {
        SharedObject {
            entries: Vec::new(),
            strings: strings.into(),
            needs: Vec::new(),
            name,
            soname: None,
            as_needed: false,
        }
    }

    /// Says where the soname starts in the string table.
    pub fn set_soname(&mut self, offset: usize) {
        self.soname = Some(offset);
    }

    /// Asks whether the library is needed before it is loaded (`--as-needed`).
    pub fn set_as_needed(&mut self, as_needed: bool) {
        self.as_needed = as_needed;
    }

    /// Adds a symbol of its dynamic symbol table.
    pub fn push_symbol(&mut self, symbol: ElfSymbol) {
        self.entries.extend(symbol.cells());
    }

    /// Adds a dependency (`DT_NEEDED`), by where its name starts in the string table.
    pub fn push_dependency(&mut self, offset: usize) {
        self.needs.push(offset as u64);
    }

    /// The name of a symbol by its number.
    pub(crate) fn symbol_name(&self, symbol: usize) -> Option<&[u8]> {
        name_at(&self.strings, self.entries.as_chunks::<8>().0.get(symbol)?[0])
    }

    /// The name of a dependency by its number.
    pub(crate) fn dependency(&self, number: usize) -> Option<&[u8]> {
        name_at(&self.strings, *self.needs.get(number)?)
    }
}

/// What became of a library.
#[derive(Clone, Copy, Debug, PartialEq, Eq)]
pub enum Load {
    /// It is an input of the link now.
    Loaded,
    /// Under as-needed nothing asks for it, and nothing changed.
    NotNeeded,
}
