//! What became of an object's sections and symbols in a merge.
use crate::{Converted, Link, SymbolId};
use std::fmt;

/// The ids of a merged object's sections and symbols, by the object's own numbers.
///
/// Sections get ids in ascending order of their numbers: every program and uninitialized section
/// that isn't excluded, one whose group was met before too (`Link::section` says `Reserved` then).
/// The symbols of a section's relocations are in the order of its relocation table
/// (`Section::Built`); of several tables for a section the last counts.
///
/// It lies in the link's work cells, so that it borrows the link: `link` lends it for lookups.
#[derive(Clone, Copy)]
pub struct Merged<'l> {
    link: &'l Link,
    conversion: &'l [[u64; 8]],
    ids: &'l [u64],
}

impl<'l> Merged<'l> {
    pub(crate) fn new(link: &'l Link, sections: usize, symbols: usize) -> Self {
        Merged { link, conversion: &link.work.as_chunks().0[..sections], ids: &link.ids[..symbols] }
    }

    /// The link after the merge.
    pub fn link(&self) -> &'l Link {
        self.link
    }

    /// What the object's section of that number became: `Nothing` if it is excluded or absent,
    /// `NotLoaded` if it is neither program nor uninitialized data.
    pub fn section(&self, number: usize) -> Converted {
        self.conversion.get(number).map_or(Converted::Nothing, |row| Converted::of_cell(row[0]))
    }

    /// The id of a symbol by its number in the object's symbol table. None have symbols of type 4,
    /// those of a section that defines a group, local ones of a section that a repeated group removed
    /// (which are dropped in the gABI's profile, and refused with 8 in the old one), and absent ones.
    /// The first symbol, if it is a null one, is `SymbolId::NULL`.
    pub fn symbol(&self, number: usize) -> Option<SymbolId> {
        self.ids.get(number).and_then(|cell| SymbolId::of_optional_cell(*cell))
    }

    /// What each of the object's sections became, by number.
    pub fn sections(&self) -> impl ExactSizeIterator<Item = Converted> + use<'l> {
        self.conversion.iter().map(|row| Converted::of_cell(row[0]))
    }

    /// The ids of the symbols of the object's table, by number.
    pub fn symbols(&self) -> impl ExactSizeIterator<Item = Option<SymbolId>> + use<'l> {
        self.ids.iter().map(|cell| SymbolId::of_optional_cell(*cell))
    }
}

impl fmt::Debug for Merged<'_> {
    fn fmt(&self, f: &mut fmt::Formatter<'_>) -> fmt::Result {
        f.debug_struct("Merged")
            .field("sections", &self.sections().collect::<Vec<_>>())
            .field("symbols", &self.symbols().collect::<Vec<_>>())
            .finish()
    }
}
