//! Everything in a link, read from its rows.
use crate::{Interned, Link, SectionId, Symbol, SymbolId};

/// A section of a link.
#[derive(Clone, Debug, PartialEq, Eq)]
pub enum Section<'a> {
    /// It has an id and nothing else: its object was refused, or its group was met before.
    Reserved,
    /// It is part of the link.
    Built {
        /// Its name.
        name: Interned,
        /// Program data, else uninitialized.
        program: bool,
        /// A root of every collection.
        retain: bool,
        /// Readable at run time.
        read: bool,
        /// How many bytes it has.
        size: u64,
        /// The symbols of its relocations, one for each of them in the order of its relocation
        /// table; of several tables the last counts.
        relocations: Relocations<'a>,
    },
    /// A collection dropped it.
    Dropped {
        /// Its name.
        name: Interned,
        /// How many bytes it had.
        size: u64,
    },
}

macro_rules! list {
    ($(#[$doc:meta])* $name:ident of $id:ident) => {
        $(#[$doc])*
        #[derive(Clone, Copy, Debug, PartialEq, Eq)]
        pub struct $name<'a>(&'a [u64]);

        impl<'a> $name<'a> {
            /// The ids in order.
            pub fn iter(&self) -> Ids<'a, $id> {
                self.0.iter().map(|cell| $id::of_cell(*cell))
            }

            /// How many there are.
            pub fn len(&self) -> usize {
                self.0.len()
            }

            /// Whether there are none.
            pub fn is_empty(&self) -> bool {
                self.0.is_empty()
            }

            /// The one at that position.
            pub fn get(&self, at: usize) -> Option<$id> {
                self.0.get(at).map(|cell| $id::of_cell(*cell))
            }
        }

        impl<'a> IntoIterator for $name<'a> {
            type Item = $id;
            type IntoIter = Ids<'a, $id>;

            fn into_iter(self) -> Self::IntoIter {
                self.iter()
            }
        }

        impl<'a> IntoIterator for &$name<'a> {
            type Item = $id;
            type IntoIter = Ids<'a, $id>;

            fn into_iter(self) -> Self::IntoIter {
                self.iter()
            }
        }
    };
}

/// Ids that lie in a link's lists.
pub type Ids<'a, Id> = std::iter::Map<std::slice::Iter<'a, u64>, fn(&u64) -> Id>;

list! {
    /// The symbols of a section's relocations, in the order of the relocation table that counts.
    Relocations of SymbolId
}

list! {
    /// Names in order.
    Names of Interned
}

/// An input of a link.
#[derive(Clone, Debug, PartialEq, Eq)]
pub enum Input<'a> {
    /// A merged object.
    Object,
    /// A loaded library.
    Library {
        /// Its name: the soname, else the name by which it was asked for.
        name: Interned,
        /// The libraries that it depends on.
        dependencies: Names<'a>,
        /// The names of its undefined symbols of binding 1.
        undefined: Names<'a>,
    },
}

impl Link {
    /// Every symbol by ascending id; a removed one is `None`.
    pub fn symbols(&self) -> impl ExactSizeIterator<Item = Option<Symbol>> {
        let rows = &self.symbols.as_chunks().0[..self.symbol_count()];
        rows.iter()
            .enumerate()
            .map(|(id, row)| (row[0] != 2).then(|| Symbol::of_row(SymbolId(id), row)))
    }

    /// Every section by ascending id.
    pub fn sections(&self) -> impl ExactSizeIterator<Item = Section<'_>> {
        self.section_rows().iter().map(|row| self.section_of(row))
    }

    /// The section of that id, if the link has it.
    pub fn section(&self, id: SectionId) -> Option<Section<'_>> {
        self.section_rows().get(id.0).map(|row| self.section_of(row))
    }

    fn section_rows(&self) -> &[[u64; 8]] {
        &self.sections.as_chunks().0[..self.section_count()]
    }

    fn section_of(&self, row: &[u64; 8]) -> Section<'_> {
        let [state, name, kind, retain, read, first, count, size] = *row;
        let name = Interned::of_cell(name);
        match state {
            2 => Section::Built {
                name,
                program: kind == 1,
                retain: retain != 0,
                read: read != 0,
                size,
                relocations: Relocations(self.list(first, count)),
            },
            3 => Section::Dropped { name, size },
            _ => Section::Reserved,
        }
    }

    /// Every input in order.
    pub fn inputs(&self) -> impl ExactSizeIterator<Item = Input<'_>> {
        let rows = &self.inputs.as_chunks::<8>().0[..self.input_count()];
        rows.iter().map(|row| match *row {
            [2, name, needs, need_count, first, count, ..] => Input::Library {
                name: Interned::of_cell(name),
                dependencies: Names(self.list(needs, need_count)),
                undefined: Names(self.list(first, count)),
            },
            _ => Input::Object,
        })
    }

    /// Every name that a global symbol holds, with its id, by ascending name id. The symbol may
    /// be a removed one: a name is never given up.
    pub fn global_names(&self) -> impl Iterator<Item = (Interned, SymbolId)> {
        self.name_rows()
            .filter(|(_, row)| row[3] != 0)
            .map(|(name, row)| (name, SymbolId::of_cell(row[3])))
    }

    /// The signatures of the section groups met so far, by ascending name id.
    pub fn group_signatures(&self) -> impl Iterator<Item = Interned> {
        self.name_rows().filter(|(_, row)| row[4] != 0).map(|(name, _)| name)
    }

    /// The symbol of each section that has one, by ascending section id; also of section ids that
    /// the link doesn't have.
    pub fn section_symbols(&self) -> impl Iterator<Item = (SectionId, SymbolId)> {
        let slots = self.header[7] as usize;
        let cells = &self.sections[slots * 8..][..slots];
        cells
            .iter()
            .enumerate()
            .filter(|(_, symbol)| **symbol != 0)
            .map(|(section, symbol)| (SectionId(section), SymbolId::of_cell(*symbol)))
    }

    fn name_rows(&self) -> impl Iterator<Item = (Interned, &[u64; 8])> {
        let rows = &self.names.as_chunks::<8>().0[..self.name_count()];
        rows.iter().enumerate().map(|(id, row)| (Interned(id), row))
    }

    fn list(&self, first: u64, count: u64) -> &[u64] {
        &self.lists[first as usize..][..count as usize]
    }
}
