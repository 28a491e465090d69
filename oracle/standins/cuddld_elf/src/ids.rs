//! Numbers of sections, symbols and strings of one object.

#[derive(Debug, Clone, Copy, PartialEq, Eq, PartialOrd, Ord, Hash)]
pub struct ElfSectionId(pub u64);

/// A symbol's number in its table. The table belongs to the id, so that ids are unique over the
/// tables of an object: a number of one table finds nothing in another.
#[derive(Debug, Clone, Copy, PartialEq, Eq, PartialOrd, Ord, Hash)]
pub struct ElfSymbolId {
    pub table: ElfSectionId,
    pub number: u64,
}

#[derive(Debug, Clone, Copy, PartialEq, Eq, PartialOrd, Ord, Hash)]
pub struct ElfStringId {
    pub section: ElfSectionId,
    pub offset: u64,
}
