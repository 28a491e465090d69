//! Reads the rows and maps of `Symbols`.
use super::*;

impl SymbolId {
    pub(crate) fn of(number: u64) -> Self {
        SymbolId(number as usize)
    }

    pub(crate) fn number(self) -> u64 {
        self.0 as u64
    }
}

impl Symbols {
    /// All rows by id; a removed one is `None`.
    pub(crate) fn rows(&self) -> impl ExactSizeIterator<Item = Option<&Symbol>> {
        self.symbols.iter().map(|slot| match slot {
            SymbolSlot::Present(symbol) => Some(symbol),
            SymbolSlot::Removed => None,
        })
    }

    pub(crate) fn section_symbols(&self) -> &BTreeMap<SectionId, SymbolId> {
        &self.section_symbols
    }

    pub(crate) fn global_names(&self) -> &BTreeMap<Interned<String>, SymbolId> {
        &self.global_symbols
    }
}
