//! Symbols: those of a link, and those that are to be added.
use crate::{Interned, SectionId, SymbolId};

/// The types that a link's symbol can have.
#[derive(Clone, Copy, Debug, PartialEq, Eq)]
pub enum SymbolType {
    /// `STT_NOTYPE`.
    NoType,
    /// `STT_OBJECT`.
    Object,
    /// `STT_FUNC`.
    Function,
    /// `STT_SECTION`.
    Section,
}

/// Whether a symbol is seen outside its object, and how.
#[derive(Clone, Copy, Debug, PartialEq, Eq)]
pub enum SymbolVisibility {
    /// Only its own object's relocations see it.
    Local,
    /// It holds its name in the whole link.
    Global {
        /// It yields to a strong definition.
        weak: bool,
        /// It isn't seen outside the linked file.
        hidden: bool,
    },
}

/// Where a symbol lies. Every value but `Undefined` is a definition.
#[derive(Clone, Copy, Debug, PartialEq, Eq, Hash)]
pub enum SymbolValue {
    /// The null symbol's.
    Null,
    /// A number that no layout changes.
    Absolute {
        /// The number.
        value: u64,
    },
    /// A section as a whole.
    Section {
        /// The section.
        section: SectionId,
    },
    /// An offset in a section.
    SectionRelative {
        /// The section.
        section: SectionId,
        /// The offset from its start.
        offset: i64,
    },
    /// An address in a section; no merge makes it.
    SectionVirtualAddress {
        /// The section.
        section: SectionId,
        /// The address.
        address: u64,
    },
    /// In a section that is not loaded.
    SectionNotLoaded,
    /// In a shared object.
    ExternallyDefined,
    /// A reference.
    Undefined {
        /// It is worth zero if nothing defines it (a weak reference).
        default_zero: bool,
    },
    /// Common: the linker finds room for it, of the symbol's size. A definition that yields to every
    /// strong one of another kind; of several under a name the largest size and alignment stay.
    Common {
        /// A power of two.
        alignment: u64,
    },
}

impl SymbolValue {
    /// Whether this is a reference.
    pub fn is_undefined(&self) -> bool {
        matches!(self, SymbolValue::Undefined { .. })
    }

    /// The section that the value lies in.
    pub fn section(&self) -> Option<SectionId> {
        match *self {
            SymbolValue::Section { section }
            | SymbolValue::SectionRelative { section, .. }
            | SymbolValue::SectionVirtualAddress { section, .. } => Some(section),
            _ => None,
        }
    }

    /// Its kind and two words, as a row holds them.
    fn words(self) -> [u64; 3] {
        match self {
            SymbolValue::Null => [0, 0, 0],
            SymbolValue::Absolute { value } => [1, value, 0],
            SymbolValue::Section { section } => [2, section.cell(), 0],
            SymbolValue::SectionRelative { section, offset } => [3, section.cell(), offset as u64],
            SymbolValue::SectionVirtualAddress { section, address } => [4, section.cell(), address],
            SymbolValue::SectionNotLoaded => [5, 0, 0],
            SymbolValue::ExternallyDefined => [6, 0, 0],
            SymbolValue::Undefined { default_zero } => [7, default_zero as u64, 0],
            SymbolValue::Common { alignment } => [8, alignment, 0],
        }
    }

    fn of_words([kind, a, b]: [u64; 3]) -> Self {
        let section = SectionId::of_cell(a);
        match kind {
            1 => SymbolValue::Absolute { value: a },
            2 => SymbolValue::Section { section },
            3 => SymbolValue::SectionRelative { section, offset: b as i64 },
            4 => SymbolValue::SectionVirtualAddress { section, address: b },
            5 => SymbolValue::SectionNotLoaded,
            6 => SymbolValue::ExternallyDefined,
            7 => SymbolValue::Undefined { default_zero: a == 1 },
            8 => SymbolValue::Common { alignment: a },
            _ => SymbolValue::Null,
        }
    }
}

/// A symbol of a link.
#[derive(Clone, Copy, Debug, PartialEq, Eq)]
pub struct Symbol {
    /// Its id.
    pub id: SymbolId,
    /// Its name.
    pub name: Interned,
    /// Its type.
    pub kind: SymbolType,
    /// The name of the source file that it comes from.
    pub file: Option<Interned>,
    /// Local, or global with its ways.
    pub visibility: SymbolVisibility,
    /// Where it lies.
    pub value: SymbolValue,
    /// Its size; 0 of what isn't an object's symbol.
    pub size: u64,
}

impl Symbol {
    /// The alignment that a common symbol asks for; 0 of every other.
    pub fn alignment(&self) -> u64 {
        match self.value {
            SymbolValue::Common { alignment } => alignment,
            _ => 0,
        }
    }

    /// From the cells of a link's row: state, name, size, file, visibility and 8 times the type, kind of
    /// value, two words.
    pub(crate) fn of_row(id: SymbolId, row: &[u64; 8]) -> Self {
        let [state, name, size, file, packed, kind, a, b] = *row;
        Symbol::of_fields(id, &[state, name, packed / 8, file, packed % 8, kind, a, b, size])
    }

    /// State, name, type, file, visibility, kind of value, two words, size.
    pub(crate) fn of_fields(id: SymbolId, fields: &[u64; 9]) -> Self {
        let [_, name, kind, file, visibility, value @ .., size] = *fields;
        let global = |weak, hidden| SymbolVisibility::Global { weak, hidden };
        Symbol {
            id,
            name: Interned::of_cell(name),
            kind: match kind {
                1 => SymbolType::Object,
                2 => SymbolType::Function,
                3 => SymbolType::Section,
                _ => SymbolType::NoType,
            },
            file: Interned::of_optional_cell(file),
            visibility: match visibility {
                1 => global(false, false),
                2 => global(false, true),
                3 => global(true, false),
                4 => global(true, true),
                _ => SymbolVisibility::Local,
            },
            value: SymbolValue::of_words(value),
            size,
        }
    }
}

/// A symbol of an ELF file by the gABI's numbers. A number that the gABI doesn't have is refused
/// with 1.
#[derive(Clone, Copy, Debug, Default, PartialEq, Eq)]
pub struct ElfSymbol {
    /// Where its name starts in the string table. A direct add doesn't use it.
    pub name: usize,
    /// 0 to 15.
    pub binding: u64,
    /// 0 to 15.
    pub kind: u64,
    /// 0 to 3.
    pub visibility: u64,
    /// 0 undefined, 0xfff1 absolute, 0xfff2 common, else the section's number, below 0xff00.
    pub section: usize,
    /// Its value; a common symbol's is its alignment.
    pub value: u64,
    /// Its size.
    pub size: u64,
}

impl ElfSymbol {
    pub(crate) fn cells(&self) -> [u64; 8] {
        let [name, section] = [self.name, self.section].map(|number| number as u64);
        [name, self.binding, self.kind, self.visibility, section, self.value, self.size, 0]
    }

    pub(crate) fn of_cells(cells: &[u64; 8]) -> Self {
        let [name, binding, kind, visibility, section, value, size, _] = *cells;
        let [name, section] = [name, section].map(|cell| cell as usize);
        ElfSymbol { name, binding, kind, visibility, section, value, size }
    }
}

/// What a section number of an object stands for, in a direct add or after a merge.
#[derive(Clone, Copy, Debug, PartialEq, Eq)]
pub enum Converted {
    /// Nothing: a symbol there is refused with 14.
    Nothing,
    /// A section that isn't loaded.
    NotLoaded,
    /// This section of the link. In a direct add the two largest numbers, which no section can
    /// have, stand for nothing.
    Section(SectionId),
}

impl Converted {
    /// 0 nothing, 1 not loaded, else the id and 2.
    fn cell(self) -> u64 {
        match self {
            Converted::Nothing => 0,
            Converted::NotLoaded => 1,
            Converted::Section(id) => id.cell().checked_add(2).unwrap_or(0),
        }
    }

    pub(crate) fn of_cell(cell: u64) -> Self {
        match cell {
            0 => Converted::Nothing,
            1 => Converted::NotLoaded,
            id => Converted::Section(SectionId::of_cell(id - 2)),
        }
    }
}

/// The conversion of an object's section numbers for direct adds. Numbers that were never set
/// stand for nothing.
#[derive(Clone, Debug, Default)]
pub struct SectionConversion {
    cells: Vec<u64>,
}

impl SectionConversion {
    /// One where no number stands for anything.
    pub fn new() -> Self {
        Self::default()
    }

    /// Says what a number stands for. A number that no section can have (0xff00 and above) stands
    /// for nothing.
    pub fn set(&mut self, number: usize, converted: Converted) {
        if number >= 0xff00 {
            return;
        }
        if self.cells.len() <= number {
            self.cells.resize(number + 1, 0);
        }
        self.cells[number] = converted.cell();
    }

    pub(crate) fn cells(&self) -> &[u64] {
        &self.cells
    }
}

impl FromIterator<Converted> for SectionConversion {
    /// What the numbers 0, 1, .. stand for.
    fn from_iter<I: IntoIterator<Item = Converted>>(all: I) -> Self {
        let mut conversion = SectionConversion::new();
        for (number, converted) in all.into_iter().enumerate() {
            conversion.set(number, converted);
        }
        conversion
    }
}

/// A symbol of a list of adds: a symbol of an object with its name's id.
#[derive(Clone, Copy, Debug)]
pub struct ListedSymbol {
    /// Its fields; the name's offset isn't used.
    pub elf: ElfSymbol,
    /// Its name.
    pub name: Interned,
    /// The name of its source file.
    pub file: Option<Interned>,
}

impl ListedSymbol {
    /// The cells of an object's symbol, with the name's id for its offset, and the file last.
    pub(crate) fn cells(&self) -> [u64; 8] {
        let mut cells = self.elf.cells();
        cells[0] = self.name.cell();
        cells[7] = Interned::optional_cell(self.file);
        cells
    }
}

/// A symbol that is to be added.
#[derive(Clone, Copy, Debug)]
pub enum UpcomingSymbol<'a> {
    /// A null symbol.
    Null,
    /// The symbol of a section.
    Section {
        /// The section.
        section: SectionId,
    },
    /// A strong reference that no object makes.
    GlobalUnknown {
        /// Its name.
        name: Interned,
    },
    /// A strong hidden symbol that the linker itself makes.
    GlobalHidden {
        /// Its name.
        name: Interned,
        /// Its value.
        value: SymbolValue,
    },
    /// A definition in a shared object.
    ExternallyDefined {
        /// Its name.
        name: Interned,
        /// The gABI's number, 0 to 3.
        visibility: u64,
        /// The gABI's number, 0 to 15.
        binding: u64,
    },
    /// A symbol of an object.
    Elf {
        /// Its fields; the name's offset isn't used.
        elf: ElfSymbol,
        /// Its name.
        name: Interned,
        /// The name of its source file; 21 at an id that was never issued (the largest number, which
        /// no link has, at the number before it).
        file: Option<Interned>,
        /// What its object's section numbers stand for.
        conversion: &'a SectionConversion,
    },
}

impl UpcomingSymbol<'_> {
    /// Nine cells: the variant, then its fields.
    pub(crate) fn cells(&self) -> [u64; 9] {
        match *self {
            UpcomingSymbol::Null => [0; 9],
            UpcomingSymbol::GlobalUnknown { name } => [1, name.cell(), 0, 0, 0, 0, 0, 0, 0],
            UpcomingSymbol::GlobalHidden { name, value } => {
                let [kind, a, b] = value.words();
                [2, name.cell(), kind, a, b, 0, 0, 0, 0]
            }
            UpcomingSymbol::Section { section } => [3, section.cell(), 0, 0, 0, 0, 0, 0, 0],
            UpcomingSymbol::ExternallyDefined { name, visibility, binding } => {
                [4, name.cell(), visibility, binding, 0, 0, 0, 0, 0]
            }
            UpcomingSymbol::Elf { elf, name, file, .. } => [
                5,
                elf.binding,
                elf.visibility,
                elf.kind,
                elf.section as u64,
                elf.value,
                name.cell(),
                Interned::optional_cell(file),
                elf.size,
            ],
        }
    }

    /// Its name, if it has one.
    pub(crate) fn name(&self) -> Option<Interned> {
        match *self {
            UpcomingSymbol::Null | UpcomingSymbol::Section { .. } => None,
            UpcomingSymbol::GlobalUnknown { name }
            | UpcomingSymbol::GlobalHidden { name, .. }
            | UpcomingSymbol::ExternallyDefined { name, .. }
            | UpcomingSymbol::Elf { name, .. } => Some(name),
        }
    }

    pub(crate) fn conversion(&self) -> &[u64] {
        match self {
            UpcomingSymbol::Elf { conversion, .. } => conversion.cells(),
            _ => &[],
        }
    }
}
