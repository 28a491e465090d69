//! Objects as rows, for a merge, an admission or a group by itself.
use crate::{ElfSymbol, Refusal, ffi};
use std::borrow::Cow;

/// A section of an object: what every section has, and its contents by kind.
#[derive(Clone, Copy, Debug)]
pub struct SectionHeader<'c> {
    /// Where its name starts in the section-name string section.
    pub name: usize,
    /// `SHF_EXCLUDE`: it vanishes before the merge.
    pub exclude: bool,
    /// `SHF_GNU_RETAIN`: a root of every collection.
    pub retain: bool,
    /// It is readable at run time: no root of a collection by itself.
    pub read: bool,
    /// How many bytes it has, in the file or, uninitialized, in memory.
    pub size: u64,
    /// Its kind and contents.
    pub content: SectionContent<'c>,
}

impl Default for SectionHeader<'_> {
    fn default() -> Self {
        SectionHeader {
            name: 0,
            exclude: false,
            retain: false,
            read: false,
            size: 0,
            content: SectionContent::Null,
        }
    }
}

/// The kinds of sections. Numbers of sections are the object's own, those of symbols their table's.
#[derive(Clone, Copy, Debug)]
pub enum SectionContent<'c> {
    /// `SHT_NULL`.
    Null,
    /// Program data.
    Program,
    /// `SHT_NOBITS`.
    Uninitialized,
    /// `SHT_SYMTAB`.
    SymbolTable {
        /// The string section with the symbols' names.
        strings: usize,
        /// Its first symbol among the object's.
        first: usize,
        /// How many symbols it has.
        count: usize,
    },
    /// `SHT_STRTAB`.
    StringTable {
        /// Where it starts in the file.
        first: usize,
        /// Its length.
        len: usize,
    },
    /// `SHT_REL`.
    Rel(Relocations<'c>),
    /// `SHT_RELA`.
    Rela(Relocations<'c>),
    /// `SHT_GROUP`.
    Group {
        /// The symbol table that its signature is in.
        table: usize,
        /// The signature's number in that table.
        signature: usize,
        /// `GRP_COMDAT`.
        comdat: bool,
        /// The sections that it lists.
        sections: &'c [usize],
    },
    /// `SHT_HASH`.
    Hash,
    /// `SHT_GNU_HASH`.
    GnuHash,
    /// `SHT_DYNSYM`; fields as a symbol table's.
    DynamicSymbolTable {
        /// The string section with the symbols' names.
        strings: usize,
        /// Its first symbol among the object's.
        first: usize,
        /// How many symbols it has.
        count: usize,
    },
    /// `.eh_frame_hdr`.
    EhFrameHdr,
    /// `SHT_DYNAMIC`.
    Dynamic,
    /// A type that the linker doesn't know.
    Unknown,
    /// `SHT_NOTE`.
    Note,
}

/// A relocation table: of each relocation the symbol's number.
#[derive(Clone, Copy, Debug)]
pub struct Relocations<'c> {
    /// The symbol table that the symbols are in.
    pub table: usize,
    /// The section that the table applies to.
    pub applies_to: usize,
    /// The symbols' numbers in that table.
    pub symbols: &'c [usize],
}

/// An object: its file's bytes and rows that say what lies where. Nothing of the file is copied.
#[derive(Clone, Debug, Default)]
pub struct Object<'a> {
    pub(crate) headers: Vec<u64>,
    pub(crate) entries: Vec<u64>,
    pub(crate) contents: Vec<u64>,
    pub(crate) file: Cow<'a, [u8]>,
    pub(crate) names: usize,
}

impl<'a> Object<'a> {
    /// An object without sections, over the bytes in which its string tables will lie.
    pub fn new(file: impl Into<Cow<'a, [u8]>>) -> Self {
        Object { file: file.into(), ..Object::default() }
    }

    /// The object that a file holds: an ELF file of the 64-bit class, little-endian, relocatable. 26
    /// if it is no such file, 27 if its headers or a table lie past its end or are cut; 2 if its
    /// tables overlap and need too many rows: more cells than the file has bytes, and than 2^24.
    ///
    /// [`Link::merge_file`](crate::Link::merge_file) does the same by itself: this is for
    /// [`PendingArchive::admits`](crate::PendingArchive::admits).
    pub fn read(file: impl Into<Cow<'a, [u8]>>) -> Result<Self, Refusal> {
        let file = file.into();
        let due = ffi::count_file(&file)?;
        let mut rows = vec![0; due.cells()];
        let names = ffi::read_file(&mut rows, &file)?;
        let contents = rows.split_off(8 * (due.sections + due.symbols));
        let entries = rows.split_off(8 * due.sections);
        Ok(Object { headers: rows, entries, contents, file, names })
    }

    /// How many sections it has.
    pub fn section_count(&self) -> usize {
        self.headers.len() / 8
    }

    /// How many symbols it has.
    pub fn symbol_count(&self) -> usize {
        self.entries.len() / 8
    }

    /// Says which section holds the sections' names.
    pub fn set_section_names(&mut self, section: usize) {
        self.names = section;
    }

    /// Adds a symbol; symbol tables refer to symbols by their order here.
    pub fn push_symbol(&mut self, symbol: ElfSymbol) {
        self.entries.extend(symbol.cells());
    }

    /// Adds a section and answers its number.
    pub fn push_section(&mut self, section: SectionHeader<'_>) -> usize {
        let mut row = Row::of(section.content);
        if let Some(list) = row.list {
            (row.first, row.count) = (self.contents.len(), list.len());
            self.contents.extend(list.iter().map(|number| *number as u64));
        }
        let flags = section.exclude as u64
            | (section.retain as u64) << 1
            | (section.read as u64) << 2
            | (row.comdat as u64) << 3;
        let [name, link, info, first, count] =
            [section.name, row.link, row.info, row.first, row.count].map(|number| number as u64);
        self.headers.extend([row.kind, name, flags, link, info, first, count, section.size]);
        self.section_count() - 1
    }

    /// How many symbols the table has that a merge loads: the first that isn't excluded. A second
    /// one is refused.
    pub(crate) fn loaded_symbols(&self) -> usize {
        loaded_symbols(&self.headers)
    }

    /// Of each symbol of the loaded table that is global or weak the section field.
    pub(crate) fn global_sections(&self) -> Vec<Option<u64>> {
        let headers = self.headers.as_chunks::<8>().0;
        let table = headers.iter().find(|row| row[0] == 3 && row[2] & 1 == 0);
        let [first, count] = table.map_or([0, 0], |row| [row[5] as usize, row[6] as usize]);
        let rows = &self.entries.as_chunks::<8>().0[first..first + count];
        rows.iter().map(|row| (row[1] == 1 || row[1] == 2).then_some(row[4])).collect()
    }

    /// What a group by itself is lent: headers by which the table starts at 0 and other tables have
    /// no rows, and the table's rows, none if the section is no table. The call judges every
    /// table's range against these rows. A range that the object doesn't have stays, to be refused.
    pub(crate) fn for_group(&self, table: usize) -> (Vec<u64>, &[u64]) {
        let rows = self.entries.as_chunks::<8>().0;
        let (mut headers, mut lent) = (self.headers.clone(), &rows[..0]);
        for (section, header) in headers.as_chunks_mut::<8>().0.iter_mut().enumerate() {
            let [3 | 10, _, _, _, _, first, count, _] = header else { continue };
            let end = first.saturating_add(*count);
            if end > rows.len() as u64 {
                continue;
            }
            if section == table {
                lent = &rows[*first as usize..end as usize];
            } else {
                *count = 0;
            }
            *first = 0;
        }
        (headers, lent.as_flattened())
    }
}

/// The symbols of the first symbol table that isn't excluded, by the rows of headers.
pub(crate) fn loaded_symbols(headers: &[u64]) -> usize {
    let mut headers = headers.as_chunks::<8>().0.iter();
    headers.find(|row| row[0] == 3 && row[2] & 1 == 0).map_or(0, |row| row[6] as usize)
}

/// A section's contents as fields of a header's row.
#[derive(Default)]
struct Row<'c> {
    kind: u64,
    link: usize,
    info: usize,
    first: usize,
    count: usize,
    comdat: bool,
    /// Lies among the object's lists; else `first` and `count` say where the contents are.
    list: Option<&'c [usize]>,
}

impl<'c> Row<'c> {
    fn of(content: SectionContent<'c>) -> Self {
        let plain = |kind| Row { kind, ..Row::default() };
        match content {
            SectionContent::Null => plain(0),
            SectionContent::Program => plain(1),
            SectionContent::Uninitialized => plain(2),
            SectionContent::SymbolTable { strings, first, count } => {
                Row { link: strings, first, count, ..plain(3) }
            }
            SectionContent::StringTable { first, len } => Row { first, count: len, ..plain(4) },
            SectionContent::Rel(table) => Row::of_relocations(5, table),
            SectionContent::Rela(table) => Row::of_relocations(6, table),
            SectionContent::Group { table, signature, comdat, sections } => {
                Row { link: table, info: signature, comdat, list: Some(sections), ..plain(7) }
            }
            SectionContent::Hash => plain(8),
            SectionContent::GnuHash => plain(9),
            SectionContent::DynamicSymbolTable { strings, first, count } => {
                Row { link: strings, first, count, ..plain(10) }
            }
            SectionContent::EhFrameHdr => plain(11),
            SectionContent::Dynamic => plain(12),
            SectionContent::Unknown => plain(13),
            SectionContent::Note => plain(14),
        }
    }

    fn of_relocations(kind: u64, table: Relocations<'c>) -> Self {
        let Relocations { table: link, applies_to: info, symbols } = table;
        Row { kind, link, info, list: Some(symbols), ..Row::default() }
    }
}
