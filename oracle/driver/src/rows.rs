//! Document 01's rows of an object and of a shared object: as lines, and as the stand-ins' types.
use crate::form::{self, Fault, Words};
use cuddld_elf::ids::{ElfSectionId, ElfStringId, ElfSymbolId};
use cuddld_elf::*;
use trace::UnwindMark;

pub(crate) const ABSOLUTE: u64 = 0xfff1;
pub(crate) const COMMON: u64 = 0xfff2;

#[derive(Debug, Clone, Default)]
pub(crate) struct SectionRow {
    pub(crate) kind: u64,
    pub(crate) name: u64,
    pub(crate) exclude: bool,
    pub(crate) retain: bool,
    pub(crate) read: bool,
    pub(crate) link: u64,
    pub(crate) info: u64,
    pub(crate) comdat: bool,
    /// Of a string table.
    pub(crate) bytes: Vec<u8>,
    /// Symbols of a relocation table, sections of a group, first row and count of a symbol table.
    pub(crate) items: Vec<u64>,
}

#[derive(Debug, Clone, Default)]
pub(crate) struct SymbolRow {
    pub(crate) name: u64,
    pub(crate) binding: u64,
    pub(crate) kind: u64,
    pub(crate) visibility: u64,
    pub(crate) section: u64,
    pub(crate) value: u64,
    /// Document 02, 2026-06. The Rust has none.
    pub(crate) size: u64,
}

#[derive(Debug, Clone, Default)]
pub(crate) struct ObjectRows {
    pub(crate) sections: Vec<SectionRow>,
    pub(crate) symbols: Vec<SymbolRow>,
    /// Number of the section-name string section.
    pub(crate) names: u64,
}

#[derive(Debug, Clone, Default)]
pub(crate) struct LibraryRows {
    pub(crate) as_needed: bool,
    pub(crate) soname: Option<String>,
    /// None: inside an archive.
    pub(crate) file: Option<String>,
    pub(crate) strings: Vec<u8>,
    pub(crate) symbols: Vec<SymbolRow>,
    pub(crate) needs: Vec<String>,
}

impl SectionRow {
    pub(crate) fn read(words: &mut Words) -> Result<Self, Fault> {
        Ok(SectionRow {
            kind: words.below(15)?,
            name: words.number()?,
            exclude: words.flag()?,
            retain: words.flag()?,
            read: words.flag()?,
            link: words.number()?,
            info: words.number()?,
            comdat: words.flag()?,
            bytes: words.bytes()?,
            items: words.numbers()?,
        })
    }

    pub(crate) fn line(&self) -> String {
        format!(
            "section {} {} {} {} {} {} {} {} {} {}",
            self.kind,
            self.name,
            self.exclude as u8,
            self.retain as u8,
            self.read as u8,
            self.link,
            self.info,
            self.comdat as u8,
            form::hex(&self.bytes),
            form::counted(&self.items),
        )
    }
}

impl SymbolRow {
    pub(crate) fn read(words: &mut Words) -> Result<Self, Fault> {
        let row = SymbolRow {
            name: words.number()?,
            binding: words.below(16)?,
            kind: words.below(16)?,
            visibility: words.below(4)?,
            section: words.number()?,
            value: words.number()?,
            size: words.optional_number()?,
        };
        if row.section >= 0xff00 && row.section != ABSOLUTE && row.section != COMMON {
            return Err(format!("{} is no section number", row.section));
        }
        Ok(row)
    }

    pub(crate) fn line(&self) -> String {
        let size = form::size(self.size);
        format!(
            "symbol {} {} {} {} {} {}{size}",
            self.name, self.binding, self.kind, self.visibility, self.section, self.value
        )
    }

    /// A common of binding 1 or 2, which the Rust doesn't have.
    pub(crate) fn is_common(&self) -> bool {
        self.section == COMMON && (self.binding == 1 || self.binding == 2)
    }

    pub(crate) fn elf(&self, strings: u64) -> ElfSymbol {
        ElfSymbol {
            name: ElfStringId { section: ElfSectionId(strings), offset: self.name },
            binding: (self.binding as u8).into(),
            visibility: (self.visibility as u8).into(),
            type_: (self.kind as u8).into(),
            definition: match self.section {
                0 => ElfSymbolDefinition::Undefined,
                ABSOLUTE => ElfSymbolDefinition::Absolute,
                COMMON => ElfSymbolDefinition::Common,
                section => ElfSymbolDefinition::Section(ElfSectionId(section)),
            },
            value: self.value,
        }
    }
}

impl ObjectRows {
    pub(crate) fn lines(&self) -> Vec<String> {
        let mut out =
            vec![format!("object {} {} {}", self.sections.len(), self.symbols.len(), self.names)];
        out.extend(self.sections.iter().map(SectionRow::line));
        out.extend(self.symbols.iter().map(SymbolRow::line));
        out
    }

    pub(crate) fn elf(&self) -> Result<ElfObject, Fault> {
        let mut sections = Vec::new();
        for (number, row) in self.sections.iter().enumerate() {
            let number = number as u64;
            let section = ElfSection {
                name: ElfStringId { section: ElfSectionId(self.names), offset: row.name },
                exclude: row.exclude,
                retain: row.retain,
                content: self.content(number, row)?,
            };
            sections.push((ElfSectionId(number), section));
        }
        Ok(ElfObject { sections: sections.into_iter().collect() })
    }

    fn content(&self, number: u64, row: &SectionRow) -> Result<ElfSectionContent, Fault> {
        let symbol = |number: &u64| ElfSymbolId { table: ElfSectionId(row.link), number: *number };
        let applies_to_section = ElfSectionId(row.info);
        let relocation_type = ElfRelocationType::X86_64_64;
        let perms = ElfPermissions { read: row.read, mark: UnwindMark(number) };
        Ok(match row.kind {
            0 => ElfSectionContent::Null,
            1 => ElfSectionContent::Program(ElfProgramSection {
                kind: ElfProgramSectionKind::Program,
                perms,
                deduplication: ElfDeduplication::Disabled,
                raw: Vec::new(),
            }),
            2 => ElfSectionContent::Uninitialized(ElfUninitializedSection { perms, len: 0 }),
            3 | 10 => ElfSectionContent::SymbolTable(ElfSymbolTable {
                dynsym: row.kind == 10,
                symbols: self
                    .table(row)?
                    .iter()
                    .enumerate()
                    .map(|(at, symbol)| {
                        let id = ElfSymbolId { table: ElfSectionId(number), number: at as u64 };
                        (id, symbol.elf(row.link))
                    })
                    .collect(),
            }),
            4 => ElfSectionContent::StringTable(ElfStringTable { bytes: row.bytes.clone() }),
            5 => ElfSectionContent::Rel(ElfRelTable {
                applies_to_section,
                relocations: row
                    .items
                    .iter()
                    .map(|at| ElfRel { symbol: symbol(at), offset: 0, relocation_type })
                    .collect(),
            }),
            6 => ElfSectionContent::Rela(ElfRelaTable {
                applies_to_section,
                relocations: row
                    .items
                    .iter()
                    .map(|at| ElfRela { symbol: symbol(at), offset: 0, relocation_type, addend: 0 })
                    .collect(),
            }),
            7 => ElfSectionContent::Group(ElfGroup {
                comdat: ComdatFlag { set: row.comdat, group: number },
                sections: row.items.iter().map(|at| ElfSectionId(*at)).collect(),
                signature: symbol(&row.info),
            }),
            8 => ElfSectionContent::Hash(ElfHash),
            9 => ElfSectionContent::GnuHash(ElfGnuHash),
            11 => ElfSectionContent::EhFrameHdr(ElfEhFrameHdr),
            12 => ElfSectionContent::Dynamic(ElfDynamic),
            13 => ElfSectionContent::Unknown(ElfUnknownSection { id: 0x6fff_0000 }),
            14 => ElfSectionContent::Note(ElfNotesTable { notes: Vec::new() }),
            other => return Err(format!("no section kind {other}")),
        })
    }

    /// The symbol rows of a symbol table.
    pub(crate) fn table(&self, row: &SectionRow) -> Result<&[SymbolRow], Fault> {
        let [first, count] = row.items.as_slice() else {
            return Err("a symbol table's items are its first row and their number".into());
        };
        let (first, count) = (*first as usize, *count as usize);
        self.symbols
            .get(first..)
            .and_then(|rest| rest.get(..count))
            .ok_or_else(|| "a symbol table's rows aren't there".into())
    }
}

impl LibraryRows {
    pub(crate) fn lines(&self) -> Vec<String> {
        let mut out = vec![
            format!(
                "library {} {} {} {} {}",
                self.as_needed as u8,
                form::optional_name(self.soname.as_deref()),
                form::optional_name(self.file.as_deref()),
                self.symbols.len(),
                self.needs.len()
            ),
            format!("strings {}", form::hex(&self.strings)),
        ];
        out.extend(self.symbols.iter().map(SymbolRow::line));
        out.extend(self.needs.iter().map(|name| format!("needs {}", form::name(name))));
        out
    }

    pub(crate) fn library(&self) -> Library {
        let strings = ElfStringTable { bytes: self.strings.clone() };
        let symbol = |(number, row): (usize, &SymbolRow)| {
            let text = strings.get(row.name)?.to_string();
            Some(ElfSymbolInDynamic {
                name: DynamicName { text, number: number as u64 },
                binding: (row.binding as u8).into(),
                visibility: (row.visibility as u8).into(),
                defined: row.section != 0,
            })
        };
        Library {
            soname: self.soname.clone(),
            symbols: self.symbols.iter().enumerate().map(symbol).collect(),
            needed: self.needs.clone(),
        }
    }
}
