//! Direct adds, removes and lookups.
use crate::form::{Fault, Words};
use crate::interner::intern;
use crate::link::symbol_row;
use crate::machine::Machine;
use crate::refusal::{self, guarded, refusal};
use crate::repr::sections::SectionId;
use crate::repr::symbols::{SymbolId, SymbolValue, UpcomingSymbol};
use crate::rows::SymbolRow;
use cuddld_diagnostics::ObjectSpan;
use cuddld_elf::ids::ElfSectionId;
use std::collections::{BTreeMap, BTreeSet};

/// What a direct add is lent for a section number.
#[derive(Debug, Clone, Copy)]
pub(crate) enum Conversion {
    Nothing,
    NotLoaded,
    Id(u64),
}

impl Conversion {
    pub(crate) fn read(word: &str) -> Result<Self, Fault> {
        Ok(match word {
            "none" => Conversion::Nothing,
            "unloaded" => Conversion::NotLoaded,
            _ => Conversion::Id(Words::of(word).number()?),
        })
    }
}

#[derive(Debug, Clone)]
pub(crate) enum Direct {
    Null,
    Section(u64),
    Unknown(String),
    Hidden(String, SymbolValue),
    /// A hidden common by its alignment, which the Rust doesn't have.
    HiddenCommon(String, u64),
    External {
        name: String,
        binding: u64,
        visibility: u64,
    },
    /// The row's name offset isn't used.
    Elf {
        name: String,
        row: SymbolRow,
        file: Option<String>,
    },
}

impl Direct {
    pub(crate) fn read(words: &mut Words) -> Result<Self, Fault> {
        Ok(match words.word()? {
            "null" => Direct::Null,
            "section" => Direct::Section(words.number()?),
            "unknown" => Direct::Unknown(words.name()?),
            "hidden" => {
                let name = words.name()?;
                match words.word()? {
                    "com" => Direct::HiddenCommon(name, words.number()?),
                    kind => Direct::Hidden(name, value(kind, words)?),
                }
            }
            "external" => Direct::External {
                name: words.name()?,
                binding: words.below(16)?,
                visibility: words.below(4)?,
            },
            "elf" => {
                let name = words.name()?;
                // The same fields as a symbol row's, without the offset.
                let rest = words.rest();
                let (fields, file) = rest.split_at(rest.len().min(5));
                let line = format!("0 {}", fields.join(" "));
                let mut row = SymbolRow::read(&mut Words::of(&line))?;
                let file = file.join(" ");
                let mut file = Words::of(&file);
                let there = file.optional_name()?;
                row.size = file.optional_number()?;
                file.end()?;
                Direct::Elf { name, row, file: there }
            }
            other => return Err(format!("no add {other:?}")),
        })
    }
}

fn value(kind: &str, words: &mut Words) -> Result<SymbolValue, Fault> {
    Ok(match kind {
        "null" => SymbolValue::Null,
        "abs" => SymbolValue::Absolute { value: words.number()?.into() },
        "sec" => SymbolValue::Section { section: SectionId::of(words.number()?) },
        "rel" => {
            let section = SectionId::of(words.number()?);
            let negative = words.word()? == "-";
            let size = words.number()?;
            let offset = if negative { (size as i64).wrapping_neg() } else { size as i64 };
            SymbolValue::SectionRelative { section, offset: offset.into() }
        }
        "addr" => SymbolValue::SectionVirtualAddress {
            section: SectionId::of(words.number()?),
            memory_address: words.number()?.into(),
        },
        "notloaded" => SymbolValue::SectionNotLoaded,
        "external" => SymbolValue::ExternallyDefined,
        "undef" => SymbolValue::Undefined { default_zero: words.flag()? },
        other => return Err(format!("no value {other:?}")),
    })
}

impl Machine {
    pub(crate) fn add(&mut self, add: &Direct) -> String {
        match self.try_add(add) {
            Ok(id) => format!("id {id}"),
            // 21's place is the id of a name.
            Err(21) => refusal(21, None).to_string(),
            Err(number) => refusal(number, Some(0)).to_string(),
        }
    }

    pub(crate) fn try_add(&mut self, add: &Direct) -> Result<u64, u64> {
        let mut not_loaded = BTreeSet::new();
        let mut conversion = BTreeMap::new();
        for (number, entry) in self.rows.conversion.iter().enumerate() {
            match entry {
                Conversion::Nothing => {}
                Conversion::NotLoaded => {
                    not_loaded.insert(ElfSectionId(number as u64));
                }
                Conversion::Id(id) => {
                    conversion.insert(ElfSectionId(number as u64), SectionId::of(*id));
                }
            }
        }
        let span = intern(ObjectSpan::new_synthetic());
        let upcoming = match add {
            Direct::Null => UpcomingSymbol::Null,
            Direct::Section(section) => {
                UpcomingSymbol::Section { section: SectionId::of(*section), span }
            }
            Direct::Unknown(name) => UpcomingSymbol::GlobalUnknown { name: intern(name) },
            Direct::Hidden(name, value) => {
                UpcomingSymbol::GlobalHidden { name: intern(name), value: *value }
            }
            Direct::HiddenCommon(..) => unreachable!("Machine::ask refuses it"),
            Direct::External { name, binding, visibility } => UpcomingSymbol::ExternallyDefined {
                name: intern(name),
                span,
                visibility: (*visibility as u8).into(),
                binding: (*binding as u8).into(),
            },
            Direct::Elf { name, row, file } => UpcomingSymbol::Elf {
                sections_not_loaded: &not_loaded,
                section_conversion: &conversion,
                elf: row.elf(0),
                resolved_name: intern(name),
                span,
                stt_file: file.as_ref().map(intern),
            },
        };
        let symbols = &mut self.link.object.symbols;
        match guarded(|| symbols.add(upcoming))? {
            Ok(id) => Ok(id.number()),
            Err(error) => Err(refusal::of_add(&error)),
        }
    }

    pub(crate) fn remove(&mut self, id: u64) -> String {
        let symbols = &mut self.link.object.symbols;
        match guarded(|| symbols.remove(SymbolId::of(id))) {
            Ok(()) => "ok".into(),
            Err(number) => refusal(number, Some(id)).to_string(),
        }
    }

    pub(crate) fn get(&self, id: u64) -> String {
        match guarded(|| symbol_row(self.link.object.symbols.get(SymbolId::of(id)))) {
            Ok(row) => row,
            Err(number) => refusal(number, Some(id)).to_string(),
        }
    }

    pub(crate) fn get_global(&self, name: &str) -> String {
        match guarded(|| self.link.object.symbols.get_global(intern(name)).map(symbol_row)) {
            Ok(Ok(row)) => row,
            Ok(Err(_missing)) => refusal(23, Some(0)).to_string(),
            Err(number) => refusal(number, None).to_string(),
        }
    }

    pub(crate) fn section_symbol(&self, section: u64) -> String {
        match self.link.object.symbols.section_symbol_id(SectionId::of(section)) {
            Some(id) => format!("id {}", id.number()),
            None => "none".into(),
        }
    }
}
