//! What a list announces: the rows of objects, libraries and archives, and the conversion.
use crate::direct::Conversion;
use crate::form::{Fault, Words};
use crate::rows::{LibraryRows, ObjectRows, SectionRow, SymbolRow};
use std::collections::BTreeMap;

#[derive(Default)]
pub(crate) struct Announced {
    pub(crate) conversion: Vec<Conversion>,
    filling: Filling,
    wanted: (u64, u64),
    pub(crate) object: ObjectRows,
    pub(crate) library: LibraryRows,
    pub(crate) archive: ArchiveRows,
    /// In place of an archive: several, by their indexes.
    pub(crate) indexes: Option<Indexes>,
}

/// What the rows that come belong to.
#[derive(Default)]
enum Filling {
    #[default]
    Object,
    Library,
}

#[derive(Default)]
pub(crate) struct ArchiveRows {
    pub(crate) has_index: bool,
    pub(crate) count: u64,
    pub(crate) entries: Vec<(u64, String)>,
    pub(crate) members: BTreeMap<u64, ObjectRows>,
}

/// The indexes of several archives as they lie in one slice, and where each ends.
#[derive(Clone, Default)]
pub(crate) struct Indexes {
    pub(crate) bytes: Vec<u8>,
    pub(crate) ends: Vec<u64>,
}

impl Announced {
    /// At a new link. The conversion is the caller's, no part of the link.
    pub(crate) fn clear(&mut self) {
        let conversion = std::mem::take(&mut self.conversion);
        *self = Announced { conversion, ..Announced::default() };
    }

    /// Takes a line that announces something; others are calls.
    pub(crate) fn takes(&mut self, line: &str) -> Result<bool, Fault> {
        let mut words = Words::of(line);
        match words.word()? {
            "conversion" => {
                let rest = words.rest();
                self.conversion =
                    rest.iter().map(|word| Conversion::read(word)).collect::<Result<_, _>>()?;
                return Ok(true);
            }
            "object" => {
                self.wanted = (words.number()?, words.number()?);
                self.object = ObjectRows { names: words.number()?, ..ObjectRows::default() };
                self.filling = Filling::Object;
            }
            "section" => self.object.sections.push(SectionRow::read(&mut words)?),
            "symbol" => {
                let row = SymbolRow::read(&mut words)?;
                match self.filling {
                    Filling::Object => self.object.symbols.push(row),
                    Filling::Library => self.library.symbols.push(row),
                }
            }
            "library" => {
                self.library = LibraryRows {
                    as_needed: words.flag()?,
                    soname: words.optional_name()?,
                    file: words.optional_name()?,
                    ..LibraryRows::default()
                };
                self.wanted = (words.number()?, words.number()?);
                self.filling = Filling::Library;
            }
            "strings" => self.library.strings = words.bytes()?,
            "needs" => self.library.needs.push(words.name()?),
            "archive" => {
                self.archive = ArchiveRows {
                    has_index: words.flag()?,
                    count: words.number()?,
                    ..ArchiveRows::default()
                };
                self.indexes = None;
            }
            "indexes" => {
                self.archive = ArchiveRows::default();
                self.indexes = Some(Indexes { bytes: words.bytes()?, ends: words.numbers()? });
            }
            "entry" => {
                let entry = (words.below(1 << 32)?, words.name()?);
                self.archive.entries.push(entry);
            }
            "index" => {
                if words.bytes()? != self.archive.index() {
                    return Err("the bytes of the index aren't those of its entries".into());
                }
            }
            "member" => {
                self.whole()?;
                self.archive.members.insert(words.below(1 << 32)?, self.object.clone());
            }
            _ => return Ok(false),
        }
        words.end()?;
        Ok(true)
    }

    /// The rows announced are the rows given.
    pub(crate) fn whole(&self) -> Result<(), Fault> {
        let given = match self.filling {
            Filling::Object => (self.object.sections.len(), self.object.symbols.len()),
            Filling::Library => (self.library.symbols.len(), self.library.needs.len()),
        };
        if (given.0 as u64, given.1 as u64) != self.wanted {
            return Err(format!("rows announced {:?}, given {given:?}", self.wanted));
        }
        Ok(())
    }
}

impl ArchiveRows {
    /// The System V index: count, offsets, zero-ended names.
    pub(crate) fn index(&self) -> Vec<u8> {
        if !self.has_index {
            return Vec::new();
        }
        let mut out = (self.entries.len() as u32).to_be_bytes().to_vec();
        for (offset, _) in &self.entries {
            out.extend((*offset as u32).to_be_bytes());
        }
        for (_, name) in &self.entries {
            out.extend(name.as_bytes());
            out.push(0);
        }
        out
    }

    /// The entries announced are the entries given.
    pub(crate) fn whole(&self) -> Result<(), Fault> {
        match self.entries.len() as u64 == self.count {
            true => Ok(()),
            false => Err(format!("{} entries announced", self.count)),
        }
    }
}
