//! An object as the parser would hand it over.
use crate::ids::{ElfSectionId, ElfStringId, ElfSymbolId};
use crate::numbers::*;
use crate::rows::Rows;
use std::ops::Not;
use trace::UnwindMark;

#[derive(Debug, Clone)]
pub struct ElfObject {
    pub sections: Rows<ElfSectionId, ElfSection>,
}

#[derive(Debug, Clone)]
pub struct ElfSection {
    pub name: ElfStringId,
    pub exclude: bool,
    pub retain: bool,
    pub content: ElfSectionContent,
}

#[derive(Debug, Clone)]
pub enum ElfSectionContent {
    Null,
    Program(ElfProgramSection),
    Uninitialized(ElfUninitializedSection),
    SymbolTable(ElfSymbolTable),
    StringTable(ElfStringTable),
    Rel(ElfRelTable),
    Rela(ElfRelaTable),
    Group(ElfGroup),
    Hash(ElfHash),
    GnuHash(ElfGnuHash),
    EhFrameHdr(ElfEhFrameHdr),
    Dynamic(ElfDynamic),
    Note(ElfNotesTable),
    Unknown(ElfUnknownSection),
}

#[derive(Debug, Clone)]
pub struct ElfProgramSection {
    pub kind: ElfProgramSectionKind,
    pub perms: ElfPermissions,
    pub deduplication: ElfDeduplication,
    pub raw: Vec<u8>,
}

#[derive(Debug, Clone)]
pub enum ElfProgramSectionKind {
    Program,
}

#[derive(Debug, Clone)]
pub enum ElfDeduplication {
    Disabled,
}

#[derive(Debug, Clone)]
pub struct ElfPermissions {
    pub read: bool,
    /// Tells which section was being built when a panic came (see `trace`).
    pub mark: UnwindMark,
}

#[derive(Debug, Clone)]
pub struct ElfUninitializedSection {
    pub perms: ElfPermissions,
    pub len: u64,
}

#[derive(Debug, Clone)]
pub struct ElfSymbolTable {
    pub dynsym: bool,
    pub symbols: Rows<ElfSymbolId, ElfSymbol>,
}

#[derive(Debug, Clone)]
pub struct ElfSymbol {
    pub name: ElfStringId,
    pub binding: ElfSymbolBinding,
    pub visibility: ElfSymbolVisibility,
    pub type_: ElfSymbolType,
    pub definition: ElfSymbolDefinition,
    pub value: u64,
}

#[derive(Debug, Clone, Copy)]
pub enum ElfSymbolDefinition {
    Undefined,
    Absolute,
    Common,
    Section(ElfSectionId),
}

#[derive(Debug, Clone)]
pub struct ElfStringTable {
    pub bytes: Vec<u8>,
}

impl ElfStringTable {
    /// Document 01's rule: from an offset below the length to the next zero byte. (Names of the
    /// oracle are ASCII, so that they are also `str`s.)
    pub fn get(&self, offset: u64) -> Option<&str> {
        let rest = self.bytes.get(usize::try_from(offset).ok()?..)?;
        let end = rest.iter().position(|byte| *byte == 0)?;
        std::str::from_utf8(&rest[..end]).ok()
    }
}

#[derive(Debug, Clone)]
pub struct ElfRelTable {
    pub applies_to_section: ElfSectionId,
    pub relocations: Vec<ElfRel>,
}

#[derive(Debug, Clone)]
pub struct ElfRelaTable {
    pub applies_to_section: ElfSectionId,
    pub relocations: Vec<ElfRela>,
}

#[derive(Debug, Clone)]
pub struct ElfRel {
    pub symbol: ElfSymbolId,
    pub offset: u64,
    pub relocation_type: ElfRelocationType,
}

#[derive(Debug, Clone)]
pub struct ElfRela {
    pub symbol: ElfSymbolId,
    pub offset: u64,
    pub relocation_type: ElfRelocationType,
    pub addend: i64,
}

#[derive(Debug, Clone)]
pub struct ElfGroup {
    pub comdat: ComdatFlag,
    pub sections: Vec<ElfSectionId>,
    pub signature: ElfSymbolId,
}

/// A flag that notes which group's it is when asked: the first thing `add_group` does.
#[derive(Debug, Clone, Copy)]
pub struct ComdatFlag {
    pub set: bool,
    pub group: u64,
}

impl Not for ComdatFlag {
    type Output = bool;

    fn not(self) -> bool {
        trace::group(self.group);
        !self.set
    }
}

#[derive(Debug, Clone)]
pub struct ElfHash;

#[derive(Debug, Clone)]
pub struct ElfGnuHash;

#[derive(Debug, Clone)]
pub struct ElfEhFrameHdr;

#[derive(Debug, Clone)]
pub struct ElfEhFrameHdrEntry;

#[derive(Debug, Clone)]
pub struct ElfDynamic;

#[derive(Debug, Clone)]
pub struct ElfUnknownSection {
    pub id: u32,
}

/// Notes are outside the compared domain: the oracle's note sections are empty.
#[derive(Debug, Clone)]
pub struct ElfNotesTable {
    pub notes: Vec<ElfNote>,
}

#[derive(Debug, Clone)]
pub enum ElfNote {
    GnuProperties(Vec<ElfGnuProperty>),
    Unknown(ElfUnknownNote),
}

#[derive(Debug, Clone)]
pub struct ElfUnknownNote {
    pub name: String,
    pub type_: u32,
}

#[derive(Debug, Clone)]
pub enum ElfGnuProperty {
    X86Features1And(ElfX86Features1),
    X86Features2Used(ElfX86Features2),
    X86IsaUsed(ElfX86Isa),
    Unknown(ElfUnknownGnuProperty),
}

#[derive(Debug, Clone)]
pub struct ElfUnknownGnuProperty {
    pub type_: u32,
}
