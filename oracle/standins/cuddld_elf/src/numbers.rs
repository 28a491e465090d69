//! gABI's numbers as enums, and the small types around an object.

#[derive(Debug, Clone, Copy, PartialEq, Eq)]
pub enum ElfSymbolBinding {
    Local,
    Global,
    Weak,
    Unknown(u8),
}

impl From<u8> for ElfSymbolBinding {
    fn from(number: u8) -> Self {
        match number {
            0 => ElfSymbolBinding::Local,
            1 => ElfSymbolBinding::Global,
            2 => ElfSymbolBinding::Weak,
            other => ElfSymbolBinding::Unknown(other),
        }
    }
}

#[derive(Debug, Clone, Copy, PartialEq, Eq)]
pub enum ElfSymbolType {
    NoType,
    Object,
    Function,
    Section,
    File,
    Unknown(u8),
}

impl From<u8> for ElfSymbolType {
    fn from(number: u8) -> Self {
        match number {
            0 => ElfSymbolType::NoType,
            1 => ElfSymbolType::Object,
            2 => ElfSymbolType::Function,
            3 => ElfSymbolType::Section,
            4 => ElfSymbolType::File,
            other => ElfSymbolType::Unknown(other),
        }
    }
}

#[derive(Debug, Clone, Copy, PartialEq, Eq)]
pub enum ElfSymbolVisibility {
    Default,
    Internal,
    Hidden,
    Protected,
}

impl From<u8> for ElfSymbolVisibility {
    fn from(number: u8) -> Self {
        match number {
            0 => ElfSymbolVisibility::Default,
            1 => ElfSymbolVisibility::Internal,
            2 => ElfSymbolVisibility::Hidden,
            3 => ElfSymbolVisibility::Protected,
            other => panic!("no visibility {other}"),
        }
    }
}

#[derive(Debug, Clone, Copy, PartialEq, Eq)]
pub enum ElfClass {
    Elf32,
    Elf64,
}

#[derive(Debug, Clone, Copy, PartialEq, Eq)]
pub enum ElfEndian {
    Little,
}

#[derive(Debug, Clone, Copy, PartialEq, Eq)]
pub enum ElfAbi {
    SystemV,
}

#[derive(Debug, Clone, Copy, PartialEq, Eq)]
pub enum ElfMachine {
    X86,
    X86_64,
}

#[derive(Debug, Clone, Copy, PartialEq, Eq)]
pub struct ElfEnvironment {
    pub class: ElfClass,
    pub endian: ElfEndian,
    pub abi: ElfAbi,
    pub machine: ElfMachine,
}

#[derive(Debug, Clone)]
pub struct ElfX86Isa;

#[derive(Debug, Clone)]
pub struct ElfX86Features1;

#[derive(Debug, Clone)]
pub struct ElfX86Features2;

/// Only X86_64_64 is ever made: of a relocation document 01 takes the symbol alone.
#[allow(non_camel_case_types)]
#[derive(Debug, Clone, Copy, PartialEq, Eq)]
pub enum ElfRelocationType {
    X86_32,
    X86_PC32,
    X86_PLT32,
    X86_GOTPC,
    X86_GOTOff,
    X86_GOT32,
    X86_GOT32X,
    X86_64_32,
    X86_64_64,
    X86_64_32S,
    X86_64_PC32,
    X86_64_PLT32,
    X86_64_GOTPCRel,
    X86_64_GOTPCRelX,
    X86_64_Rex_GOTPCRelX,
    Unknown(u32),
}
