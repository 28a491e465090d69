//! What the tests have in common; not each uses all of it.
#![allow(dead_code)]

use hidvorn::*;

/// The number and place of a refusal.
pub fn refused<T>(answer: Result<T, impl Into<Refusal>>) -> (u64, usize) {
    let refusal = answer.err().expect("a refusal").into();
    (refusal.number(), refusal.place)
}

/// A string table with these names, and where each starts.
pub fn strings(names: &[&str]) -> (Vec<u8>, Vec<usize>) {
    let mut bytes = vec![0];
    let mut places = Vec::new();
    for name in names {
        places.push(bytes.len());
        bytes.extend(name.as_bytes());
        bytes.push(0);
    }
    (bytes, places)
}

/// An object of one program section, number 1, and the symbols: binding, section, visibility.
pub fn object(symbols: &[(&str, u64, usize, u64)]) -> Object<'static> {
    let row = |&(name, binding, section, visibility)| {
        (name, ElfSymbol { binding, section, visibility, ..Default::default() })
    };
    object_of(&symbols.iter().map(row).collect::<Vec<_>>())
}

/// The same by the symbols' names and rows; where a name starts is set here.
pub fn object_of(symbols: &[(&str, ElfSymbol)]) -> Object<'static> {
    let names: Vec<_> = symbols.iter().map(|(name, ..)| *name).collect();
    let (bytes, places) = strings(&[&[".text"], names.as_slice()].concat());
    let len = bytes.len();
    let mut object = Object::new(bytes);
    let header = |content| SectionHeader { content, ..Default::default() };
    object.push_section(header(SectionContent::Null));
    let content = SectionContent::Program;
    object.push_section(SectionHeader { name: places[0], read: true, ..header(content) });
    object.push_section(header(SectionContent::StringTable { first: 0, len }));
    object.set_section_names(2);
    object.push_symbol(ElfSymbol::default());
    for ((_, symbol), name) in symbols.iter().zip(&places[1..]) {
        object.push_symbol(ElfSymbol { name: *name, ..*symbol });
    }
    let count = symbols.len() + 1;
    object.push_section(header(SectionContent::SymbolTable { strings: 2, first: 0, count }));
    object
}
