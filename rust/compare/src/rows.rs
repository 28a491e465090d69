//! The rows of a list (oracle/README.md), read and written.
use std::fmt;

/// Words of a line after its keyword. Every line was read by the oracle before.
pub struct Words<'a>(pub std::str::Split<'a, char>);

impl<'a> Words<'a> {
    pub fn of(line: &'a str) -> (&'a str, Words<'a>) {
        let mut words = Words(line.split(' '));
        (words.word(), words)
    }

    pub fn word(&mut self) -> &'a str {
        self.0.next().expect("a word")
    }

    pub fn number(&mut self) -> u64 {
        self.word().parse().expect("a number")
    }

    /// One that a line may lack: 0 then.
    pub fn optional_number(&mut self) -> u64 {
        self.0.next().map_or(0, |word| word.parse().expect("a number"))
    }

    pub fn flag(&mut self) -> bool {
        self.word() == "1"
    }

    pub fn name(&mut self) -> &'a str {
        match self.word() {
            "-" => "",
            name => name,
        }
    }

    pub fn optional_name(&mut self) -> Option<&'a str> {
        let there = self.flag();
        let name = self.name();
        there.then_some(name)
    }

    pub fn bytes(&mut self) -> Vec<u8> {
        match self.word() {
            "-" => Vec::new(),
            hex => (0..hex.len() / 2)
                .map(|at| u8::from_str_radix(&hex[2 * at..2 * at + 2], 16).expect("hex"))
                .collect(),
        }
    }

    pub fn numbers(&mut self) -> Vec<u64> {
        let count = self.number();
        (0..count).map(|_| self.number()).collect()
    }
}

pub struct Hex<'a>(pub &'a [u8]);

impl fmt::Display for Hex<'_> {
    fn fmt(&self, f: &mut fmt::Formatter<'_>) -> fmt::Result {
        if self.0.is_empty() {
            return f.write_str("-");
        }
        self.0.iter().try_for_each(|byte| write!(f, "{byte:02x}"))
    }
}

/// A count and that many words.
pub fn counted<T: fmt::Display>(items: impl IntoIterator<Item = T>) -> String {
    let words: Vec<_> = items.into_iter().map(|item| item.to_string()).collect();
    [&[words.len().to_string()], words.as_slice()].concat().join(" ")
}

pub fn shown(name: &str) -> &str {
    if name.is_empty() { "-" } else { name }
}

#[derive(Clone, Default)]
pub struct SectionRow {
    pub kind: u64,
    pub name: u64,
    pub exclude: bool,
    pub retain: bool,
    pub read: bool,
    pub link: u64,
    pub info: u64,
    pub comdat: bool,
    pub bytes: Vec<u8>,
    pub items: Vec<u64>,
}

impl SectionRow {
    pub fn read(words: &mut Words) -> Self {
        SectionRow {
            kind: words.number(),
            name: words.number(),
            exclude: words.flag(),
            retain: words.flag(),
            read: words.flag(),
            link: words.number(),
            info: words.number(),
            comdat: words.flag(),
            bytes: words.bytes(),
            items: words.numbers(),
        }
    }
}

impl fmt::Display for SectionRow {
    fn fmt(&self, f: &mut fmt::Formatter<'_>) -> fmt::Result {
        let SectionRow { kind, name, link, info, .. } = self;
        let [exclude, retain, read, comdat] =
            [self.exclude, self.retain, self.read, self.comdat].map(u8::from);
        let (bytes, items) = (Hex(&self.bytes), counted(&self.items));
        write!(f, "section {kind} {name} {exclude} {retain} {read} {link} {info} {comdat} ")?;
        write!(f, "{bytes} {items}")
    }
}

#[derive(Clone, Default)]
pub struct SymbolRow {
    pub name: u64,
    pub binding: u64,
    pub kind: u64,
    pub visibility: u64,
    pub section: u64,
    pub value: u64,
    pub size: u64,
}

impl SymbolRow {
    pub fn read(words: &mut Words) -> Self {
        SymbolRow {
            name: words.number(),
            binding: words.number(),
            kind: words.number(),
            visibility: words.number(),
            section: words.number(),
            value: words.number(),
            size: words.optional_number(),
        }
    }
}

impl fmt::Display for SymbolRow {
    fn fmt(&self, f: &mut fmt::Formatter<'_>) -> fmt::Result {
        let SymbolRow { name, binding, kind, visibility, section, value, size } = self;
        write!(f, "symbol {name} {binding} {kind} {visibility} {section} {value}")?;
        if *size == 0 { Ok(()) } else { write!(f, " {size}") }
    }
}

#[derive(Clone, Default)]
pub struct ObjectRows {
    pub sections: Vec<SectionRow>,
    pub symbols: Vec<SymbolRow>,
    pub names: u64,
}

#[derive(Clone, Default)]
pub struct LibraryRows {
    pub as_needed: bool,
    pub soname: Option<String>,
    pub file: Option<String>,
    pub strings: Vec<u8>,
    pub symbols: Vec<SymbolRow>,
    pub needs: Vec<String>,
}

#[derive(Clone, Default)]
pub struct ArchiveRows {
    pub has_index: bool,
    pub entries: Vec<(u64, String)>,
}

impl ArchiveRows {
    /// The System V index: count, offsets, zero-ended names.
    pub fn index(&self) -> Vec<u8> {
        if !self.has_index {
            return Vec::new();
        }
        let mut out = (self.entries.len() as u32).to_be_bytes().to_vec();
        for (offset, _) in &self.entries {
            out.extend((*offset as u32).to_be_bytes());
        }
        for (_, name) in &self.entries {
            out.extend(name.as_bytes());
            out.push(0);
        }
        out
    }
}
