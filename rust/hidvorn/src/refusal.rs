//! Refusals by the documents' table.
use crate::{SectionId, SymbolId, SymbolValue};
use std::fmt;

macro_rules! causes {
    ($($(#[$doc:meta])* $name:ident = $number:literal: $words:literal,)*) => {
        /// The causes of document 01's table, and those that document 02's requests add. As a number
        /// each is the table's; `Display` tells its words.
        ///
        /// Requests to come may add some.
        #[derive(Clone, Copy, Debug, PartialEq, Eq, PartialOrd, Ord, Hash)]
        #[repr(u8)]
        #[non_exhaustive]
        pub enum Cause {
            $($(#[$doc])* $name = $number,)*
        }

        impl Cause {
            /// Every cause, by ascending number.
            pub const ALL: &[Cause] = &[$(Cause::$name),*];

            fn words(self) -> &'static str {
                match self {
                    $(Cause::$name => $words,)*
                }
            }
        }
    };
}

causes! {
    /// 1: a field out of range, a list over its bound, an index or a list of marks cut short.
    OutOfRange = 1: "field out of range, list over its bound, index or mark list cut short",
    /// 2: no free row, mark or name byte. Also a repeated COMDAT group that lists a section number
    /// of 65,280 or above, which no section has and no mark is lent for.
    NoRoom = 2: "no free row, mark or name byte",
    /// 3: a section of kinds 10 to 13 (dynamic symbol table to unknown).
    UnsupportedKind = 3: "section of an unsupported kind",
    /// 4: a section group that isn't COMDAT.
    NotComdat = 4: "section group that is not COMDAT",
    /// 5: a section group that lists no section.
    EmptyGroup = 5: "section group that lists no section",
    /// 6: a section group without a signature symbol.
    SignatureSymbolMissing = 6: "section group whose signature symbol is missing",
    /// 7: a section group whose signature has no name.
    SignatureStringMissing = 7: "section group whose signature string is missing",
    /// 8: a local symbol in a section that its group removed; the gABI's profile drops it instead.
    LocalInRemovedSection = 8: "local symbol in a removed section",
    /// 9: a symbol without a name in the string table.
    SymbolNameMissing = 9: "symbol name missing",
    /// 10: visibility 1 or 3.
    UnsupportedVisibility = 10: "internal or protected visibility",
    /// 11: a local symbol that is hidden.
    LocalHidden = 11: "hidden local symbol",
    /// 12: a binding above 2.
    UnsupportedBinding = 12: "unsupported symbol binding",
    /// 13: a local common symbol.
    Common = 13: "local common symbol",
    /// 14: a symbol in a section that stands for nothing.
    SectionWithoutId = 14: "symbol in a section without id",
    /// 15: a direct add of a symbol of type 4.
    FileSymbol = 15: "file symbol in an add",
    /// 16: a type above 4.
    UnsupportedType = 16: "unsupported symbol type",
    /// 17: a second strong definition of a name.
    DuplicateStrong = 17: "duplicate strong definition",
    /// 18: a section without a name in the string table.
    SectionNameMissing = 18: "section name missing",
    /// 19: a relocation by a symbol that has no id.
    RelocationSymbolWithoutId = 19: "relocation by a symbol without id",
    /// 20: an archive without an index: its index is an empty slice.
    NoIndex = 20: "archive without index",
    /// 21: an id that is absent or removed, or a section that was never built.
    AbsentId = 21: "absent or removed id, or section never built",
    /// 22: a changing call on a broken link.
    BrokenLink = 22: "changing call on a broken link",
    /// 23: a name that no global symbol has.
    UnknownGlobalName = 23: "unknown global name",
    /// 24: a second symbol table.
    SecondSymbolTable = 24: "second symbol table",
    /// 25: a library inside an archive that has no soname.
    ArchivedLibraryWithoutSoname = 25: "archived library without soname",
    /// 26: a file below 64 bytes, or no relocatable ELF file of the 64-bit class, little-endian.
    NotAnObject = 26: "no relocatable ELF file of 64 bits, little-endian",
    /// 27: section headers or a table past the file's end, a cut last entry or an empty group.
    BadTable = 27: "section headers or table past the file's end, cut entry or empty group",
    /// 28: a global or weak common symbol whose alignment is zero or no power of two.
    CommonAlignment = 28: "common symbol whose alignment is zero or no power of two",
    /// 29: a section of an object that two of its groups list.
    SectionInTwoGroups = 29: "section that two groups of one object list",
    /// 30: more built sections than the plain collector takes.
    TooManySections = 30: "more built sections than the plain collector takes",
    /// 31: a figure of a report, or a total, of 2^64 or more.
    SumTooLarge = 31: "sum of 2^64 or more",
}

impl Cause {
    /// The number in the table: 1 to 31.
    pub const fn number(self) -> u64 {
        self as u64
    }

    /// The cause of that number.
    pub fn of_number(number: u64) -> Option<Cause> {
        Cause::ALL.iter().copied().find(|cause| cause.number() == number)
    }

    /// Whether its place in a merge is the number of a section of the object.
    pub(crate) fn is_of_section(self) -> bool {
        use Cause::*;
        matches!(
            self,
            UnsupportedKind
                | NotComdat
                | EmptyGroup
                | SectionInTwoGroups
                | SignatureSymbolMissing
                | SignatureStringMissing
                | SectionNameMissing
                | RelocationSymbolWithoutId
                | SecondSymbolTable
        )
    }

    /// Whether its place in a merge or a load is the number of a symbol.
    pub(crate) fn is_of_symbol(self) -> bool {
        use Cause::*;
        matches!(
            self,
            LocalInRemovedSection
                | SymbolNameMissing
                | UnsupportedVisibility
                | LocalHidden
                | UnsupportedBinding
                | Common
                | CommonAlignment
                | SectionWithoutId
                | UnsupportedType
                | DuplicateStrong
        )
    }

    /// Whether the table has a place for it. `FileSymbol` is met by direct adds alone.
    fn has_place(self) -> bool {
        use Cause::*;
        !matches!(
            self,
            FileSymbol
                | BrokenLink
                | UnknownGlobalName
                | ArchivedLibraryWithoutSoname
                | NotAnObject
                | TooManySections
        )
    }
}

impl fmt::Display for Cause {
    fn fmt(&self, f: &mut fmt::Formatter<'_>) -> fmt::Result {
        f.write_str(self.words())
    }
}

/// Why a call was refused, and where.
///
/// What a refused call leaves behind is stated by the same table. A call by itself (an add, a
/// remove, a lookup, a group, a step of a walk, a collection) leaves all as it was. A list of adds
/// leaves what the adds before the refused one made, and the link isn't broken. Inside a merge or a load the elements before the refused one stay, and the link is broken: every later call
/// that would change it is refused with 22. Not so 1, 22, 25, 26 and 27, nor 2 for missing work cells
/// or too few cells for a file's rows: they change nothing. A repeated COMDAT group that lists a section
/// number of 65,280 or above gives 2 and breaks the link: it is the one 2 that more capacity
/// doesn't mend.
#[derive(Clone, Debug, PartialEq, Eq, Hash)]
pub struct Refusal {
    /// The table's cause.
    pub cause: Cause,
    /// Where, by the numbers of what was given to the call:
    ///
    /// | cause | place |
    /// |---|---|
    /// | 1 | the first bad row: the object's section; else its symbol by the order of `push_symbol`, whatever table it is in; of a library its symbol or dependency; of archives' indexes their entry, counted over all, or the archive whose end is bad, or 16 where there are more archives; of marks how many there are |
    /// | 2 | the element without room: in a merge the section or symbol, in a load the symbol or dependency; 0 for the input's row or name |
    /// | 3 to 7, 18, 19, 24, 29 | the section's number in the object; of 4 to 7 and 29 the group's, of 29 the later one's |
    /// | 8 to 14, 16, 17 | the symbol's number in its symbol table; of a library by the order of `push_symbol` |
    /// | 20 | the archive, by the order in which they were given |
    /// | 21 | an id: the name's for an add, also inside a merge or a load, and for a lookup by name; the symbol's for `get` and `remove`, the section's for a collection; for a walk the indexes' entry (`PendingArchive::entry`) |
    /// | 27 | the section's number in the file; 0 for the section headers |
    /// | 31 | how many titles the report had |
    ///
    /// 0 for the others, and for a direct add, also one of a list, but 21. For a group by itself symbols have their
    /// number in the table that was named.
    pub place: usize,
    /// What it is about by name, where there is one: the same place, looked up when the call was
    /// refused. Of 1 and 2 inside a merge or a load the place doesn't tell whether it is a section, a
    /// symbol or a dependency, so that it may be one of two.
    pub about: Option<Box<About>>,
}

impl Refusal {
    /// A refusal that names nothing.
    pub const fn new(cause: Cause, place: usize) -> Self {
        Refusal { cause, place, about: None }
    }

    /// The same about this. A broken link is refused as a whole, and an empty name tells nothing.
    pub(crate) fn about(self, about: Option<About>) -> Self {
        let about = match self.cause {
            Cause::BrokenLink => None,
            _ => about.filter(About::tells).map(Box::new),
        };
        Refusal { about, ..self }
    }

    /// The cause's number in the table: 1 to 31.
    pub const fn number(&self) -> u64 {
        self.cause.number()
    }
}

impl fmt::Display for Refusal {
    fn fmt(&self, f: &mut fmt::Formatter<'_>) -> fmt::Result {
        write!(f, "{}", self.cause)?;
        if self.cause.has_place() {
            write!(f, ", place {}", self.place)?;
        }
        if let Some(about) = &self.about {
            write!(f, ", {about}")?;
        }
        write!(f, " (refusal {})", self.number())
    }
}

impl std::error::Error for Refusal {}

/// What a refusal is about, by name. Names are bytes; `Display` escapes what isn't printable.
#[derive(Clone, Debug, PartialEq, Eq, Hash)]
pub enum About {
    /// A name that was to be issued, or whose holder was asked for.
    Name(Vec<u8>),
    /// A symbol that was to be added.
    Symbol {
        /// Its name.
        name: Vec<u8>,
        /// The symbol that holds the name, of a duplicate strong definition.
        holder: Option<Holder>,
    },
    /// A section of an object.
    Section(Vec<u8>),
    /// A section of an object that two of its groups list.
    InTwoGroups {
        /// Its number in the object.
        number: usize,
        /// Its name.
        section: Vec<u8>,
        /// The signatures of the group that lists it first, and of the one that was refused; nothing
        /// where a group has none.
        signatures: [Option<Vec<u8>>; 2],
    },
    /// A dependency of a library.
    Dependency(Vec<u8>),
    /// One of several archives that are walked as one, by the order in which they were given.
    Archive(usize),
    /// A member of an archive.
    Member {
        /// The archive, by the order in which they were given.
        archive: usize,
        /// Its offset in the archive.
        offset: u64,
        /// A name that the archive's index ties to it: that of the entry.
        name: Vec<u8>,
    },
    /// One of these: the place doesn't tell which.
    OneOf(Vec<About>),
}

impl About {
    /// A symbol of this name.
    pub(crate) fn symbol(name: &[u8]) -> Self {
        About::Symbol { name: name.to_vec(), holder: None }
    }

    /// An empty name tells nothing.
    fn tells(&self) -> bool {
        match self {
            About::Section(name) | About::Dependency(name) => !name.is_empty(),
            About::Symbol { name, holder } => !name.is_empty() || holder.is_some(),
            _ => true,
        }
    }

    /// One of those that are there, if any is.
    pub(crate) fn one_of(all: [Option<About>; 2]) -> Option<Self> {
        let mut all: Vec<_> = all.into_iter().flatten().filter(About::tells).collect();
        match all.len() {
            0 | 1 => all.pop(),
            _ => Some(About::OneOf(all)),
        }
    }
}

/// The row that holds a name which was defined a second time.
#[derive(Clone, Debug, PartialEq, Eq, Hash)]
pub struct Holder {
    /// Its id.
    pub id: SymbolId,
    /// Where it lies.
    pub value: SymbolValue,
    /// The name of its section, once that is built.
    pub section: Option<Vec<u8>>,
    /// The name of its source file.
    pub file: Option<Vec<u8>>,
}

/// A name as it is printed.
struct Quoted<'a>(&'a [u8]);

impl fmt::Display for Quoted<'_> {
    fn fmt(&self, f: &mut fmt::Formatter<'_>) -> fmt::Result {
        write!(f, "`{}`", self.0.escape_ascii())
    }
}

/// A group's signature as it is printed.
struct Signature<'a>(Option<&'a [u8]>);

impl fmt::Display for Signature<'_> {
    fn fmt(&self, f: &mut fmt::Formatter<'_>) -> fmt::Result {
        match self.0 {
            Some(name) => Quoted(name).fmt(f),
            None => f.write_str("(without signature)"),
        }
    }
}

impl fmt::Display for About {
    fn fmt(&self, f: &mut fmt::Formatter<'_>) -> fmt::Result {
        match self {
            About::Name(name) => write!(f, "name {}", Quoted(name)),
            About::Symbol { name, holder: None } => write!(f, "symbol {}", Quoted(name)),
            About::Symbol { name, holder: Some(holder) } => {
                write!(f, "symbol {}, held by {holder}", Quoted(name))
            }
            About::Section(name) => write!(f, "section {}", Quoted(name)),
            About::InTwoGroups { number, section, signatures } => {
                write!(f, "section {number} {}, in the groups ", Quoted(section))?;
                let [first, second] = signatures.each_ref().map(|name| Signature(name.as_deref()));
                write!(f, "{first} and {second}")
            }
            About::Dependency(name) => write!(f, "dependency {}", Quoted(name)),
            About::Archive(archive) => write!(f, "archive {archive}"),
            About::Member { archive, offset, name } => {
                write!(f, "member at {offset} of archive {archive}, for {}", Quoted(name))
            }
            About::OneOf(all) => all.iter().enumerate().try_for_each(|(at, about)| {
                let or = if at == 0 { "" } else { " or " };
                write!(f, "{or}{about}")
            }),
        }
    }
}

impl fmt::Display for Holder {
    fn fmt(&self, f: &mut fmt::Formatter<'_>) -> fmt::Result {
        write!(f, "symbol {}", self.id.number())?;
        match (&self.section, self.value) {
            (Some(section), _) => write!(f, " in section {}", Quoted(section))?,
            (None, SymbolValue::Absolute { value }) => write!(f, " at the absolute {value}")?,
            (None, value) => {
                if let Some(section) = value.section().map(SectionId::number) {
                    write!(f, " in section {section}")?;
                }
            }
        }
        match &self.file {
            Some(file) => write!(f, " of {}", Quoted(file)),
            None => Ok(()),
        }
    }
}
