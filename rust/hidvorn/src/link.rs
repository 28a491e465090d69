//! The link: its storage and its calls.
use crate::ffi::{self, Header, KEY, PROFILE, VALUE};
use crate::names::file_section_name;
use crate::object::loaded_symbols;
use crate::{
    About, Cause, GroupMarks, Holder, Interned, LibraryName, ListedSymbol, Load, Merged, Object,
    Refusal, Section, SectionConversion, SectionId, SharedObject, Symbol, SymbolId, UpcomingSymbol,
};
use std::error::Error;
use std::fmt;
use std::hash::{BuildHasher, RandomState};

/// How much a link can hold. A call that needs more is refused with 2. What is above a bound is cut
/// to it.
///
/// Memory is taken by the system page by page as it is first used, so that little of a large
/// capacity is in memory until it is filled. Making and clearing a link write the head of each hash
/// chain and the cell of each section's symbol: at all bounds that is about a millisecond, most of
/// it for pages that are new, and some 30 µs.
#[derive(Clone, Copy, Debug, PartialEq, Eq)]
pub struct Capacity {
    /// Names. Document 01 bounds their bytes alone, so that more than 1,048,577 are of no use and
    /// cut. As many hash chains are made; a number near that of the names that will come keeps
    /// them in the processor's caches.
    pub names: usize,
    /// Bytes of all names together, at most 1,048,576.
    pub name_bytes: usize,
    /// Symbols with the null symbol, at most 65,535.
    pub symbols: usize,
    /// Sections, at most 65,535. A section symbol's section must be below this too.
    pub sections: usize,
    /// Inputs, at most 4,095.
    pub inputs: usize,
}

impl Capacity {
    /// Document 01's bounds; and 140,009 names, which have none there: as many as symbols and
    /// sections can have, and some.
    pub const BOUNDS: Capacity = Capacity {
        names: 140_009,
        name_bytes: 1_048_576,
        symbols: 65_535,
        sections: 65_535,
        inputs: 4_095,
    };
}

impl Default for Capacity {
    fn default() -> Self {
        Capacity::BOUNDS
    }
}

/// Whose rules a link follows where cuddld and the gABI differ: chosen when it is made, and fixed
/// for its life.
#[derive(Clone, Copy, Debug, Default, PartialEq, Eq)]
pub enum Profile {
    /// The old profile, cuddld's answers: an undefined name pulls archive members though its
    /// reference is weak; a symbol of binding 1, defined or not, admits a member; a row is hidden
    /// if the symbol that holds it is; without a definition the first reference holds the name's row.
    #[default]
    Old,
    /// By the gABI's letter: a weak reference pulls no member; a global or weak definition, and
    /// nothing else, admits one; a hidden symbol of any object hides its name's row, whoever holds
    /// it. A shared object's symbol hides none. A strong reference takes the row of a weak one, if
    /// its type passes, so that the name pulls members and makes a library needed.
    Gabi,
}

impl Profile {
    /// Its number in the calls of libhidvorn.a.
    fn number(self) -> u64 {
        match self {
            Profile::Old => 0,
            Profile::Gabi => 1,
        }
    }
}

/// The symbol half of a link: names, symbols, sections, groups and inputs.
///
/// A clone copies all storage, used or not.
#[derive(Clone)]
pub struct Link {
    pub(crate) header: Header,
    pub(crate) bytes: Vec<u8>,
    pub(crate) names: Vec<u64>,
    pub(crate) symbols: Vec<u64>,
    pub(crate) sections: Vec<u64>,
    pub(crate) inputs: Vec<u64>,
    pub(crate) lists: Vec<u64>,
    /// For a merge: a row for each section of the object and each number that its groups list. For
    /// a collection: two cells for each section of the link. Grows with the largest.
    pub(crate) work: Vec<u64>,
    /// For a merge: what each symbol of the object became.
    pub(crate) ids: Vec<u64>,
    /// For the merge of a file: its rows.
    pub(crate) rows: Vec<u64>,
    /// For a load: a mark for each name.
    pub(crate) marks: Vec<u64>,
}

/// What a collection did.
#[derive(Clone, Debug, PartialEq, Eq)]
pub struct Collected {
    /// The sections that it dropped, by ascending id.
    pub sections: Vec<SectionId>,
    /// How many symbols it removed with them.
    pub symbols: usize,
}

/// A list of adds that was refused: the adds before the refused one stay.
#[derive(Clone, Debug, PartialEq, Eq)]
pub struct ListRefused {
    /// The refusal of that add; its place is an add's own.
    pub refusal: Refusal,
    /// The add's position in the list, from 0; 0 too for a list that makes no add.
    pub position: usize,
    /// The ids of the adds before it.
    pub ids: Vec<SymbolId>,
}

impl fmt::Display for ListRefused {
    fn fmt(&self, f: &mut fmt::Formatter<'_>) -> fmt::Result {
        write!(f, "add {}: {}", self.position, self.refusal)
    }
}

impl Error for ListRefused {}

/// A lookup of a name that was refused, which is an ordinary answer: nothing is allocated for it. It
/// borrows the link, and looks the name up there when it is printed or made into a [`Refusal`], as
/// `?` does.
#[derive(Clone, Copy)]
pub struct LookupRefused<'l> {
    /// 23, or 21.
    pub cause: Cause,
    /// Of 21 the name's id; else 0.
    pub place: usize,
    name: Interned,
    link: &'l Link,
}

impl LookupRefused<'_> {
    /// The cause's number.
    pub const fn number(&self) -> u64 {
        self.cause.number()
    }
}

/// Of two links too: the names aren't compared, but their ids.
impl PartialEq for LookupRefused<'_> {
    fn eq(&self, other: &Self) -> bool {
        (self.cause, self.place, self.name) == (other.cause, other.place, other.name)
    }
}

impl Eq for LookupRefused<'_> {}

impl From<LookupRefused<'_>> for Refusal {
    fn from(refused: LookupRefused<'_>) -> Self {
        let LookupRefused { cause, place, name, link } = refused;
        Refusal::new(cause, place).about(link.name(name))
    }
}

// It is no `Error` itself, since it borrows; so `?` needs these.
impl From<LookupRefused<'_>> for Box<dyn Error> {
    fn from(refused: LookupRefused<'_>) -> Self {
        Refusal::from(refused).into()
    }
}

impl From<LookupRefused<'_>> for Box<dyn Error + Send + Sync> {
    fn from(refused: LookupRefused<'_>) -> Self {
        Refusal::from(refused).into()
    }
}

impl fmt::Display for LookupRefused<'_> {
    fn fmt(&self, f: &mut fmt::Formatter<'_>) -> fmt::Result {
        Refusal::from(*self).fmt(f)
    }
}

impl fmt::Debug for LookupRefused<'_> {
    fn fmt(&self, f: &mut fmt::Formatter<'_>) -> fmt::Result {
        let LookupRefused { cause, place, name, .. } = self;
        let mut fields = f.debug_struct("LookupRefused");
        fields
            .field("cause", cause)
            .field("place", place)
            .field("name", name)
            .finish_non_exhaustive()
    }
}

impl Link {
    /// An empty link of `Capacity::BOUNDS`, in the old profile.
    pub fn new() -> Self {
        Link::with_capacity(Capacity::BOUNDS).expect("there is room for the null symbol")
    }

    /// An empty link: the null symbol and the empty name. 2 if there is no room for these. What is
    /// above a bound is cut to it.
    ///
    /// Names are found by a hash whose key is drawn at random, so that nobody can choose names that
    /// make a link slow. No answer depends on it.
    pub fn with_capacity(capacity: Capacity) -> Result<Self, Refusal> {
        Link::with_profile(Profile::Old, capacity)
    }

    /// The same in a profile.
    pub fn with_profile(profile: Profile, capacity: Capacity) -> Result<Self, Refusal> {
        Link::with_key(RandomState::new().hash_one(()), profile, capacity)
    }

    /// The same with a key that the caller chooses, for runs that are to take the same steps.
    pub fn with_key(key: u64, profile: Profile, capacity: Capacity) -> Result<Self, Refusal> {
        // Each has a byte of its own, but for the empty one.
        let names = capacity.names.min(Capacity::BOUNDS.name_bytes + 1);
        let mut link = Link {
            header: [0; 24],
            bytes: vec![0; capacity.name_bytes.min(Capacity::BOUNDS.name_bytes)],
            names: vec![0; names * 9],
            symbols: vec![0; capacity.symbols.min(Capacity::BOUNDS.symbols) * 8],
            sections: vec![0; capacity.sections.min(Capacity::BOUNDS.sections) * 9],
            inputs: vec![0; capacity.inputs.min(Capacity::BOUNDS.inputs) * 8],
            lists: Vec::new(),
            work: Vec::new(),
            ids: Vec::new(),
            rows: Vec::new(),
            marks: vec![0; names],
        };
        link.start(key, profile)?;
        Ok(link)
    }

    /// Makes this an empty link of the same profile again, in the same storage. It takes time by
    /// the capacity, not by what the link holds.
    pub fn clear(&mut self) {
        let (key, profile) = (self.header[KEY], self.profile());
        self.start(key, profile).expect("the same storage had room for a link before");
    }

    fn start(&mut self, key: u64, profile: Profile) -> Result<(), Refusal> {
        let Link { header, bytes, names, symbols, sections, .. } = self;
        ffi::new(header, key as usize, profile.number(), bytes, names, symbols, sections)
    }

    /// The profile that the link was made with.
    pub fn profile(&self) -> Profile {
        match self.header[PROFILE] {
            0 => Profile::Old,
            _ => Profile::Gabi,
        }
    }

    /// Whether a refusal inside a merge or a load broke the link (`Refusal` tells which do): no call
    /// but `clear` changes it any more (22).
    pub fn is_broken(&self) -> bool {
        self.header[8] != 0
    }

    /// How many names were issued.
    pub fn name_count(&self) -> usize {
        self.header[0] as usize
    }

    /// How many bytes the names have together.
    pub fn name_byte_count(&self) -> usize {
        self.header[1] as usize
    }

    /// How many symbols there are, the null symbol and removed ones too.
    pub fn symbol_count(&self) -> usize {
        self.header[2] as usize
    }

    /// How many sections there are, reserved and dropped ones too.
    pub fn section_count(&self) -> usize {
        self.header[3] as usize
    }

    /// How many inputs there are.
    pub fn input_count(&self) -> usize {
        self.header[4] as usize
    }

    // ---- names

    /// The id of a name: the same for equal bytes.
    pub fn intern(&mut self, name: &[u8]) -> Result<Interned, Refusal> {
        let Link { header, bytes, names, .. } = self;
        ffi::intern(header, bytes, names, name)
            .map_err(|refusal| refusal.about(Some(About::Name(name.to_vec()))))?;
        Ok(Interned::of_cell(header[VALUE]))
    }

    /// The id of a name if it was issued. Nothing changes, and a broken link answers too.
    pub fn find(&self, name: &[u8]) -> Option<Interned> {
        let mut header = self.header;
        // It refuses counts that the lent rows don't have, which a link never has.
        ffi::find(&mut header, &self.bytes, &self.names, name).ok()?;
        (header[VALUE] == 1).then(|| Interned::of_cell(header[VALUE + 1]))
    }

    /// A name's bytes; 23 for an id that was never issued.
    pub fn resolve(&self, name: Interned) -> Result<&[u8], Refusal> {
        let mut header = self.header;
        ffi::resolve(&mut header, &self.bytes, &self.names, name.0)?;
        let [start, len] = [VALUE, VALUE + 1].map(|cell| header[cell] as usize);
        Ok(&self.bytes[start..start + len])
    }

    // ---- symbols

    /// Adds a symbol, or lets it meet the one that holds its name, and answers the id under which
    /// it is known.
    pub fn add(&mut self, symbol: UpcomingSymbol<'_>) -> Result<SymbolId, Refusal> {
        let Link { header, names, symbols, sections, .. } = self;
        ffi::add(header, names, symbols, sections, symbol.conversion(), &symbol.cells())
            .map_err(|refusal| self.tell_add(refusal, symbol.name()))?;
        Ok(SymbolId::of_cell(self.header[VALUE]))
    }

    /// Adds the symbols one by one, in a single call, up to the first that is refused, and answers
    /// the id of each. On a broken link every list is refused with 22, the empty one too.
    pub fn add_all(
        &mut self,
        list: &[ListedSymbol],
        conversion: &SectionConversion,
    ) -> Result<Vec<SymbolId>, ListRefused> {
        let adds: Vec<u64> = list.iter().flat_map(ListedSymbol::cells).collect();
        let mut cells = vec![0; list.len()];
        let Link { header, names, symbols, sections, .. } = self;
        let conversion = conversion.cells();
        let answer = ffi::add_list(header, names, symbols, sections, conversion, &adds, &mut cells);
        let position = header[VALUE] as usize;
        let ids = cells[..position].iter().map(|cell| SymbolId::of_cell(*cell)).collect();
        match answer {
            Ok(()) => Ok(ids),
            Err(refusal) => {
                let name = list.get(position).map(|symbol| symbol.name);
                Err(ListRefused { refusal: self.tell_add(refusal, name), position, ids })
            }
        }
    }

    /// The symbol of that id; 21 if it is absent or removed.
    pub fn get(&self, id: SymbolId) -> Result<Symbol, Refusal> {
        let (mut header, mut out) = (self.header, [0; 10]);
        ffi::get(&mut header, &self.symbols, id.0, &mut out)?;
        Ok(found(&out))
    }

    /// The symbol that holds a name; 23 if there is none, 21 if it was removed.
    pub fn get_global(&self, name: Interned) -> Result<Symbol, LookupRefused<'_>> {
        let (mut header, mut out) = (self.header, [0; 10]);
        match ffi::get_global(&mut header, &self.names, &self.symbols, name.0, &mut out) {
            Ok(()) => Ok(found(&out)),
            Err(Refusal { cause, place, .. }) => {
                Err(LookupRefused { cause, place, name, link: self })
            }
        }
    }

    /// The symbol of a section, if it has one.
    pub fn section_symbol_id(&self, section: SectionId) -> Option<SymbolId> {
        let mut header = self.header;
        // It refuses nothing.
        ffi::section_symbol_id(&mut header, &self.sections, section.0).ok()?;
        (header[VALUE] == 1).then(|| SymbolId::of_cell(header[VALUE + 1]))
    }

    /// Removes a symbol: 21 for an absent id; a removed one is accepted. Its id is never used again.
    /// A global symbol's name is never given up: a later global symbol of that name is refused with
    /// 21.
    pub fn remove(&mut self, id: SymbolId) -> Result<(), Refusal> {
        let Link { header, symbols, sections, .. } = self;
        ffi::remove(header, symbols, sections, id.0)
    }

    // ---- inputs

    /// Merges an object, and answers which ids its sections and symbols have. A refusal breaks the
    /// link; what was merged before it stays. (1 and 22 change nothing.)
    pub fn merge_elf(&mut self, object: &Object<'_>) -> Result<Merged<'_>, Refusal> {
        let work = 8 * object.work_rows();
        self.make_room(object.contents.len());
        self.make_work(work);
        self.make_ids(object.symbol_count());
        ffi::merge_elf(
            &mut self.header,
            &mut self.bytes,
            &mut self.names,
            &mut self.symbols,
            &mut self.sections,
            &mut self.inputs,
            &mut self.lists,
            &mut self.work[..work],
            &mut self.ids[..object.symbol_count()],
            &object.headers,
            &object.entries,
            &object.contents,
            &object.file,
            object.names,
        )
        .map_err(|refusal| self.tell_object(refusal, object))?;
        Ok(Merged::new(self, object.section_count(), object.loaded_symbols()))
    }

    /// Merges an object file: an ELF file of the 64-bit class, little-endian, relocatable. It is
    /// answered as the merge of its rows ([`Object::read`], then [`Link::merge_elf`]), whatever was
    /// merged before, but that a broken link is refused before the file is looked at. 26 and 27
    /// change nothing, nor does 2 at place 0 for a file whose tables overlap and need too many rows;
    /// of other refusals see [`Link::merge_elf`].
    ///
    /// Nothing of the file is copied but names. Rows are kept for the next file: the storage grows
    /// with the largest.
    pub fn merge_file(&mut self, file: &[u8]) -> Result<Merged<'_>, Refusal> {
        // A file that is refused needs nothing: the merge refuses it alike, after 22.
        let due = ffi::count_file(file).unwrap_or_default();
        self.make_room(due.relocations);
        self.make_work(8 * due.work_rows);
        grow(&mut self.ids, due.symbols);
        grow(&mut self.rows, due.cells());
        ffi::merge_file(
            &mut self.header,
            &mut self.bytes,
            &mut self.names,
            &mut self.symbols,
            &mut self.sections,
            &mut self.inputs,
            &mut self.lists,
            &mut self.work[..8 * due.work_rows],
            &mut self.ids[..due.symbols],
            &mut self.rows[..due.cells()],
            file,
        )
        .map_err(|refusal| self.tell_file(refusal, file))?;
        Ok(Merged::new(self, due.sections, loaded_symbols(&self.rows[..8 * due.sections])))
    }

    /// Adds one section group of an object outside of a merge. `section` is the group; `marks` has
    /// the object and its symbol table. A section that a group lists which was added before gives 29,
    /// so that a group is added once. A signature in another table, or in a section that is no
    /// table, a dynamic one or excluded, gives 6; a section that is no group, or is excluded, 1. Of
    /// the object's symbols only the table's are judged, by their numbers there. A refusal breaks
    /// nothing.
    pub fn add_group(&mut self, marks: &mut GroupMarks<'_>, section: usize) -> Result<(), Refusal> {
        ffi::add_group(
            &mut self.header,
            &mut self.bytes,
            &mut self.names,
            &mut marks.work,
            &marks.headers,
            marks.entries,
            &marks.object.contents,
            &marks.object.file,
            marks.table,
            section,
        )
        .map_err(|refusal| self.tell_group(refusal, marks, section))?;
        marks.added.push(section);
        Ok(())
    }

    /// Loads a shared object, if it is needed or as-needed wasn't asked for. A refusal breaks the
    /// link, but for 1, 22 and 25.
    pub fn load_shared_object(&mut self, library: &SharedObject<'_>) -> Result<Load, Refusal> {
        self.make_room(library.entries.len() / 8 + library.needs.len());
        let (path, archived): (&[u8], bool) = match library.name {
            LibraryName::Known(name) => (name, false),
            LibraryName::InsideArchive => (&[], true),
        };
        ffi::load_shared_object(
            &mut self.header,
            &mut self.bytes,
            &mut self.names,
            &mut self.symbols,
            &mut self.sections,
            &mut self.inputs,
            &mut self.lists,
            &mut self.marks,
            &library.entries,
            &library.strings,
            &library.needs,
            path,
            archived,
            library.soname.is_some(),
            library.soname.unwrap_or(0),
            library.as_needed,
        )
        .map_err(|refusal| self.tell_library(refusal, library))?;
        Ok(if self.header[VALUE] == 1 { Load::Loaded } else { Load::NotNeeded })
    }

    // ---- collection

    /// Drops every section that no relocation reaches from the roots, and removes its symbols.
    /// Roots: symbols whose mark isn't 0 (a mark for each symbol, by id), the entry symbol,
    /// retained sections, `.eh_frame`, and sections that aren't readable. Symbols that are removed
    /// or absent lead nowhere, the entry symbol too. 21 at the lowest section that is reached but
    /// not built; fewer marks than symbols give 1 at their number, more are accepted.
    pub fn gc_sections(
        &mut self,
        marks: &[u8],
        entry: Option<SymbolId>,
    ) -> Result<Collected, Refusal> {
        self.collect(false, marks, entry)
    }

    /// The same by a second collector, whose one recursive function fits a page. It is
    /// proved to keep and drop what [`Link::gc_sections`] does and to be refused where that is,
    /// with the same number and place. More than 256 sections that are built and not dropped give
    /// 30, after 22 and 1, and leave everything.
    pub fn gc_sections_plain(
        &mut self,
        marks: &[u8],
        entry: Option<SymbolId>,
    ) -> Result<Collected, Refusal> {
        self.collect(true, marks, entry)
    }

    fn collect(
        &mut self,
        plain: bool,
        marks: &[u8],
        entry: Option<SymbolId>,
    ) -> Result<Collected, Refusal> {
        self.make_work(2 * self.section_count());
        ffi::collect(
            plain,
            &mut self.header,
            &self.bytes,
            &self.names,
            &mut self.symbols,
            &mut self.sections,
            &self.lists,
            marks,
            entry.is_some(),
            entry.map_or(0, SymbolId::number),
            &mut self.work,
        )?;
        Ok(self.collected())
    }

    /// The answer of a collection: a dropped section's work cell is 2.
    fn collected(&self) -> Collected {
        let reached = &self.work[..self.section_count()];
        let mut sections = Vec::with_capacity(self.header[VALUE] as usize);
        sections.extend((0..reached.len()).filter(|id| reached[*id] == 2).map(SectionId));
        Collected { sections, symbols: self.header[VALUE + 1] as usize }
    }

    /// Room for so many more ids in the lists.
    fn make_room(&mut self, more: usize) {
        let needed = self.header[5] as usize + more;
        if self.lists.len() < needed {
            self.make_lists(needed.max(2 * self.lists.len()));
        }
    }

    /// So many cells of lists at least.
    pub(crate) fn make_lists(&mut self, cells: usize) {
        grow(&mut self.lists, cells);
    }

    /// So many work cells at least.
    pub(crate) fn make_work(&mut self, cells: usize) {
        grow(&mut self.work, cells);
    }

    /// A cell for each of so many symbols at least.
    pub(crate) fn make_ids(&mut self, symbols: usize) {
        grow(&mut self.ids, symbols);
    }

    // ---- what a refusal is about

    /// The name of that id.
    fn name(&self, name: Interned) -> Option<About> {
        self.resolve(name).ok().map(|name| About::Name(name.to_vec()))
    }

    /// A refusal of a direct add: by the symbol's name, which 21 is about too.
    fn tell_add(&self, refusal: Refusal, name: Option<Interned>) -> Refusal {
        let name = name.and_then(|name| self.resolve(name).ok());
        let about = name.map(|name| self.symbol_about(refusal.cause, name));
        refusal.about(about)
    }

    /// A refusal inside a merge or a load that is about a symbol, of this name, or a name's id.
    fn tell_symbol(&self, refusal: Refusal, name: Option<&[u8]>) -> Refusal {
        let about = match refusal.cause {
            Cause::AbsentId => self.name(Interned(refusal.place)),
            cause if cause.is_of_symbol() => name.map(|name| self.symbol_about(cause, name)),
            _ => None,
        };
        refusal.about(about)
    }

    /// A refusal of the merge of an object: by its section or its symbol in the table; of 1 and 2
    /// either, of 1 a symbol by its number among all.
    pub(crate) fn tell_object(&self, refusal: Refusal, object: &Object<'_>) -> Refusal {
        let place = refusal.place;
        let in_table = object.symbol_name(object.loaded_table(), place);
        let symbol = match refusal.cause {
            Cause::OutOfRange => object.entry_name(place),
            _ => in_table,
        };
        match refusal.cause {
            Cause::OutOfRange | Cause::NoRoom => {
                let symbol = symbol.map(About::symbol);
                refusal.about(About::one_of([object.section_about(place), symbol]))
            }
            Cause::SectionInTwoGroups => {
                refusal.about(object.in_two_groups(object.loaded_table(), place, 0..place))
            }
            cause if cause.is_of_section() => refusal.about(object.section_about(place)),
            _ => self.tell_symbol(refusal, symbol),
        }
    }

    /// A refusal of a group by itself: by a section, of 29 with both groups. 1 may also be a symbol's, by its number in the
    /// table, unless the group's section is no group: that is refused with 1 for itself. 2 is the
    /// group's, or that of all marks.
    fn tell_group(&self, refusal: Refusal, marks: &GroupMarks<'_>, section: usize) -> Refusal {
        let (object, place) = (marks.object, refusal.place);
        if refusal.cause == Cause::SectionInTwoGroups {
            let before = marks.added.iter().copied();
            return refusal.about(object.in_two_groups(marks.table, section, before));
        }
        let of_symbol = refusal.cause == Cause::OutOfRange
            && (place != section || object.is_loaded_group(section));
        let symbol = object.symbol_name(marks.table, place).filter(|_| of_symbol);
        refusal.about(About::one_of([object.section_about(place), symbol.map(About::symbol)]))
    }

    /// A refusal of a load: by the symbol; of 1 and 2 by it or the dependency.
    fn tell_library(&self, refusal: Refusal, library: &SharedObject<'_>) -> Refusal {
        let (cause, place) = (refusal.cause, refusal.place);
        let symbol = library.symbol_name(place);
        match cause {
            Cause::OutOfRange | Cause::NoRoom => {
                let dependency = library.dependency(place);
                let dependency = dependency.map(|name| About::Dependency(name.to_vec()));
                refusal.about(About::one_of([symbol.map(About::symbol), dependency]))
            }
            _ => self.tell_symbol(refusal, symbol),
        }
    }

    /// The same of a file. Its rows are read again.
    pub(crate) fn tell_file(&self, refusal: Refusal, file: &[u8]) -> Refusal {
        match Object::read(file) {
            Ok(object) => self.tell_object(refusal, &object),
            Err(Refusal { cause: Cause::BadTable, .. }) => {
                let name = file_section_name(file, refusal.place);
                let about = name.map(|name| About::Section(name.to_vec()));
                refusal.about(about)
            }
            Err(_) => refusal,
        }
    }

    /// A symbol of this name, with the row that holds the name if it is defined twice.
    fn symbol_about(&self, cause: Cause, name: &[u8]) -> About {
        let holder = match cause {
            Cause::DuplicateStrong => self.find(name).and_then(|name| self.get_global(name).ok()),
            _ => None,
        };
        About::Symbol { name: name.to_vec(), holder: holder.map(|symbol| self.holder(symbol)) }
    }

    pub(crate) fn holder(&self, symbol: Symbol) -> Holder {
        let bytes = |name| self.resolve(name).ok().map(<[u8]>::to_vec);
        let section = match symbol.value.section().and_then(|id| self.section(id)) {
            Some(Section::Built { name, .. } | Section::Dropped { name, .. }) => bytes(name),
            _ => None,
        };
        let file = symbol.file.and_then(bytes);
        Holder { id: symbol.id, value: symbol.value, section, file }
    }
}

impl fmt::Debug for Link {
    /// The counts alone: storage is large.
    fn fmt(&self, f: &mut fmt::Formatter<'_>) -> fmt::Result {
        f.debug_struct("Link")
            .field("names", &self.name_count())
            .field("name_bytes", &self.name_byte_count())
            .field("symbols", &self.symbol_count())
            .field("sections", &self.section_count())
            .field("inputs", &self.input_count())
            .field("profile", &self.profile())
            .field("broken", &self.is_broken())
            .finish_non_exhaustive()
    }
}

impl Default for Link {
    fn default() -> Self {
        Link::new()
    }
}

/// So many cells at least.
fn grow(cells: &mut Vec<u64>, count: usize) {
    if cells.len() < count {
        cells.resize(count, 0);
    }
}

/// A symbol from the cells of an answer: its id, then its fields.
fn found(out: &[u64; 10]) -> Symbol {
    let [id, fields @ ..] = out;
    Symbol::of_fields(SymbolId::of_cell(*id), fields)
}
