//! Stand-in for the reader of archives. An archive is described by the driver and put on a shelf;
//! the file holds the magic number and the place on the shelf. Nothing is parsed.
use std::cell::RefCell;
use std::collections::BTreeMap;
use std::fmt;
use std::io::Read;
use std::marker::PhantomData;
use std::rc::Rc;

/// Members are equal iff their offsets in the archive are.
#[derive(Debug, Clone, Copy, PartialEq, Eq, PartialOrd, Ord, Hash)]
pub struct ArMemberId(pub u32);

pub struct ArFile {
    /// The member's offset in decimal: the oracle knows members by it.
    pub name: String,
    pub content: Vec<u8>,
}

/// Index entries in order. Going through them notes the position, for the place of a refusal.
#[derive(Debug, Clone, Default)]
pub struct Entries(pub Vec<(String, ArMemberId)>);

impl<'a> IntoIterator for &'a Entries {
    type Item = &'a (String, ArMemberId);
    type IntoIter = Box<dyn Iterator<Item = Self::Item> + 'a>;

    fn into_iter(self) -> Self::IntoIter {
        Box::new(self.0.iter().enumerate().map(|(position, entry)| {
            trace::entry(position as u64);
            entry
        }))
    }
}

#[derive(Debug, Clone, Default)]
pub struct ArSymbolTable {
    pub symbols: Entries,
}

/// An archive as the driver describes it. A member without contents is an empty file.
#[derive(Debug, Clone, Default)]
pub struct Archive {
    pub index: Option<ArSymbolTable>,
    pub members: BTreeMap<u32, Vec<u8>>,
}

const MAGIC: &[u8] = b"!<arch>\n";

thread_local! {
    static SHELF: RefCell<Vec<Rc<Archive>>> = const { RefCell::new(Vec::new()) };
}

/// Puts the archive on the shelf and returns the bytes of a file that stands for it.
pub fn shelve(archive: Archive) -> Vec<u8> {
    SHELF.with_borrow_mut(|shelf| {
        shelf.push(Rc::new(archive));
        [MAGIC, (shelf.len() - 1).to_string().as_bytes()].concat()
    })
}

pub fn clear_shelf() {
    SHELF.with_borrow_mut(Vec::clear);
}

pub struct ArReader<R> {
    archive: Rc<Archive>,
    reader: PhantomData<R>,
}

impl<R: Read> ArReader<R> {
    pub fn new(mut reader: R) -> Result<Self, ArReadError> {
        let mut bytes = Vec::new();
        reader.read_to_end(&mut bytes).map_err(|_| ArReadError)?;
        let place = bytes.strip_prefix(MAGIC).ok_or(ArReadError)?;
        let place = std::str::from_utf8(place).map_err(|_| ArReadError)?;
        let place: usize = place.parse().map_err(|_| ArReadError)?;
        let archive = SHELF.with_borrow(|shelf| shelf.get(place).cloned()).ok_or(ArReadError)?;
        Ok(ArReader { archive, reader: PhantomData })
    }

    /// A reader without a file.
    pub fn of(archive: Archive) -> Self {
        ArReader { archive: Rc::new(archive), reader: PhantomData }
    }

    pub fn symbol_table(&self) -> Option<&ArSymbolTable> {
        self.archive.index.as_ref()
    }

    pub fn read_member_by_id(&mut self, id: &ArMemberId) -> Result<ArFile, ArReadError> {
        let content = self.archive.members.get(&id.0).cloned().unwrap_or_default();
        Ok(ArFile { name: id.0.to_string(), content })
    }
}

#[derive(Debug)]
pub struct ArReadError;

impl fmt::Display for ArReadError {
    fn fmt(&self, f: &mut fmt::Formatter<'_>) -> fmt::Result {
        f.write_str("not an archive of the oracle")
    }
}

impl std::error::Error for ArReadError {}
