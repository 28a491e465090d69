//! Stand-in for the reader of ELF files. What the driver describes is put on a shelf; a file holds
//! the magic number and the place on the shelf. Nothing is parsed.
use crate::numbers::{ElfSymbolBinding, ElfSymbolVisibility};
use crate::object::ElfObject;
use std::cell::RefCell;
use std::fmt;
use std::io::Read;
use std::marker::PhantomData;
use std::rc::Rc;

pub enum Stored {
    Object(ElfObject),
    Library(Rc<Library>),
}

/// The dynamic part of a shared object, names looked up already.
#[derive(Debug, Clone)]
pub struct Library {
    pub soname: Option<String>,
    /// None where some symbol has no name: the Rust reads them all or none.
    pub symbols: Option<Vec<ElfSymbolInDynamic>>,
    pub needed: Vec<String>,
}

#[derive(Debug, Clone)]
pub struct ElfSymbolInDynamic {
    pub name: DynamicName,
    pub binding: ElfSymbolBinding,
    pub visibility: ElfSymbolVisibility,
    pub defined: bool,
}

/// A name that notes its symbol's number when it is read, for the place of a refusal.
#[derive(Debug, Clone)]
pub struct DynamicName {
    pub text: String,
    pub number: u64,
}

impl From<&DynamicName> for String {
    fn from(name: &DynamicName) -> String {
        trace::symbol(name.number);
        name.text.clone()
    }
}

const MAGIC: &[u8] = b"\x7fELF\x02\x01\x01\x00";

thread_local! {
    static SHELF: RefCell<Vec<Rc<Stored>>> = const { RefCell::new(Vec::new()) };
}

/// Puts a description on the shelf and returns the bytes of a file that stands for it.
pub fn shelve(stored: Stored) -> Vec<u8> {
    SHELF.with_borrow_mut(|shelf| {
        shelf.push(Rc::new(stored));
        [MAGIC, (shelf.len() - 1).to_string().as_bytes()].concat()
    })
}

pub fn clear_shelf() {
    SHELF.with_borrow_mut(Vec::clear);
}

pub struct ElfReader<'a> {
    stored: Rc<Stored>,
    file: PhantomData<&'a ()>,
}

impl ElfReader<'static> {
    pub fn new_owned(mut file: Box<dyn Read>) -> Result<Self, LoadError> {
        let mut bytes = Vec::new();
        file.read_to_end(&mut bytes).map_err(|_| LoadError)?;
        let place = bytes.strip_prefix(MAGIC).ok_or(LoadError)?;
        let place = std::str::from_utf8(place).map_err(|_| LoadError)?;
        let place: usize = place.parse().map_err(|_| LoadError)?;
        let stored = SHELF.with_borrow(|shelf| shelf.get(place).cloned()).ok_or(LoadError)?;
        Ok(ElfReader { stored, file: PhantomData })
    }

    /// A reader without a file.
    pub fn of(stored: Stored) -> Self {
        ElfReader { stored: Rc::new(stored), file: PhantomData }
    }
}

impl ElfReader<'_> {
    pub fn object(&self) -> Option<ElfObject> {
        match &*self.stored {
            Stored::Object(object) => Some(object.clone()),
            Stored::Library(_) => None,
        }
    }

    pub fn dynamic(&mut self) -> Result<DynamicReader, ReadDynamicError> {
        match &*self.stored {
            Stored::Library(library) => Ok(DynamicReader { library: library.clone() }),
            Stored::Object(_) => Err(ReadDynamicError),
        }
    }
}

pub struct DynamicReader {
    library: Rc<Library>,
}

impl DynamicReader {
    pub fn soname(&mut self) -> Result<Option<String>, ReadDynamicError> {
        Ok(self.library.soname.clone())
    }

    pub fn symbols(&mut self) -> Result<&[ElfSymbolInDynamic], ReadDynamicError> {
        self.library.symbols.as_deref().ok_or(ReadDynamicError)
    }

    pub fn needed_libraries(&mut self) -> Result<&[String], ReadDynamicError> {
        Ok(&self.library.needed)
    }
}

macro_rules! error {
    ($name:ident, $text:literal) => {
        #[derive(Debug)]
        pub struct $name;

        impl fmt::Display for $name {
            fn fmt(&self, f: &mut fmt::Formatter<'_>) -> fmt::Result {
                f.write_str($text)
            }
        }

        impl std::error::Error for $name {}
    };
}

error!(LoadError, "not an object of the oracle");
error!(ReadDynamicError, "a name of the shared object is missing");
