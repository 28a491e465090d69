//! Where cuddld's own loop over the inputs would be (that file isn't here). The functions below
//! only open the way to the unchanged files; the loop of `walk` is the one that they are made for:
//! offer, `matches`, merge.
mod merge_elf;
mod read_objects;
mod section_groups;
mod shared_objects;
mod strings;
mod walk;

use crate::cli::CliInputOptions;
use crate::interner::{Interned, intern};
use crate::repr::object::Object;
use crate::repr::symbols::Symbols;
use cuddld_ar::Archive;
use cuddld_diagnostics::ObjectSpan;
use cuddld_elf::{ElfObject, ElfReader, Library, Stored};
use read_objects::access::{Step, Steps};
use read_objects::{LibraryName, ObjectRequirement};
use std::collections::BTreeSet;

pub(crate) use merge_elf::MergeElfError;
pub(crate) use read_objects::ReadObjectsError;
pub(crate) use section_groups::SectionGroupsError;
pub(crate) use shared_objects::SharedObjectError;
pub(crate) use walk::{Offer, walk};

pub(crate) struct Groups(section_groups::SectionGroups);

impl Groups {
    pub(crate) fn new() -> Self {
        Groups(section_groups::SectionGroups::new())
    }

    pub(crate) fn signatures(&self) -> &BTreeSet<Interned<String>> {
        self.0.signatures()
    }
}

/// The string tables are new for each object: by document 01 a name whose string section isn't
/// loaded is missing, whatever an earlier object loaded under that number.
pub(crate) fn merge(
    object: &mut Object,
    groups: &mut Groups,
    elf: ElfObject,
    source: ObjectSpan,
) -> Result<(), MergeElfError> {
    let mut strings = strings::Strings::new();
    merge_elf::merge_elf(object, &mut strings, groups.0.for_object(), elf, source)
}

pub(crate) fn load(
    object: &mut Object,
    library: Library,
    library_name: Option<String>,
    as_needed: bool,
) -> Result<(), SharedObjectError> {
    let name = match library_name {
        Some(name) => LibraryName::Known(name),
        None => LibraryName::InsideArchive,
    };
    shared_objects::load_shared_object(
        object,
        &mut ElfReader::of(Stored::Library(library.into())),
        &name,
        CliInputOptions { as_needed },
        ObjectSpan::new_synthetic(),
    )
}

/// What a member must bear to be admitted.
pub(crate) struct Required(Vec<ObjectRequirement>);

impl Required {
    pub(crate) fn of(names: &[String]) -> Self {
        let names = names.iter().map(intern).collect();
        Required(vec![ObjectRequirement::HasGlobalSymbol(names)])
    }

    pub(crate) fn names(&self) -> BTreeSet<Interned<String>> {
        let mut out = BTreeSet::new();
        for ObjectRequirement::HasGlobalSymbol(names) in &self.0 {
            out.extend(names);
        }
        out
    }

    pub(crate) fn admits(&self, elf: &ElfObject) -> bool {
        self.0.iter().all(|requirement| requirement.matches(elf))
    }
}

/// Whether `PendingArchive::new` finds nothing to offer, and so no walk is made.
pub(crate) fn new_is_empty(archive: &std::path::Path, symbols: &Symbols) -> bool {
    read_objects::access::new_is_empty(archive, symbols)
}

/// The time of `PendingArchive::new`, if it finds something to offer.
pub(crate) fn time_new(
    archive: &std::path::Path,
    symbols: &Symbols,
) -> Result<Option<std::time::Duration>, ReadObjectsError> {
    read_objects::access::time_new(archive, symbols)
}

pub(crate) struct ArchiveWalk(Steps);

impl ArchiveWalk {
    pub(crate) fn start(archive: Archive, symbols: &Symbols) -> Result<Self, ReadObjectsError> {
        Ok(ArchiveWalk(Steps::start(archive, symbols)?))
    }

    pub(crate) fn passes(&self) -> u64 {
        self.0.passes
    }

    /// Whether the Rust's own `next`, called after "done", offers a member.
    pub(crate) fn offers_though_done(&mut self, symbols: &Symbols) -> bool {
        matches!(self.0.next_though_done(symbols), Ok(Step::Member { .. }))
    }

    /// The member's offset and what it must bear; nothing when done.
    pub(crate) fn next(
        &mut self,
        symbols: &Symbols,
    ) -> Result<Option<(u64, Required)>, ReadObjectsError> {
        Ok(match self.0.next(symbols)? {
            Step::Done => None,
            Step::Member { offset, requirements } => Some((offset, Required(requirements))),
        })
    }
}
