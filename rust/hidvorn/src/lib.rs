//! The symbol half of an ELF linker: symbol table, merging of objects, COMDAT groups, shared
//! objects with as-needed, archives, section collection. Every function behind it is written in
//! Rattle and proved; this crate lends it storage and gives its answers Rust's types.
//!
//! A [`Link`] stands where cuddld's `Symbols`, `Sections` and `SectionGroups` stood:
//!
//! | cuddld | here |
//! |---|---|
//! | `Symbols::{new, add, get, get_global, section_symbol_id, remove}` | [`Link::new`], [`Link::add`], [`Link::add_all`] for a list, .. |
//! | `intern`, `Interned::resolve` | [`Link::intern`], [`Link::resolve`]; [`Link::find`] issues no name and works on a broken link |
//! | `merge_elf` | [`Link::merge_elf`] of an [`Object`]; [`Merged`] has the ids of its sections and symbols |
//! | reading an object file | [`Link::merge_file`]; [`Object::read`] for its rows alone |
//! | nothing | [`Link::would_define`]: what a member that was not taken would have defined |
//! | nothing | [`Report`] of [`Figures`]: the figures of titles, and their totals |
//! | nothing | [`Link::preview`], [`Link::preview_file`]: what a merge would do, without doing it |
//! | `SectionGroupsForObject::add_group` | [`Link::add_group`] with the object's [`GroupMarks`] |
//! | `load_shared_object` | [`Link::load_shared_object`] of a [`SharedObject`] |
//! | `PendingArchive::{new, next}`, `ObjectRequirement::matches` | [`PendingArchive::new`], [`PendingArchive::next`], [`PendingArchive::admits`] |
//! | nothing | [`PendingArchive::shadowed`]: what a walk passed by, as the archive's strong definition behind a weak one |
//! | nothing | [`Link::would_define`]: what a member that was not taken would have defined |
//! | `gc_sections::run` | [`Link::gc_sections`] |
//! | `plain_collector::run` | [`Link::gc_sections_plain`] |
//! | panics and errors | [`Refusal`], a cause and a place, and what that is by name |
//!
//! Left out, and what to do instead:
//!
//! | cuddld | instead |
//! |---|---|
//! | `Symbols::get_mut`, `Symbol::set_value` | when sections move or get addresses, keep the new value in a table of your own by [`SymbolId`] |
//! | `Symbol::set_visibility` | for a symbol of the linker add [`UpcomingSymbol::GlobalHidden`]; for others keep it by [`SymbolId`] too |
//! | `Symbol::resolve` | the address of [`SymbolValue::section`] in your layout and the offset; `Undefined` is an error, or 0 with `default_zero` |
//! | `SymbolsView` and the views | filter and sort [`Link::symbols`]; a collection is lent a mark for each symbol instead |
//! | a section's bytes, permissions but read; types, offsets and addends of relocations; spans | keep them by [`SectionId`], which [`Merged::section`] tells; relocations keep their order |
//!
//! ```
//! use hidvorn::{Cause, Link, SymbolValue, UpcomingSymbol};
//!
//! let mut link = Link::new();
//! let mute = link.intern(b"mute")?;
//! let reference = link.add(UpcomingSymbol::GlobalUnknown { name: mute })?;
//! let value = SymbolValue::Absolute { value: 16 };
//! let definition = link.add(UpcomingSymbol::GlobalHidden { name: mute, value })?;
//! assert_eq!(reference, definition);
//! assert_eq!(link.get_global(mute)?.value, value);
//!
//! let again = link.add(UpcomingSymbol::GlobalHidden { name: mute, value }).unwrap_err();
//! assert_eq!((again.cause, again.number()), (Cause::DuplicateStrong, 17));
//! # Ok::<(), hidvorn::Refusal>(())
//! ```
#![deny(missing_docs)]
#![deny(unsafe_code)]

mod archive;
#[allow(unsafe_code)]
mod ffi;
mod group;
mod ids;
mod library;
mod link;
mod merged;
mod names;
mod object;
mod preview;
mod refusal;
mod report;
mod rows;
mod symbol;
mod untaken;

#[cfg(test)]
mod file_tests;
#[cfg(test)]
mod list_tests;

pub use archive::{IndexEntry, Member, PendingArchive, Shadowed, Step};
pub use group::GroupMarks;
pub use ids::{Interned, SectionId, SymbolId};
pub use library::{LibraryName, Load, SharedObject};
pub use link::{Capacity, Collected, Link, ListRefused, LookupRefused, Profile};
pub use merged::Merged;
pub use object::{Object, Relocations, SectionContent, SectionHeader};
pub use preview::{Change, Preview};
pub use refusal::{About, Cause, Holder, Refusal};
pub use report::{Figures, Report};
pub use rows::{Ids, Input, Names, Relocations as SectionRelocations, Section};
pub use symbol::{
    Converted, ElfSymbol, ListedSymbol, SectionConversion, Symbol, SymbolType, SymbolValue,
    SymbolVisibility, UpcomingSymbol,
};
pub use untaken::Untaken;
