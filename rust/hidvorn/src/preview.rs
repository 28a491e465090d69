//! What merging an object would do to a link, without doing it.
use crate::{
    Cause, Converted, Interned, Link, Merged, Object, Refusal, Section, SectionId, Symbol,
    SymbolValue, SymbolVisibility, ffi,
};
use std::fmt;

/// A link as it would stand after the merge of an object, beside the link as it stands
/// ([`Link::preview`], [`Link::preview_file`]).
///
/// Ids of names, symbols and sections that the link has mean the same in both; new ones are those
/// that the merge would give.
#[derive(Debug)]
pub struct Preview<'l> {
    before: &'l Link,
    after: Link,
    sections: usize,
    /// The section field of each of the table's symbols that is global or weak; none of others.
    globals: Vec<Option<u64>>,
}

/// What a merge would change for a name, or leave as it is against the object's own definition.
#[derive(Clone, Copy, Debug, PartialEq, Eq)]
#[non_exhaustive]
pub enum Change {
    /// No symbol holds the name now; this one would. It may be a reference: then the name would be
    /// undefined.
    Comes(Symbol),
    /// A reference holds the name now, and a definition of the object would.
    Defined {
        /// The reference.
        was: Symbol,
        /// The definition.
        now: Symbol,
    },
    /// A definition gives way to one of the object: a weak one to a strong one or a common, a
    /// common to a strong one.
    Replaced {
        /// Who holds the name now.
        was: Symbol,
        /// Who would.
        now: Symbol,
    },
    /// The holder stays, or a reference to a reference, and its row changes: a common that grows, a
    /// weak reference that gets strong, a row that gets hidden.
    Altered {
        /// The row now.
        was: Symbol,
        /// The row after.
        now: Symbol,
    },
    /// The object defines the name, and its definition isn't used: the holder stays as it is. A
    /// definition in a section that goes with a group that was met before is one of these.
    Shadowed {
        /// The symbol's number in the object's table.
        number: usize,
        /// Who holds the name, now and after.
        holder: Symbol,
    },
}

impl Change {
    /// The symbol that would hold the name.
    pub fn holder(&self) -> &Symbol {
        match self {
            Change::Comes(now)
            | Change::Defined { now, .. }
            | Change::Replaced { now, .. }
            | Change::Altered { now, .. } => now,
            Change::Shadowed { holder, .. } => holder,
        }
    }

    /// The name.
    pub fn name(&self) -> Interned {
        self.holder().name
    }
}

impl Link {
    /// What merging an object would do: the same merge, into a copy of the link. The link keeps
    /// every cell. The refusal is the one that the merge would answer; whether it would break the
    /// link, [`Link::merge_elf`] says.
    ///
    /// The copy has the link's room, and takes as long to make as it has cells: some milliseconds
    /// and 21 MB at all bounds, less with a smaller [`Capacity`](crate::Capacity).
    pub fn preview(&self, object: &Object<'_>) -> Result<Preview<'_>, Refusal> {
        let mut after = self.storage_like();
        self.preview_in(object, &mut after)?;
        let (sections, globals) = (object.section_count(), object.global_sections());
        Ok(Preview { before: self, after, sections, globals })
    }

    /// The same in the storage of another link, which becomes the link as the merge would leave it,
    /// broken where that would break it. It is left as it was by 22, 1, and 2 at 0 where it has less
    /// room of any sort than this link.
    pub fn preview_in(&self, object: &Object<'_>, place: &mut Link) -> Result<(), Refusal> {
        // The call copies as many lists as the merge is to have room for.
        let mut lists = self.lists.clone();
        let needed = self.header[5] as usize + object.contents.len();
        lists.resize(needed.max(lists.len()), 0);
        place.make_lists(lists.len());
        place.make_work(8 * object.work_rows());
        place.make_ids(object.symbol_count());
        let mut header = self.header;
        let answer = ffi::preview_elf(
            &mut header,
            &self.bytes,
            &self.names,
            &self.symbols,
            &self.sections,
            &self.inputs,
            &lists,
            &mut place.header,
            &mut place.bytes,
            &mut place.names,
            &mut place.symbols,
            &mut place.sections,
            &mut place.inputs,
            &mut place.lists,
            &mut place.work,
            &mut place.ids,
            &object.headers,
            &object.entries,
            &object.contents,
            &object.file,
            object.names,
        );
        answer.map_err(|refusal| match refusal.cause {
            Cause::BrokenLink => refusal,
            Cause::OutOfRange => self.tell_object(refusal, object),
            Cause::NoRoom if place.is_smaller(self) => refusal,
            _ => place.tell_object(refusal, object),
        })
    }

    /// What merging an object file would do ([`Link::merge_file`]).
    pub fn preview_file(&self, file: &[u8]) -> Result<Preview<'_>, Refusal> {
        if self.is_broken() {
            return Err(Refusal::new(Cause::BrokenLink, 0));
        }
        let object = Object::read(file).map_err(|refusal| self.tell_file(refusal, file))?;
        self.preview(&object)
    }

    /// Storage of the same room with nothing in it.
    fn storage_like(&self) -> Link {
        Link {
            header: [0; 24],
            bytes: vec![0; self.bytes.len()],
            names: vec![0; self.names.len()],
            symbols: vec![0; self.symbols.len()],
            sections: vec![0; self.sections.len()],
            inputs: vec![0; self.inputs.len()],
            lists: Vec::new(),
            work: Vec::new(),
            ids: Vec::new(),
            rows: Vec::new(),
            marks: vec![0; self.marks.len()],
        }
    }

    fn is_smaller(&self, other: &Link) -> bool {
        let lens =
            |link: &Link| [&link.names, &link.symbols, &link.sections, &link.inputs].map(Vec::len);
        let smaller = |(own, others)| own < others;
        self.bytes.len() < other.bytes.len() || lens(self).into_iter().zip(lens(other)).any(smaller)
    }

    /// What holds a name, in words: its rank, its section and file.
    fn describe(&self, symbol: &Symbol) -> String {
        let rank = match (symbol.value, is_weak(symbol)) {
            (SymbolValue::Undefined { .. }, false) => return "undefined".to_string(),
            (SymbolValue::Undefined { .. }, true) => return "undefined (weak)".to_string(),
            (SymbolValue::Common { alignment }, _) => {
                return format!("common, size {}, alignment {alignment}", symbol.size);
            }
            (_, true) => "weak",
            (_, false) => "strong",
        };
        format!("{rank}, {}", self.holder(*symbol))
    }
}

impl<'l> Preview<'l> {
    /// The link as it stands.
    pub fn before(&self) -> &'l Link {
        self.before
    }

    /// The link as it would stand: its table, sections, inputs and counts.
    pub fn after(&self) -> &Link {
        &self.after
    }

    /// The same, kept: a link of its own, with the room of the one that it was made of.
    pub fn into_link(self) -> Link {
        self.after
    }

    /// The ids that the object's sections and symbols would have.
    pub fn merged(&self) -> Merged<'_> {
        Merged::new(&self.after, self.sections, self.globals.len())
    }

    /// What would change for names: those whose rows change, by ascending symbol id, then the
    /// object's definitions that aren't used, by their number.
    pub fn changes(&self) -> impl Iterator<Item = Change> {
        let rows = self.after.symbols().flatten().filter(|symbol| is_global(symbol));
        rows.filter_map(|now| self.change_of(now)).chain(self.shadowed())
    }

    fn change_of(&self, now: Symbol) -> Option<Change> {
        if now.id.number() >= self.before.symbol_count() {
            return Some(Change::Comes(now));
        }
        let was = self.before.get(now.id).ok()?;
        Some(match (was.value.is_undefined(), now.value.is_undefined()) {
            _ if was == now => return None,
            (true, false) => Change::Defined { was, now },
            (false, false) if !is_same(&was, &now) && !is_grown(&was, &now) => {
                Change::Replaced { was, now }
            }
            _ => Change::Altered { was, now },
        })
    }

    /// The object's definitions whose name's row was there and is no definition of the object.
    fn shadowed(&self) -> impl Iterator<Item = Change> {
        let merged = self.merged();
        self.globals.iter().enumerate().filter_map(move |(number, section)| {
            let section = (*section).filter(|section| *section != 0)?;
            let holder = self.after.get(merged.symbol(number)?).ok()?;
            let was = self.before.get(holder.id).ok()?;
            let is_kept =
                is_same(&was, &holder) && was.size == holder.size && !was.value.is_undefined();
            let is_discarded = matches!(
                merged.section(section as usize),
                Converted::Section(id) if self.after.section(id) == Some(Section::Reserved)
            );
            (is_kept || is_discarded).then_some(Change::Shadowed { number, holder })
        })
    }

    /// The sections that would come, by ascending id.
    pub fn sections(&self) -> impl Iterator<Item = (SectionId, Section<'_>)> {
        let first = self.before.section_count();
        self.after
            .sections()
            .enumerate()
            .skip(first)
            .filter(|(_, section)| matches!(section, Section::Built { .. }))
            .map(|(id, section)| (SectionId(id), section))
    }
}

fn is_global(symbol: &Symbol) -> bool {
    matches!(symbol.visibility, SymbolVisibility::Global { .. })
}

fn is_weak(symbol: &Symbol) -> bool {
    matches!(symbol.visibility, SymbolVisibility::Global { weak: true, .. })
}

/// Whether the rows are of one add, but for what later adds of the name may change.
fn is_same(was: &Symbol, now: &Symbol) -> bool {
    was.value == now.value && was.file == now.file && is_weak(was) == is_weak(now)
}

/// Whether both are commons: the first's row, joined.
fn is_grown(was: &Symbol, now: &Symbol) -> bool {
    was.alignment() != 0 && now.alignment() != 0
}

impl fmt::Display for Preview<'_> {
    /// A line for each change and each section that would come.
    fn fmt(&self, f: &mut fmt::Formatter<'_>) -> fmt::Result {
        for change in self.changes() {
            let name = self.after.resolve(change.name()).unwrap_or(b"").escape_ascii();
            let before = |symbol: &Symbol| self.before.describe(symbol);
            let after = |symbol: &Symbol| self.after.describe(symbol);
            match change {
                Change::Comes(now) => writeln!(f, "{name}: comes, {}", after(&now))?,
                Change::Defined { was, now } => {
                    writeln!(f, "{name}: {}; would be {}", before(&was), after(&now))?
                }
                Change::Replaced { was, now } => {
                    writeln!(f, "{name}: held by {}; would be {}", before(&was), after(&now))?
                }
                Change::Altered { was, now } => {
                    writeln!(f, "{name}: {}; would be {}", before(&was), after(&now))?
                }
                Change::Shadowed { holder, .. } => {
                    writeln!(f, "{name}: stays {}; the object's isn't used", after(&holder))?
                }
            }
        }
        for (_, section) in self.sections() {
            if let Section::Built { name, .. } = section {
                let name = self.after.resolve(name).unwrap_or(b"").escape_ascii();
                writeln!(f, "section {name} comes")?;
            }
        }
        Ok(())
    }
}
