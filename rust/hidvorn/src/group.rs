//! Section groups that are added outside of a merge.
use crate::Object;
use std::fmt;

/// An object whose groups are added one by one, and what they say of its sections.
#[derive(Clone)]
pub struct GroupMarks<'o> {
    pub(crate) object: &'o Object<'o>,
    pub(crate) table: usize,
    /// The object's headers as a group is lent them; made once, since a call reads all.
    pub(crate) headers: Vec<u64>,
    /// The table's rows.
    pub(crate) entries: &'o [u64],
    /// A row for each section, and for each number that a group lists.
    pub(crate) work: Vec<u64>,
    /// The groups that were added.
    pub(crate) added: Vec<usize>,
}

impl<'o> GroupMarks<'o> {
    /// Before the object's first group. `table` is the section that is its symbol table.
    pub fn new(object: &'o Object<'o>, table: usize) -> Self {
        let (headers, entries) = object.for_group(table);
        let work = vec![0; object.work_rows() * 8];
        GroupMarks { object, table, headers, entries, work, added: Vec::new() }
    }

    /// Whether a group that was added lists the section and its signature was met before.
    pub fn is_removed(&self, section: usize) -> bool {
        self.mark(section) == 2
    }

    /// Whether the section is a group that was added, and isn't removed.
    pub fn is_group(&self, section: usize) -> bool {
        self.mark(section) == 1
    }

    /// Whether a group that was added lists the section, one of the object's: another group that
    /// does is refused with 29.
    pub fn is_listed(&self, section: usize) -> bool {
        let row = self.work.as_chunks::<8>().0.get(section);
        row.is_some_and(|row| row[3] == 1) && section < self.object.section_count()
    }

    /// 1 defines a group, 2 is removed.
    fn mark(&self, section: usize) -> u64 {
        self.work.as_chunks::<8>().0.get(section).map_or(0, |row| row[1])
    }
}

impl fmt::Debug for GroupMarks<'_> {
    fn fmt(&self, f: &mut fmt::Formatter<'_>) -> fmt::Result {
        let rows = self.work.len() / 8;
        let marked = |mark| (0..rows).filter(move |at| self.mark(*at) == mark);
        f.debug_struct("GroupMarks")
            .field("removed", &marked(2).collect::<Vec<_>>())
            .field("groups", &marked(1).collect::<Vec<_>>())
            .finish()
    }
}
