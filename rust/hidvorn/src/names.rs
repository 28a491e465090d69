//! Names in what a call was lent, looked up once it was refused; and how many work rows an object
//! needs that is given by rows. Nothing here decides an answer: a name that isn't found isn't told,
//! and with too few work rows a merge is refused.
use crate::{About, Object};

/// The most sections that an object can have.
const OBJECT_SECTIONS: usize = 65_280;

const SYMBOL_TABLE: u64 = 3;
const STRING_TABLE: u64 = 4;
const GROUP: u64 = 7;
const DYNAMIC_SYMBOLS: u64 = 10;

/// The zero-ended name at an offset of a string table; of one of length 0 the empty one, at 0.
pub(crate) fn name_at(table: &[u8], offset: u64) -> Option<&[u8]> {
    if table.is_empty() && offset == 0 {
        return Some(&[]);
    }
    let rest = table.get(usize::try_from(offset).ok()?..)?;
    rest.iter().position(|byte| *byte == 0).map(|end| &rest[..end])
}

/// As many of the list as there are from the first on.
fn part<T>(all: &[T], first: u64, count: u64) -> Option<&[T]> {
    all.get(usize::try_from(first).ok()?..)?.get(..usize::try_from(count).ok()?)
}

/// A work row for each section, and for each number that a group lists: such a section is marked,
/// there or not.
fn work_rows(sections: usize, listed: impl Iterator<Item = u64>) -> usize {
    let listed = listed.filter(|number| *number < OBJECT_SECTIONS as u64).max();
    sections.min(OBJECT_SECTIONS).max(listed.map_or(0, |number| number as usize + 1))
}

impl Object<'_> {
    fn header(&self, section: usize) -> Option<&[u64; 8]> {
        self.headers.as_chunks().0.get(section)
    }

    /// The name at an offset of a string section.
    fn string(&self, section: usize, offset: u64) -> Option<&[u8]> {
        let [STRING_TABLE, _, flags, _, _, first, count, _] = *self.header(section)? else {
            return None;
        };
        name_at(part(&self.file, first, count)?, offset).filter(|_| flags & 1 == 0)
    }

    /// The name of a section.
    pub(crate) fn section_name(&self, section: usize) -> Option<&[u8]> {
        self.string(self.names, self.header(section)?[1])
    }

    /// The section by name, if it has one.
    pub(crate) fn section_about(&self, section: usize) -> Option<About> {
        self.section_name(section).map(|name| About::Section(name.to_vec()))
    }

    /// Whether the section is a group that isn't excluded.
    pub(crate) fn is_loaded_group(&self, section: usize) -> bool {
        self.header(section).is_some_and(|row| row[0] == GROUP && row[2] & 1 == 0)
    }

    /// The name of a symbol by its number in the symbol table that is that section.
    pub(crate) fn symbol_name(&self, table: usize, symbol: usize) -> Option<&[u8]> {
        let [SYMBOL_TABLE | DYNAMIC_SYMBOLS, _, _, strings, _, first, count, _] =
            *self.header(table)?
        else {
            return None;
        };
        let row = part(self.entries.as_chunks::<8>().0, first, count)?.get(symbol)?;
        self.string(usize::try_from(strings).ok()?, row[0])
    }

    /// The name of a symbol by its number among all the object's.
    pub(crate) fn entry_name(&self, entry: usize) -> Option<&[u8]> {
        let headers = self.headers.as_chunks::<8>().0.iter().enumerate();
        headers.filter(|(_, row)| row[0] == SYMBOL_TABLE).find_map(|(table, row)| {
            let symbol = entry.checked_sub(usize::try_from(row[5]).ok()?)?;
            self.symbol_name(table, symbol)
        })
    }

    /// The section that is the table which a merge loads.
    pub(crate) fn loaded_table(&self) -> usize {
        let mut rows = self.headers.as_chunks::<8>().0.iter();
        rows.position(|row| row[0] == SYMBOL_TABLE && row[2] & 1 == 0).unwrap_or(usize::MAX)
    }

    /// The numbers that a group lists; none of a section that is no loaded group.
    fn listed(&self, group: usize) -> &[u64] {
        match self.header(group) {
            Some(&[GROUP, _, flags, _, _, first, count, _]) if flags & 1 == 0 => {
                part(&self.contents, first, count).unwrap_or_default()
            }
            _ => &[],
        }
    }

    /// The signature of a group, in the object's table.
    fn signature(&self, table: usize, group: usize) -> Option<Vec<u8>> {
        let [_, _, _, link, symbol, ..] = *self.header(group)?;
        let symbol = usize::try_from(symbol).ok().filter(|_| link == table as u64)?;
        self.symbol_name(table, symbol).map(<[u8]>::to_vec)
    }

    /// A section that a group lists and one before it did: which one, and both signatures.
    pub(crate) fn in_two_groups(
        &self,
        table: usize,
        group: usize,
        before: impl Iterator<Item = usize>,
    ) -> Option<About> {
        // The first that lists each section.
        let mut lists = vec![None; self.section_count()];
        for other in before {
            for number in self.listed(other) {
                if let Some(cell) = usize::try_from(*number).ok().and_then(|at| lists.get_mut(at)) {
                    cell.get_or_insert(other);
                }
            }
        }
        self.listed(group).iter().find_map(|number| {
            let number = usize::try_from(*number).ok()?;
            let first = (*lists.get(number)?)?;
            let section = self.section_name(number).unwrap_or_default().to_vec();
            let signatures = [first, group].map(|group| self.signature(table, group));
            Some(About::InTwoGroups { number, section, signatures })
        })
    }

    /// How many work rows a merge needs, or the groups by themselves.
    pub(crate) fn work_rows(&self) -> usize {
        let groups = self.headers.as_chunks::<8>().0.iter().filter(|row| row[0] == GROUP);
        let listed = groups.filter_map(|row| part(&self.contents, row[5], row[6])).flatten();
        work_rows(self.section_count(), listed.copied())
    }
}

// ---- a file that is refused with 27, of which there are no rows

fn number(bytes: &[u8], at: usize, len: usize) -> u64 {
    let cell = bytes.get(at..at + len).unwrap_or_default();
    cell.iter().rev().fold(0, |n, byte| n << 8 | u64::from(*byte))
}

/// The section headers of a file, as far as they lie in it: `e_shnum` of them from `e_shoff` on, or
/// `sh_size` of the first one where that is 0; none where `e_shoff` is 0.
fn headers(file: &[u8]) -> &[[u8; 64]] {
    let from = match number(file, 40, 8) {
        0 => None,
        offset => file.get(usize::try_from(offset).unwrap_or(usize::MAX)..),
    };
    let there = from.unwrap_or_default().as_chunks().0;
    let count = match (there, number(file, 60, 2)) {
        ([first, ..], 0) => number(first, 32, 8),
        (_, count) => count,
    };
    &there[..there.len().min(usize::try_from(count).unwrap_or(usize::MAX))]
}

/// The bytes of a section by its header.
fn contents<'f>(file: &'f [u8], header: &[u8; 64]) -> Option<&'f [u8]> {
    part(file, number(header, 24, 8), number(header, 32, 8))
}

/// The name of a section of a file that wasn't read. `e_shstrndx` 0xffff takes the names' section
/// from `sh_link` of the first header.
pub(crate) fn file_section_name(file: &[u8], section: usize) -> Option<&[u8]> {
    let headers = headers(file);
    let names = match number(file, 62, 2) {
        0xffff => number(headers.first()?, 40, 4),
        names => names,
    };
    let names = headers.get(usize::try_from(names).ok()?)?;
    name_at(contents(file, names)?, number(headers.get(section)?, 0, 4)).filter(|_| section != 0)
}

#[cfg(test)]
mod tests {
    use crate::{Capacity, Link, Object, SectionContent, SectionHeader};

    /// Only as many work cells as the object asks for.
    #[test]
    fn work_cells() {
        let mut link = Link::with_capacity(Capacity::BOUNDS).unwrap();
        assert_eq!(link.work.len(), 0);
        let mut object = Object::new(vec![0]);
        let mut push = |content| {
            object.push_section(SectionHeader { content, ..Default::default() });
        };
        push(SectionContent::Null);
        push(SectionContent::StringTable { first: 0, len: 1 });
        object.set_section_names(1);
        link.merge_elf(&object).unwrap();
        assert_eq!((object.work_rows(), link.work.len()), (2, 16));
        for (listed, rows) in [(0, 3), (9, 10), (65_279, 65_280), (65_280, 3)] {
            let mut object = object.clone();
            let sections = &[listed];
            let content = SectionContent::Group { table: 0, signature: 0, comdat: true, sections };
            object.push_section(SectionHeader { content, ..Default::default() });
            assert_eq!(object.work_rows(), rows);
        }
    }
}
