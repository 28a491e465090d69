//! Reads the rows of `Sections`.
use super::*;

impl SectionId {
    pub(crate) fn of(number: u64) -> Self {
        SectionId(number as usize)
    }

    pub(crate) fn number(self) -> u64 {
        self.0 as u64
    }
}

pub(crate) enum Row<'a> {
    Reserved,
    Dropped(Interned<String>),
    Built(&'a Section),
}

impl Sections {
    pub(crate) fn rows(&self) -> impl Iterator<Item = Row<'_>> {
        self.inner.iter().map(|slot| match slot {
            SectionSlot::Placeholder => Row::Reserved,
            SectionSlot::Removed(removed) => Row::Dropped(removed.name),
            SectionSlot::Present(section) => Row::Built(section),
        })
    }
}
