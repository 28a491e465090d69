//! 01 "Collection".
use super::{Model, Refused, Section};
use crate::form;
use std::collections::BTreeSet;

impl Model {
    pub(super) fn collect(&mut self, entry: Option<u64>, marks: &[u8]) -> Result<String, Refused> {
        let mut reached = BTreeSet::new();
        let symbols = marks.iter().enumerate().filter(|(_, mark)| **mark != 0);
        for id in symbols.map(|(id, _)| id as u64).chain(entry) {
            reached.extend(self.section_of(id));
        }
        for (id, section) in self.sections.iter().enumerate() {
            if let Section::Built { name, retain, read, .. } = section
                && (*retain || !*read || name == ".eh_frame")
            {
                reached.insert(id as u64);
            }
        }
        // Again and again until nothing new is reached.
        loop {
            let mut more = reached.clone();
            for id in &reached {
                if let Some(Section::Built { relocations, .. }) = self.sections.get(*id as usize) {
                    more.extend(relocations.iter().filter_map(|symbol| self.section_of(*symbol)));
                }
            }
            if more.len() == reached.len() {
                break;
            }
            reached = more;
        }

        let built =
            |id: &u64| matches!(self.sections.get(*id as usize), Some(Section::Built { .. }));
        if let Some(lowest) = reached.iter().find(|id| !built(id)) {
            return Err(Refused(21, Some(*lowest)));
        }
        let mut dropped = Vec::new();
        for id in 0..self.sections.len() as u64 {
            let section = &mut self.sections[id as usize];
            let Section::Built { name, .. } = section else { continue };
            if reached.contains(&id) {
                continue;
            }
            let name = name.clone();
            dropped.push(form::name(&name));
            *section = Section::Dropped { name };
            for symbol in 0..self.table.rows.len() as u64 {
                if self.section_of(symbol) == Some(id) {
                    let _ = self.table.remove(symbol);
                }
            }
        }
        Ok(format!("dropped {}", form::counted(dropped)))
    }

    /// The section of a symbol that is there.
    fn section_of(&self, symbol: u64) -> Option<u64> {
        self.table.present(symbol)?.value.section()
    }
}
