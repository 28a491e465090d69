//! Reads the signatures met so far.
use super::*;

impl SectionGroups {
    pub(in crate::passes::load_inputs) fn signatures(&self) -> &BTreeSet<Interned<String>> {
        &self.loaded_groups
    }
}
