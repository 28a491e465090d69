//! Rows by ascending id. Taking them out one by one notes the number taken last.
use crate::ids::{ElfSectionId, ElfSymbolId};
use std::collections::{BTreeMap, btree_map};

pub trait Noted {
    fn note(&self);
}

impl Noted for ElfSectionId {
    fn note(&self) {
        trace::section(self.0);
    }
}

impl Noted for ElfSymbolId {
    fn note(&self) {
        trace::symbol(self.number);
    }
}

#[derive(Debug, Clone)]
pub struct Rows<K, V>(BTreeMap<K, V>);

impl<K: Ord + Noted, V> Rows<K, V> {
    pub fn get(&self, id: &K) -> Option<&V> {
        self.0.get(id)
    }

    pub fn values(&self) -> btree_map::Values<'_, K, V> {
        self.0.values()
    }

    pub fn iter_mut(&mut self) -> btree_map::IterMut<'_, K, V> {
        self.0.iter_mut()
    }
}

impl<K: Ord, V> FromIterator<(K, V)> for Rows<K, V> {
    fn from_iter<I: IntoIterator<Item = (K, V)>>(rows: I) -> Self {
        Rows(rows.into_iter().collect())
    }
}

impl<K: Noted, V> IntoIterator for Rows<K, V> {
    type Item = (K, V);
    type IntoIter = IntoIter<K, V>;

    fn into_iter(self) -> IntoIter<K, V> {
        IntoIter(self.0.into_iter())
    }
}

pub struct IntoIter<K, V>(btree_map::IntoIter<K, V>);

impl<K: Noted, V> Iterator for IntoIter<K, V> {
    type Item = (K, V);

    fn next(&mut self) -> Option<(K, V)> {
        let (id, row) = self.0.next()?;
        id.note();
        Some((id, row))
    }
}
