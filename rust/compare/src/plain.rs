//! Two tables that judge nothing, beside which the benchmark puts the times: what a linker would
//! pay for names and symbols alone. Both know what is coming, so that they never grow.
use crate::rows::{ObjectRows, SymbolRow};
use std::collections::HashMap;

/// A symbol as such a table holds it.
#[derive(Clone, Copy)]
pub struct Row {
    pub name: u32,
    pub weak: bool,
    pub section: u32,
    pub value: u64,
}

/// Names with ids, and a symbol for each name: a definition takes the place of a reference, and
/// otherwise the first stays. No field is looked at before.
pub trait Table {
    /// For so many names and symbols.
    fn with_room(count: usize) -> Self;
    fn clear(&mut self);
    /// The id of a name, a new one if it has none.
    fn intern(&mut self, name: &[u8]) -> u32;
    /// Adds a symbol under its name; its id.
    fn add(&mut self, row: Row) -> u32;
    /// Adds a symbol under no name; its id.
    fn push(&mut self, row: Row) -> u32;
}

fn add_to(rows: &mut Vec<Row>, held: &mut u32, row: Row) -> u32 {
    if *held == 0 {
        rows.push(row);
        *held = rows.len() as u32;
    } else if rows[*held as usize - 1].section == 0 && row.section != 0 {
        rows[*held as usize - 1] = row;
    }
    *held - 1
}

// ---- open addressing

/// Names in one list of bytes, found by linear probing in slots of a hash's upper half and an id
/// and 1; at most half of the slots are taken.
pub struct Open {
    slots: Vec<u64>,
    bytes: Vec<u8>,
    names: Vec<(u32, u32)>,
    held: Vec<u32>,
    rows: Vec<Row>,
}

/// Eight bytes at a time, without a key: whoever knows it can choose names of one place.
fn hash(name: &[u8]) -> u64 {
    const BY: u64 = 0x9e37_79b9_7f4a_7c15;
    let (words, rest) = name.as_chunks::<8>();
    let mut last = [0; 8];
    last[..rest.len()].copy_from_slice(rest);
    let words = words.iter().chain([&last]).map(|word| u64::from_le_bytes(*word));
    let sum =
        words.fold(name.len() as u64, |sum, word| (sum.rotate_left(5) ^ word).wrapping_mul(BY));
    sum ^ sum >> 29
}

impl Table for Open {
    fn with_room(count: usize) -> Self {
        Open {
            slots: vec![0; (2 * count).next_power_of_two()],
            bytes: Vec::with_capacity(16 * count),
            names: Vec::with_capacity(count),
            held: Vec::with_capacity(count),
            rows: Vec::with_capacity(count),
        }
    }

    fn clear(&mut self) {
        self.slots.fill(0);
        self.bytes.clear();
        self.names.clear();
        self.held.clear();
        self.rows.clear();
    }

    fn intern(&mut self, name: &[u8]) -> u32 {
        let (hash, mask) = (hash(name), self.slots.len() - 1);
        let mut at = hash as usize & mask;
        loop {
            let slot = self.slots[at];
            if slot == 0 {
                break;
            }
            if slot >> 32 == hash >> 32 {
                let id = slot as u32 - 1;
                let (start, len) = self.names[id as usize];
                if &self.bytes[start as usize..][..len as usize] == name {
                    return id;
                }
            }
            at = (at + 1) & mask;
        }
        let id = self.names.len() as u32;
        self.slots[at] = hash >> 32 << 32 | u64::from(id + 1);
        self.names.push((self.bytes.len() as u32, name.len() as u32));
        self.bytes.extend_from_slice(name);
        self.held.push(0);
        id
    }

    fn add(&mut self, row: Row) -> u32 {
        add_to(&mut self.rows, &mut self.held[row.name as usize], row)
    }

    fn push(&mut self, row: Row) -> u32 {
        self.rows.push(row);
        self.rows.len() as u32 - 1
    }
}

// ---- the standard library's map

/// Owned names in a `HashMap` with its own hash, which has a key.
pub struct Map {
    names: HashMap<Box<[u8]>, u32>,
    held: HashMap<u32, u32>,
    rows: Vec<Row>,
}

impl Table for Map {
    fn with_room(count: usize) -> Self {
        Map {
            names: HashMap::with_capacity(count),
            held: HashMap::with_capacity(count),
            rows: Vec::with_capacity(count),
        }
    }

    fn clear(&mut self) {
        self.names.clear();
        self.held.clear();
        self.rows.clear();
    }

    fn intern(&mut self, name: &[u8]) -> u32 {
        if let Some(id) = self.names.get(name) {
            return *id;
        }
        let id = self.names.len() as u32;
        self.names.insert(name.into(), id);
        id
    }

    fn add(&mut self, row: Row) -> u32 {
        add_to(&mut self.rows, self.held.entry(row.name).or_default(), row)
    }

    fn push(&mut self, row: Row) -> u32 {
        self.rows.push(row);
        self.rows.len() as u32 - 1
    }
}

// ---- an object, a library

fn name_at(strings: &[u8], offset: u64) -> &[u8] {
    let rest = &strings[offset as usize..];
    &rest[..rest.iter().position(|byte| *byte == 0).expect("a name ends")]
}

/// Adds each symbol: under its name if it is global, else by itself. Their ids.
fn add_all(table: &mut impl Table, strings: &[u8], symbols: &[SymbolRow]) -> Vec<u32> {
    let add = |symbol: &SymbolRow| {
        let name = table.intern(name_at(strings, symbol.name));
        let weak = symbol.binding == 2;
        let row = Row { name, weak, section: symbol.section as u32, value: symbol.value };
        if symbol.binding == 0 { table.push(row) } else { table.add(row) }
    };
    symbols.iter().map(add).collect()
}

/// The names of an object's sections, its symbols, and the ids that its relocations name.
pub fn merge(table: &mut impl Table, object: &ObjectRows) -> (Vec<u32>, Vec<u32>) {
    let strings = &object.sections[object.names as usize].bytes;
    let loaded = object.sections.iter().filter(|section| section.kind == 1);
    let sections = loaded.map(|section| table.intern(name_at(strings, section.name))).collect();
    let ids = add_all(table, strings, &object.symbols);
    let relocations = object.sections.iter().filter(|section| section.kind == 6);
    let named =
        relocations.flat_map(|table| &table.items).map(|item| ids[*item as usize]).collect();
    (sections, named)
}

/// The symbols of a library, and the names that it doesn't define.
pub fn load(table: &mut impl Table, strings: &[u8], symbols: &[SymbolRow]) -> Vec<u32> {
    let ids = add_all(table, strings, symbols);
    let both = ids.into_iter().zip(symbols);
    both.filter(|(_, symbol)| symbol.section == 0).map(|(id, _)| id).collect()
}

#[cfg(test)]
mod tests {
    use super::*;

    fn alike<T: Table>() {
        let mut table = T::with_room(4);
        for _ in 0..2 {
            let ids =
                [&b"mute"[..], b"clear_the_buffer", b"mute", b""].map(|name| table.intern(name));
            assert_eq!(ids, [0, 1, 0, 2]);
            let row = |name, section| Row { name, weak: false, section, value: 0 };
            assert_eq!([row(0, 0), row(1, 1), row(0, 2)].map(|row| table.add(row)), [0, 1, 0]);
            assert_eq!(table.push(row(2, 1)), 2);
            table.clear();
        }
    }

    #[test]
    fn both_tables() {
        alike::<Open>();
        alike::<Map>();
    }
}
