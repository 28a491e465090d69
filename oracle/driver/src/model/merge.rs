//! 01 "Groups" and "Objects".
use super::table::Item;
use super::{Input, Model, Refused, Section, name_at};
use crate::direct::Conversion;
use crate::rows::{ABSOLUTE, COMMON, ObjectRows, SectionRow, SymbolRow};
use std::collections::{BTreeMap, BTreeSet};

/// An object with its excluded sections gone.
struct Object<'a> {
    rows: &'a ObjectRows,
    /// Number and row of the one loaded symbol table, and its symbols.
    table: Option<(u64, &'a SectionRow)>,
    symbols: &'a [SymbolRow],
    reserved: BTreeMap<u64, u64>,
    removed: BTreeSet<u64>,
    groups: BTreeSet<u64>,
    /// A repeated group of several sections was met.
    several: bool,
}

impl<'a> Object<'a> {
    fn of(rows: &'a ObjectRows) -> Self {
        let mut object = Object {
            rows,
            table: None,
            symbols: &[],
            reserved: BTreeMap::new(),
            removed: BTreeSet::new(),
            groups: BTreeSet::new(),
            several: false,
        };
        let table = object.of_kind(&[3]).next();
        object.table = table;
        if let Some((_, table)) = object.table {
            object.symbols = rows.table(table).expect("its rows");
        }
        object
    }

    fn of_kind<'b>(
        &self,
        kinds: &'b [u64],
    ) -> impl Iterator<Item = (u64, &'a SectionRow)> + use<'a, 'b> {
        let sections = self.rows.sections.iter().enumerate();
        sections
            .filter(move |(_, row)| !row.exclude && kinds.contains(&row.kind))
            .map(|(number, row)| (number as u64, row))
    }

    fn loaded(&self, number: u64) -> Option<&'a SectionRow> {
        self.rows.sections.get(number as usize).filter(|row| !row.exclude)
    }

    fn string(&self, section: u64, offset: u64) -> Option<String> {
        let strings = self.loaded(section).filter(|row| row.kind == 4)?;
        name_at(&strings.bytes, offset)
    }

    fn symbol_name(&self, symbol: &SymbolRow) -> Option<String> {
        let (_, table) = self.table?;
        self.string(table.link, symbol.name)
    }

    /// A symbol by its number in a table: only the loaded one has any.
    fn symbol(&self, table: u64, number: u64) -> Option<&'a SymbolRow> {
        let (loaded, _) = self.table?;
        if table == loaded { self.symbols.get(number as usize) } else { None }
    }

    fn conversion(&self, section: u64) -> Conversion {
        match (self.loaded(section), self.reserved.get(&section)) {
            (None, _) => Conversion::Nothing,
            (Some(_), Some(id)) => Conversion::Id(*id),
            (Some(_), None) => Conversion::NotLoaded,
        }
    }

    /// The section field once groups are judged: a symbol of a removed section is undefined.
    fn section_of(&self, symbol: &SymbolRow) -> u64 {
        if self.is_removed(symbol) { 0 } else { symbol.section }
    }

    fn is_removed(&self, symbol: &SymbolRow) -> bool {
        let special = [0, ABSOLUTE, COMMON].contains(&symbol.section);
        !special && self.removed.contains(&symbol.section)
    }

    /// A local symbol of a removed section: 8 in the old profile, dropped in the gABI's.
    fn is_local_there(&self, symbol: &SymbolRow) -> bool {
        self.is_removed(symbol) && symbol.binding == 0
    }
}

fn at(number: u64, place: u64) -> Refused {
    Refused(number, Some(place))
}

impl Model {
    pub(super) fn merge(&mut self, rows: &ObjectRows) -> Result<(), Refused> {
        let mut object = Object::of(rows);
        self.reserve(&mut object)?;
        self.groups(&mut object)?;
        if !self.table.gabi {
            let local = object.symbols.iter().position(|symbol| object.is_local_there(symbol));
            if let Some(number) = local {
                self.table.see(|seen| seen.locals_8 += object.several as u64);
                return Err(at(8, number as u64));
            }
        }
        let ids = self.symbols(&object)?;
        self.build(&object, 2, &ids)?;
        self.build(&object, 1, &ids)?;
        self.inputs.push(Input::Object);
        Ok(())
    }

    fn reserve(&mut self, object: &mut Object) -> Result<(), Refused> {
        for (number, row) in object.rows.sections.iter().enumerate() {
            let number = number as u64;
            match row.kind {
                _ if row.exclude => {}
                1 | 2 => {
                    object.reserved.insert(number, self.sections.len() as u64);
                    self.sections.push(Section::Reserved);
                }
                10..=13 => return Err(at(3, number)),
                _ => {}
            }
        }
        Ok(())
    }

    fn groups(&mut self, object: &mut Object) -> Result<(), Refused> {
        let groups: Vec<_> = object.of_kind(&[7]).collect();
        // The object's own sections that a group lists, however often it does.
        let mut listed = BTreeSet::new();
        for (number, group) in groups {
            if !group.comdat {
                return Err(at(4, number));
            }
            if group.items.is_empty() {
                return Err(at(5, number));
            }
            let sections = 0..object.rows.sections.len() as u64;
            let own: BTreeSet<u64> =
                group.items.iter().copied().filter(|item| sections.contains(item)).collect();
            if !own.is_disjoint(&listed) {
                self.table.see(|seen| seen.groups_29 += 1);
                return Err(at(29, number));
            }
            let symbol = object.symbol(group.link, group.info).ok_or(at(6, number))?;
            let signature = object.symbol_name(symbol).ok_or(at(7, number))?;
            object.groups.insert(number);
            listed.extend(own);
            let repeated = !self.groups.insert(signature);
            let several = group.items.len() > 1;
            self.table.see(|seen| {
                seen.groups_several += several as u64;
                seen.groups_several_repeated += (several && repeated) as u64;
            });
            if repeated {
                object.removed.extend(&group.items);
                object.several |= several;
            }
        }
        Ok(())
    }

    /// The id of each symbol that gets one.
    fn symbols(&mut self, object: &Object) -> Result<BTreeMap<u64, u64>, Refused> {
        let mut ids = BTreeMap::new();
        let mut file = None;
        for (number, symbol) in object.symbols.iter().enumerate() {
            let number = number as u64;
            if self.table.gabi && object.is_local_there(symbol) {
                // No name is read, no file name taken, no id given.
                let unnamed = object.symbol_name(symbol).is_none();
                self.table.see(|seen| {
                    seen.dropped += 1;
                    seen.dropped_files += (symbol.kind == 4) as u64;
                    seen.dropped_first += (number == 0) as u64;
                    seen.dropped_unnamed += unnamed as u64;
                });
                continue;
            }
            let name = object.symbol_name(symbol).ok_or(at(9, number))?;
            let section = object.section_of(symbol);
            if number == 0 && name.is_empty() && section == 0 && symbol.kind == 0 {
                ids.insert(0, 0);
            } else if symbol.kind == 4 {
                file = Some(name);
            } else if object.groups.contains(&section) {
                // Symbols of group-defining sections get no id.
            } else {
                let row = SymbolRow { section, ..symbol.clone() };
                let item =
                    Item::of_row(&row, name, file.clone(), |section| object.conversion(section));
                let before = self.table.seen.get();
                let added = self.table.add(item);
                self.table.see(|seen| seen.of_object(&before, object.is_removed(symbol)));
                let id = added.map_err(|refused| match refused {
                    21 => Refused(21, None),
                    other => at(other, number),
                })?;
                ids.insert(number, id);
            }
        }
        Ok(ids)
    }

    fn build(
        &mut self,
        object: &Object,
        kind: u64,
        ids: &BTreeMap<u64, u64>,
    ) -> Result<(), Refused> {
        for (number, row) in object.of_kind(&[kind]) {
            if object.removed.contains(&number) {
                continue;
            }
            let name = object.string(object.rows.names, row.name).ok_or(at(18, number))?;
            let mut relocations = Vec::new();
            let tables = object.of_kind(&[5, 6]).filter(|(_, table)| table.info == number);
            if let (1, Some((_, table))) = (kind, tables.last()) {
                for symbol in &table.items {
                    let row = object.symbol(table.link, *symbol);
                    let there = row.and_then(|_| ids.get(symbol));
                    let dropped =
                        self.table.gabi && row.is_some_and(|row| object.is_local_there(row));
                    self.table.see(|seen| seen.dropped_related += dropped as u64);
                    relocations.push(*there.ok_or(at(19, number))?);
                }
            }
            self.sections[object.reserved[&number] as usize] =
                Section::Built { name, kind, retain: row.retain, read: row.read, relocations };
        }
        Ok(())
    }
}
