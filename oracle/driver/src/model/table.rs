//! 01 "Symbols".
use super::{Refused, Seen};
use crate::direct::{Conversion, Direct};
use crate::form;
use crate::repr::symbols::SymbolValue;
use crate::rows::{ABSOLUTE, COMMON, SymbolRow};
use cuddld_utils::ints::ExtractNumber;
use std::cell::Cell;
use std::collections::BTreeMap;

#[derive(Default)]
pub(super) struct Table {
    /// The gABI profile (02, 2026-02).
    pub(super) gabi: bool,
    /// Where it answered otherwise than the old profile.
    pub(super) seen: Cell<Seen>,
    pub(super) rows: Vec<Row>,
    pub(super) section_symbols: BTreeMap<u64, u64>,
    pub(super) names: BTreeMap<String, u64>,
}

#[derive(Clone)]
pub(super) struct Row {
    pub(super) removed: bool,
    pub(super) name: String,
    /// Of a global or weak one: weak, hidden.
    pub(super) global: Option<(bool, bool)>,
    kind: u64,
    file: Option<String>,
    pub(super) value: Value,
    /// 2026-06: "Every symbol row gains a size, and an alignment": a common's value, else 0.
    size: u64,
    /// A strong reference took it from a weak one (2026-07). For `Seen` alone.
    pub(super) strengthened: bool,
}

#[derive(Clone, PartialEq)]
pub(super) enum Value {
    Null,
    Absolute(u64),
    Section(u64),
    Relative(u64, i128),
    Address(u64, u64),
    NotLoaded,
    External,
    Undefined(bool),
    /// Its alignment.
    Common(u64),
}

impl Value {
    /// The section that a symbol of this value lies in.
    pub(super) fn section(&self) -> Option<u64> {
        match self {
            Value::Section(section) | Value::Relative(section, _) | Value::Address(section, _) => {
                Some(*section)
            }
            _ => None,
        }
    }

    pub(super) fn is_undefined(&self) -> bool {
        matches!(self, Value::Undefined(_))
    }
}

impl Row {
    pub(super) fn is_weak(&self) -> bool {
        self.global.is_some_and(|(weak, _)| weak)
    }
}

/// What is to be added, judged in part.
pub(super) struct Item {
    pub(super) class: Result<Option<(bool, bool)>, u64>,
    /// From a shared object; every other add counts as from an object.
    pub(super) library: bool,
    pub(super) name: String,
    /// The type by gABI's number.
    pub(super) kind: u64,
    pub(super) file: Option<String>,
    pub(super) value: Result<Value, u64>,
    pub(super) size: u64,
}

/// 2026-06: "28, alignment zero or no power of two".
fn common(alignment: u64) -> Result<Value, u64> {
    let powers = (0..64).map(|power| 1u64 << power);
    if powers.into_iter().any(|power| power == alignment) {
        Ok(Value::Common(alignment))
    } else {
        Err(28)
    }
}

/// Binding and visibility: local, or weak and hidden; else the refusal.
pub(super) fn class(binding: u64, visibility: u64) -> Result<Option<(bool, bool)>, u64> {
    match (binding, visibility) {
        (_, 1 | 3) => Err(10),
        (0, 2) => Err(11),
        (0, _) => Ok(None),
        (1 | 2, _) => Ok(Some((binding == 2, visibility == 2))),
        _ => Err(12),
    }
}

impl Item {
    pub(super) fn of_row(
        row: &SymbolRow,
        name: String,
        file: Option<String>,
        conversion: impl Fn(u64) -> Conversion,
    ) -> Item {
        let value = match row.section {
            0 => Ok(Value::Undefined(row.binding == 2)),
            ABSOLUTE => Ok(Value::Absolute(row.value)),
            // "in place of 13 for a global or weak common"
            COMMON if row.binding == 0 => Err(13),
            COMMON => common(row.value),
            section => match conversion(section) {
                Conversion::Nothing => Err(14),
                Conversion::NotLoaded => Ok(Value::NotLoaded),
                Conversion::Id(id) if name.is_empty() && row.value == 0 => Ok(Value::Section(id)),
                Conversion::Id(id) => {
                    let value = row.value as i128;
                    let half = 1i128 << 63;
                    Ok(Value::Relative(id, if value < half { value } else { value - 2 * half }))
                }
            },
        };
        let class = class(row.binding, row.visibility);
        Item { class, library: false, name, kind: row.kind, file, value, size: row.size }
    }

    pub(super) fn of_direct(direct: &Direct, conversion: &[Conversion]) -> Item {
        let plain = |class, name: &str, kind, value| Item {
            class: Ok(class),
            library: false,
            name: name.into(),
            kind,
            file: None,
            value: Ok(value),
            size: 0,
        };
        match direct {
            Direct::Null => plain(None, "", 0, Value::Null),
            Direct::Section(section) => plain(None, "", 3, Value::Section(*section)),
            Direct::Unknown(name) => plain(Some((false, false)), name, 0, Value::Undefined(false)),
            Direct::Hidden(name, value) => {
                let value = match *value {
                    SymbolValue::Null => Value::Null,
                    SymbolValue::Absolute { value } => Value::Absolute(value.extract()),
                    SymbolValue::Section { section } => Value::Section(section.number()),
                    SymbolValue::SectionRelative { section, offset } => {
                        Value::Relative(section.number(), offset.extract().into())
                    }
                    SymbolValue::SectionVirtualAddress { section, memory_address } => {
                        Value::Address(section.number(), memory_address.extract())
                    }
                    SymbolValue::SectionNotLoaded => Value::NotLoaded,
                    SymbolValue::ExternallyDefined => Value::External,
                    SymbolValue::Undefined { default_zero } => Value::Undefined(default_zero),
                };
                plain(Some((false, true)), name, 0, value)
            }
            Direct::HiddenCommon(name, alignment) => Item {
                value: common(*alignment),
                ..plain(Some((false, true)), name, 0, Value::Null)
            },
            Direct::External { name, binding, visibility } => Item {
                class: class(*binding, *visibility),
                library: true,
                ..plain(None, name, 0, Value::External)
            },
            Direct::Elf { name, row, file } => {
                Item::of_row(row, name.clone(), file.clone(), |section| {
                    conversion.get(section as usize).copied().unwrap_or(Conversion::Nothing)
                })
            }
        }
    }
}

impl Table {
    pub(super) fn new(gabi: bool) -> Self {
        let mut table = Table { gabi, ..Table::default() };
        table.rows.push(Row {
            removed: false,
            name: String::new(),
            global: None,
            kind: 0,
            file: None,
            value: Value::Null,
            size: 0,
            strengthened: false,
        });
        table
    }

    pub(super) fn add(&mut self, item: Item) -> Result<u64, u64> {
        let mut global = item.class?;
        let judged_hidden = is_hidden(global);
        if let (true, true, Some((_, hidden))) = (self.gabi, item.library, &mut global) {
            // "Adds from shared objects hide no row, not even one they hold."
            *hidden = false;
        }
        let known = global.and_then(|_| self.names.get(&item.name).copied());
        if known.is_some_and(|id| self.rows[id as usize].removed) {
            return Err(21);
        }
        self.see(|seen| seen.commons_28 += (item.value == Err(28)) as u64);
        let value = item.value?;
        let judge = |kind: u64| -> Result<u64, u64> {
            match kind {
                0..=3 => Ok(kind),
                4 => Err(15),
                _ => Err(16),
            }
        };
        let row = |kind| Row {
            removed: false,
            name: item.name.clone(),
            global,
            kind,
            file: item.file.clone(),
            value: value.clone(),
            size: item.size,
            strengthened: false,
        };

        let Some(id) = known else {
            let id = self.rows.len() as u64;
            self.rows.push(row(judge(item.kind)?));
            match (global, &value) {
                (Some(_), _) => drop(self.names.insert(item.name, id)),
                (None, Value::Section(section)) => drop(self.section_symbols.insert(*section, id)),
                _ => {}
            }
            self.see(|seen| seen.library_unhid += (judged_hidden && !is_hidden(global)) as u64);
            return Ok(id);
        };

        // Who yields to whom: undefined 0, weak definition 2, strong definition 4. 2026-07: "In the
        // gABI profile a strong reference now turns a weak undefined row into a strong undefined one".
        // 2026-06: "A common counts as a third rank: above undefined, below any global definition that
        // is no common, .. a weak definition doesn't displace it, and it displaces a weak one."
        let gabi = self.gabi;
        let rank = |value: &Value, weak: bool| match (value, weak) {
            (Value::Common(_), _) => 3,
            (Value::Undefined(_), false) if gabi => 1,
            (Value::Undefined(_), _) => 0,
            (_, true) => 2,
            (_, false) => 4,
        };
        let weak = |global: Option<(bool, bool)>| global.is_some_and(|(weak, _)| weak);
        let old = &self.rows[id as usize];
        let was_hidden = is_hidden(old.global);
        let (new, old) = (rank(&value, weak(global)), rank(&old.value, weak(old.global)));
        let judged = match () {
            () if new > old => judge(item.kind),
            () if new == 4 => Err(17),
            () => Ok(item.kind),
        };
        let strengthened = new == 1 && old == 0;
        self.see(|seen| {
            seen.refused_hid_not +=
                (gabi && judged.is_err() && is_hidden(global) && !was_hidden) as u64;
            match judged {
                Ok(_) => seen.strengthened += strengthened as u64,
                Err(15) => seen.strengthened_15 += strengthened as u64,
                Err(_) => seen.strengthened_16 += strengthened as u64,
            }
        });
        let kind = judged?;
        self.see(|seen| {
            seen.commons_took += (new == 3 && old < 3) as u64;
            seen.commons_took_weak += (new == 3 && old == 2) as u64;
            seen.commons_under += (new == 3 && old == 4) as u64;
            seen.commons_replaced += (new == 4 && old == 3) as u64;
            seen.commons_over_weak += (new == 2 && old == 3) as u64;
        });
        if new > old {
            self.rows[id as usize] = Row { strengthened, ..row(kind) };
        }
        if let (Value::Common(second), Value::Common(first)) =
            (&value, self.rows[id as usize].value.clone())
        {
            // "Two commons under a name keep the row's id, the first common's other content, the
            // larger size and the larger alignment". One that took the row is joined with itself.
            let joined = &mut self.rows[id as usize];
            let (size, alignment) = (joined.size.max(item.size), first.max(*second));
            let grew = (size > joined.size, alignment > first);
            (joined.size, joined.value) = (size, Value::Common(alignment));
            self.see(|seen| {
                seen.commons_joined += (old == 3) as u64;
                seen.commons_grew_size += grew.0 as u64;
                seen.commons_grew_alignment += grew.1 as u64;
            });
        }
        if self.gabi {
            // "hidden on any accepted add from an object passes to the name's row, whoever holds it"
            let hidden = was_hidden || is_hidden(global);
            let holder = &mut self.rows[id as usize].global;
            *holder = holder.map(|(weak, _)| (weak, hidden));
            self.see(|seen| match (new > old, judged_hidden) {
                // The old profile keeps the row.
                (true, true) if strengthened => seen.strengthened_hid += !was_hidden as u64,
                (true, false) if strengthened => seen.strengthened_stayed_hidden += hidden as u64,
                (false, _) => seen.kept_row_hidden += (hidden && !was_hidden) as u64,
                (true, false) => seen.stayed_hidden += hidden as u64,
                (true, true) => seen.library_unhid += !hidden as u64,
            });
        }
        Ok(id)
    }

    /// Counts what the profiles do otherwise.
    pub(super) fn see(&self, count: impl Fn(&mut Seen)) {
        let mut seen = self.seen.get();
        count(&mut seen);
        self.seen.set(seen);
    }

    pub(super) fn remove(&mut self, id: u64) -> Result<(), Refused> {
        let row = self.rows.get_mut(id as usize).ok_or(Refused(21, Some(id)))?;
        if !row.removed {
            row.removed = true;
            if let Value::Section(section) = row.value {
                self.section_symbols.remove(&section);
            }
        }
        Ok(())
    }

    pub(super) fn present(&self, id: u64) -> Option<&Row> {
        self.rows.get(id as usize).filter(|row| !row.removed)
    }

    pub(super) fn get(&self, id: u64) -> Result<String, Refused> {
        let row = self.present(id).ok_or(Refused(21, Some(id)))?;
        Ok(line(id, row))
    }

    pub(super) fn get_global(&self, name: &str) -> Result<String, Refused> {
        let id = *self.names.get(name).ok_or(Refused(23, Some(0)))?;
        self.get(id).map_err(|_| Refused(21, None))
    }

    pub(super) fn dump(&self, out: &mut Vec<String>) {
        out.push(format!("symbols {}", self.rows.len()));
        for (id, row) in self.rows.iter().enumerate() {
            out.push(if row.removed {
                format!("symbol {id} removed")
            } else {
                line(id as u64, row)
            });
        }
        out.push(format!("sectionsymbols {}", self.section_symbols.len()));
        for (section, id) in &self.section_symbols {
            out.push(format!("sectionsymbol {section} {id}"));
        }
        // Row by row: a global row bears its name for ever.
        let globals = self.rows.iter().enumerate().filter(|(_, row)| row.global.is_some());
        out.push(format!("globals {}", globals.clone().count()));
        for (id, row) in globals {
            out.push(format!("global {} {id}", form::name(&row.name)));
        }
    }
}

fn is_hidden(global: Option<(bool, bool)>) -> bool {
    global.is_some_and(|(_, hidden)| hidden)
}

fn line(id: u64, row: &Row) -> String {
    let (class, hidden) = match row.global {
        None => ("local", false),
        Some((false, hidden)) => ("global", hidden),
        Some((true, hidden)) => ("weak", hidden),
    };
    let value = match row.value {
        Value::Null => "null".into(),
        Value::Absolute(value) => format!("abs {value}"),
        Value::Section(section) => format!("sec {section}"),
        Value::Relative(section, offset) if offset < 0 => format!("rel {section} - {}", -offset),
        Value::Relative(section, offset) => format!("rel {section} + {offset}"),
        Value::Address(section, address) => format!("addr {section} {address}"),
        Value::NotLoaded => "notloaded".into(),
        Value::External => "external".into(),
        Value::Undefined(zero) => format!("undef {}", zero as u8),
        Value::Common(alignment) => format!("com {alignment}"),
    };
    let value = match row.size {
        0 => value,
        size => format!("{value} size {size}"),
    };
    let file = form::optional_name(row.file.as_deref());
    let name = form::name(&row.name);
    format!("symbol {id} {name} {class} {} {} {file} {value}", hidden as u8, row.kind)
}
