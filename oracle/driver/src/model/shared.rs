//! 01 "Shared objects".
use super::table::{Item, Row, Value, class};
use super::{Input, Model, Refused, name_at};
use crate::rows::LibraryRows;

impl Model {
    pub(super) fn load(&mut self, rows: &LibraryRows) -> Result<String, Refused> {
        let Some(library) = rows.soname.clone().or(rows.file.clone()) else {
            return Err(Refused(25, Some(0)));
        };
        if rows.as_needed && !self.is_needed(rows, &library, |_| true) {
            return Ok("notneeded".into());
        }
        let otherwise = !rows.as_needed || self.is_needed(rows, &library, |row| !row.strengthened);
        self.table.see(|seen| seen.strengthened_needs += !otherwise as u64);
        let mut undefined = Vec::new();
        for (number, symbol) in rows.symbols.iter().enumerate() {
            let number = number as u64;
            let name = name_at(&rows.strings, symbol.name).ok_or(Refused(9, Some(number)))?;
            if symbol.section != 0 {
                let item = Item {
                    class: class(symbol.binding, symbol.visibility),
                    library: true,
                    name,
                    kind: 0,
                    file: None,
                    value: Ok(Value::External),
                    size: 0,
                };
                self.table.add(item).map_err(|refused| match refused {
                    21 => Refused(21, None),
                    other => Refused(other, Some(number)),
                })?;
            } else if symbol.binding == 1 {
                undefined.push(name);
            }
        }
        self.inputs.push(Input::Library { name: library, needs: rows.needs.clone(), undefined });
        Ok("loaded".into())
    }

    /// Of the names undefined and strong in the table, those count whose rows do.
    fn is_needed(&self, rows: &LibraryRows, library: &String, counts: fn(&Row) -> bool) -> bool {
        rows.symbols.iter().any(|symbol| {
            let provides = (symbol.binding == 1 || symbol.binding == 2) && symbol.section != 0;
            match name_at(&rows.strings, symbol.name) {
                Some(name) if provides => {
                    self.wants_strongly(&name).is_some_and(counts)
                        || self.library_wants(&name, library)
                }
                _ => false,
            }
        })
    }

    /// The name's row if it is undefined and strong.
    fn wants_strongly(&self, name: &str) -> Option<&Row> {
        let row = self.table.names.get(name).and_then(|id| self.table.present(*id));
        row.filter(|row| row.value.is_undefined() && !row.is_weak())
    }

    fn library_wants(&self, wanted: &String, library: &String) -> bool {
        self.inputs.iter().any(|input| match input {
            Input::Object => false,
            Input::Library { needs, undefined, .. } => {
                !needs.contains(library) && undefined.contains(wanted)
            }
        })
    }
}
