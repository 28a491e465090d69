//! Add sheets: what document 01's `addsheet` prints, from the Rust.
use crate::direct::{Conversion, Direct};
use crate::form::{self, Fault};
use crate::machine::Machine;
use crate::repr::symbols::{Symbol, SymbolValue, SymbolVisibility};
use crate::rows::{ABSOLUTE, COMMON, SymbolRow};
use cuddld_utils::ints::ExtractNumber;

pub(crate) fn answer(sheet: &str) -> Result<String, Fault> {
    let mut machine = Machine::new();
    machine.rows.conversion =
        std::iter::once(Conversion::Nothing).chain((1..10).map(Conversion::Id)).collect();

    let mut refused = String::new();
    for (line, text) in sheet.lines().skip(1).enumerate() {
        let words: Vec<_> = text.split_whitespace().collect();
        let [name, fields @ ..] = words.as_slice() else { continue };
        let numbers = fields.iter().all(|word| word.bytes().all(|byte| byte.is_ascii_digit()));
        if fields.len() != 5 || !numbers {
            return Err(format!("line {}: a name and five numbers expected", line + 1));
        }
        let name = if *name == "-" { "" } else { name }.to_string();
        // None: a number that 64 bits don't hold.
        let fields: Option<Vec<u64>> = fields.iter().map(|word| word.parse().ok()).collect();
        let row = fields.map(|fields| {
            let [binding, visibility, kind, section, value] = fields[..] else { unreachable!() };
            SymbolRow { name: 0, binding, kind, visibility, section, value, size: 0 }
        });
        let number = match row.filter(in_range) {
            Some(row) => machine.try_add(&Direct::Elf { name, row, file: None }).err(),
            // The port's own refusal; the Rust's types cannot even hold the field.
            None => Some(1),
        };
        if let Some(number) = number {
            refused += &format!("refused {} {number}\n", line + 1);
        }
    }

    let mut out = String::from("id name weak kind value\n");
    for symbol in machine.link.object.symbols.rows().flatten() {
        out += &row(symbol);
    }
    Ok(out + &refused)
}

fn in_range(row: &SymbolRow) -> bool {
    row.binding < 16
        && row.kind < 16
        && row.visibility < 4
        && (row.section < 0xff00 || row.section == ABSOLUTE || row.section == COMMON)
}

fn row(symbol: &Symbol) -> String {
    let weak = match symbol.visibility() {
        SymbolVisibility::Local => "-",
        SymbolVisibility::Global { weak: true, .. } => "yes",
        SymbolVisibility::Global { weak: false, .. } => "no",
    };
    let value = match symbol.value() {
        SymbolValue::Null => "null 0".into(),
        SymbolValue::Absolute { value } => format!("abs {}", value.extract()),
        SymbolValue::Section { section } => format!("sec {}", section.number()),
        SymbolValue::SectionRelative { section, offset } => {
            format!("rel {}:{}", section.number(), offset.extract())
        }
        SymbolValue::Undefined { default_zero } => format!("undef {}", default_zero as u8),
        other => panic!("oracle: never on a sheet: {other:?}"),
    };
    let name = symbol.name().resolve();
    format!("{} {} {weak} {value}\n", symbol.id().number(), form::name(&name))
}
