//! What the examples keep of a link beside it: which input's symbol holds each name, and what the
//! members that were not taken would have defined.
use hidvorn::{
    Link, Merged, Object, Refusal, Symbol, SymbolId, SymbolValue, SymbolVisibility, Untaken,
};
use std::collections::HashMap;

/// The input whose definition each row has, and the row's value when it was noted.
#[derive(Default)]
pub struct Holders(HashMap<SymbolId, (String, SymbolValue)>);

impl Holders {
    /// After the merge of an input: the rows that its symbols have taken over.
    pub fn note(&mut self, input: &str, merged: &Merged<'_>) {
        for id in merged.symbols().flatten() {
            let Ok(Symbol { value, .. }) = merged.link().get(id) else { continue };
            let stays = self.0.get(&id).is_some_and(|(_, before)| same(*before, value));
            if !stays && !value.is_undefined() {
                self.0.insert(id, (input.to_string(), value));
            }
        }
    }

    /// The input that holds a symbol; none of one that nobody defines.
    pub fn of(&self, symbol: &Symbol) -> Option<&str> {
        self.0.get(&symbol.id).map(|(input, _)| input.as_str())
    }
}

/// The same definition: commons are joined under the first.
fn same(a: SymbolValue, b: SymbolValue) -> bool {
    let common = |value| matches!(value, SymbolValue::Common { .. });
    a == b || common(a) && common(b)
}

/// How a row is held, in a word.
pub fn strength(symbol: &Symbol) -> &'static str {
    match (symbol.value, symbol.visibility) {
        (SymbolValue::Undefined { default_zero: true }, _) => "weakly undefined",
        (SymbolValue::Undefined { .. }, _) => "undefined",
        (SymbolValue::Common { .. }, _) => "common",
        (_, SymbolVisibility::Global { weak: true, .. }) => "weak",
        _ => "strong",
    }
}

/// At the end of a link, of a member that no walk took: a line for each definition that the link
/// would have taken from it. How many they are.
pub fn warn(
    link: &Link,
    holders: &Holders,
    member: &str,
    object: &Object<'_>,
) -> Result<usize, Refusal> {
    let untaken = link.would_define(object)?;
    for Untaken { name, definition, holder, .. } in &untaken {
        let name = String::from_utf8_lossy(name);
        let of = match definition {
            definition if definition.section == 0xfff2 => "common",
            definition if definition.binding == 2 => "weak",
            _ => "strong",
        };
        let size = definition.size;
        print!("warning: {name}: {member} was not taken and has a {of} one, size {size}; ");
        match holders.of(holder) {
            Some(input) => {
                println!("{input} holds it: {}, size {}", strength(holder), holder.size);
            }
            None => println!("nobody defines it"),
        }
    }
    Ok(untaken.len())
}
