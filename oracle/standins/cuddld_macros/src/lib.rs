//! Stand-in for cuddld's derives, with the compiler's own `proc_macro` alone.
//!
//! - `Display`: `#[display("..")]` on a struct or a variant; fields by name, those of tuples as
//!   `f0`, `f1`; `#[transparent]` shows the one field.
//! - `Error`: `std::error::Error`, and for each `#[transparent]` variant a `From` of its field, so
//!   that `?` works on it.
//! - `Getters`: for each field marked `#[get]` a method of the same name that returns a copy.
mod item;

use item::{Fields, Item, Shape};
use proc_macro::TokenStream;
use std::fmt::Write;

#[proc_macro_derive(Display, attributes(display, transparent))]
pub fn display(input: TokenStream) -> TokenStream {
    let item = Item::parse(input);
    let name = &item.name;
    let mut arms = String::new();
    let mut arm = |path: String, shape: &Shape| {
        let (pattern, names) = pattern(&shape.fields);
        let body = if shape.transparent {
            format!("::std::fmt::Display::fmt({}, __out)", names[0])
        } else {
            let text = shape.display.as_ref().expect("display text");
            format!("::std::write!(__out, {text})")
        };
        write!(arms, "{path} {pattern} => {body},").unwrap();
    };
    match &item.variants {
        None => arm(name.clone(), &item.shape),
        Some(variants) => {
            for (variant, shape) in variants {
                arm(format!("{name}::{variant}"), shape);
            }
        }
    }
    format!(
        "impl ::std::fmt::Display for {name} {{
            #[allow(unused_variables)]
            fn fmt(&self, __out: &mut ::std::fmt::Formatter<'_>) -> ::std::fmt::Result {{
                match self {{ {arms} }}
            }}
        }}"
    )
    .parse()
    .unwrap()
}

#[proc_macro_derive(Error, attributes(source, diagnostic, transparent))]
pub fn error(input: TokenStream) -> TokenStream {
    let item = Item::parse(input);
    let name = &item.name;
    let mut out = format!("impl ::std::error::Error for {name} {{}}");
    for (variant, shape) in item.variants.iter().flatten() {
        if let (true, Fields::Tuple(types)) = (shape.transparent, &shape.fields) {
            let inner = &types[0];
            write!(
                out,
                "impl ::std::convert::From<{inner}> for {name} {{
                    fn from(inner: {inner}) -> Self {{ {name}::{variant}(inner) }}
                }}"
            )
            .unwrap();
        }
    }
    out.parse().unwrap()
}

#[proc_macro_derive(Getters, attributes(get))]
pub fn getters(input: TokenStream) -> TokenStream {
    let item = Item::parse(input);
    let name = &item.name;
    let Fields::Named(fields) = &item.shape.fields else { panic!("named fields expected") };
    let mut methods = String::new();
    for field in fields.iter().filter(|field| field.get) {
        let (field, kind) = (&field.name, &field.kind);
        write!(methods, "pub(crate) fn {field}(&self) -> {kind} {{ self.{field} }}").unwrap();
    }
    format!("impl {name} {{ {methods} }}").parse().unwrap()
}

fn pattern(fields: &Fields) -> (String, Vec<String>) {
    match fields {
        Fields::Unit => (String::new(), Vec::new()),
        Fields::Tuple(types) => {
            let names: Vec<_> = (0..types.len()).map(|at| format!("f{at}")).collect();
            (format!("({})", names.join(",")), names)
        }
        Fields::Named(fields) => {
            let names: Vec<_> = fields.iter().map(|field| field.name.clone()).collect();
            (format!("{{ {} }}", names.join(",")), names)
        }
    }
}
