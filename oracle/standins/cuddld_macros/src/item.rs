//! As much of a struct or an enum without generics as the derives need.
use proc_macro::{Delimiter, TokenStream, TokenTree};
use std::iter::Peekable;

type Tokens = Peekable<proc_macro::token_stream::IntoIter>;

pub struct Item {
    pub name: String,
    /// Of a struct.
    pub shape: Shape,
    /// Of an enum.
    pub variants: Option<Vec<(String, Shape)>>,
}

pub struct Shape {
    pub display: Option<String>,
    pub transparent: bool,
    pub fields: Fields,
}

pub enum Fields {
    Unit,
    Tuple(Vec<String>),
    Named(Vec<Field>),
}

pub struct Field {
    pub name: String,
    pub kind: String,
    pub get: bool,
}

#[derive(Default)]
struct Marks {
    display: Option<String>,
    transparent: bool,
    get: bool,
}

impl Item {
    pub fn parse(input: TokenStream) -> Item {
        let mut tokens = input.into_iter().peekable();
        let marks = marks(&mut tokens);
        skip_visibility(&mut tokens);
        let keyword = word(&mut tokens);
        let name = word(&mut tokens);
        match keyword.as_str() {
            "struct" => Item { name, shape: shape(marks, fields(&mut tokens)), variants: None },
            "enum" => {
                let Some(TokenTree::Group(body)) = tokens.next() else { panic!("enum body") };
                let variants = variants(body.stream());
                Item { name, shape: shape(marks, Fields::Unit), variants: Some(variants) }
            }
            other => panic!("cannot derive for {other}"),
        }
    }
}

fn shape(marks: Marks, fields: Fields) -> Shape {
    Shape { display: marks.display, transparent: marks.transparent, fields }
}

fn variants(body: TokenStream) -> Vec<(String, Shape)> {
    let mut tokens = body.into_iter().peekable();
    let mut out = Vec::new();
    while tokens.peek().is_some() {
        let marks = marks(&mut tokens);
        let name = word(&mut tokens);
        let fields = fields(&mut tokens);
        skip_comma(&mut tokens);
        out.push((name, shape(marks, fields)));
    }
    out
}

fn fields(tokens: &mut Tokens) -> Fields {
    let Some(TokenTree::Group(group)) = tokens.peek() else { return Fields::Unit };
    let (delimiter, body) = (group.delimiter(), group.stream());
    tokens.next();
    let mut tokens = body.into_iter().peekable();
    if delimiter == Delimiter::Parenthesis {
        let mut types = Vec::new();
        while tokens.peek().is_some() {
            marks(&mut tokens);
            skip_visibility(&mut tokens);
            types.push(kind(&mut tokens));
        }
        return Fields::Tuple(types);
    }
    let mut out = Vec::new();
    while tokens.peek().is_some() {
        let marks = marks(&mut tokens);
        skip_visibility(&mut tokens);
        let name = word(&mut tokens);
        tokens.next(); // the colon
        out.push(Field { name, kind: kind(&mut tokens), get: marks.get });
    }
    Fields::Named(out)
}

/// A type, up to the next comma outside of angle brackets.
fn kind(tokens: &mut Tokens) -> String {
    let mut depth = 0;
    let mut out = TokenStream::new();
    for token in tokens.by_ref() {
        if let TokenTree::Punct(mark) = &token {
            match mark.as_char() {
                '<' => depth += 1,
                '>' => depth -= 1,
                ',' if depth == 0 => break,
                _ => {}
            }
        }
        out.extend([token]);
    }
    out.to_string()
}

fn marks(tokens: &mut Tokens) -> Marks {
    let mut out = Marks::default();
    while matches!(tokens.peek(), Some(TokenTree::Punct(mark)) if mark.as_char() == '#') {
        tokens.next();
        let Some(TokenTree::Group(group)) = tokens.next() else { panic!("attribute") };
        let mut inner = group.stream().into_iter().peekable();
        match word(&mut inner).as_str() {
            "transparent" => out.transparent = true,
            "get" => out.get = true,
            "display" => {
                let Some(TokenTree::Group(text)) = inner.next() else { panic!("display text") };
                out.display = Some(text.stream().to_string());
            }
            _ => {}
        }
    }
    out
}

fn skip_visibility(tokens: &mut Tokens) {
    if matches!(tokens.peek(), Some(TokenTree::Ident(word)) if word.to_string() == "pub") {
        tokens.next();
        if matches!(tokens.peek(), Some(TokenTree::Group(_))) {
            tokens.next();
        }
    }
}

fn skip_comma(tokens: &mut Tokens) {
    if matches!(tokens.peek(), Some(TokenTree::Punct(mark)) if mark.as_char() == ',') {
        tokens.next();
    }
}

fn word(tokens: &mut Tokens) -> String {
    match tokens.next() {
        Some(TokenTree::Ident(word)) => word.to_string(),
        other => panic!("a word expected, not {other:?}"),
    }
}
