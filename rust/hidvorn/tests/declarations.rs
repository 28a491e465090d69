//! The declarations for C and for Rust against the exported functions: no compiler sees both.
use hidvorn::Cause;
use std::collections::BTreeMap;
use std::fs;
use std::path::Path;

/// Of each function the types of its parameters, as Rust's.
type Declared = BTreeMap<String, Vec<String>>;

fn read(path: &str) -> String {
    let path = Path::new(env!("CARGO_MANIFEST_DIR")).join(path);
    fs::read_to_string(&path).unwrap_or_else(|error| panic!("{}: {error}", path.display()))
}

/// The functions of a text behind these words, each parameter as the types that it stands for.
fn declared(text: &str, before: &str, types: impl Fn(&str) -> Vec<&'static str>) -> Declared {
    let functions = text.split(before).skip(1).map(|rest| {
        let (name, rest) = rest.split_once('(').expect("parameters");
        let (parameters, _) = rest.split_once(')').expect("an end of the parameters");
        let parameters = parameters.split(',').map(str::trim).filter(|word| !word.is_empty());
        let name = name.split('<').next().unwrap_or(name);
        (name.to_string(), parameters.flat_map(&types).map(str::to_string).collect())
    });
    functions.collect()
}

fn exported() -> Declared {
    let text = read("../../crates/hidvorn/src/lib.rt").replace("&'a ", "&");
    declared(&text, "pub extern \"C\" fn hidvorn_", |parameter| match parameter.split_once(": ") {
        Some((_, "&mut [u64]")) => vec!["*mut u64", "usize"],
        Some((_, "&[u64]")) => vec!["*const u64", "usize"],
        Some((_, "&mut [u8]")) => vec!["*mut u8", "usize"],
        Some((_, "&[u8]")) => vec!["*const u8", "usize"],
        Some((_, "usize")) => vec!["usize"],
        Some((_, "u64")) => vec!["u64"],
        Some((_, "bool")) => vec!["bool"],
        _ => panic!("{parameter}"),
    })
}

#[test]
fn the_header_for_c() {
    let text = read("include/hidvorn.h");
    let header = declared(&text, "\nuint64_t hidvorn_", |parameter| {
        let kind = parameter.trim_end_matches(|c: char| c.is_alphanumeric() || c == '_');
        vec![match kind {
            "uint64_t *" => "*mut u64",
            "const uint64_t *" => "*const u64",
            "uint8_t *" => "*mut u8",
            "const uint8_t *" => "*const u8",
            "size_t " => "usize",
            "uint64_t " => "u64",
            "bool " => "bool",
            _ => panic!("{parameter}"),
        }]
    });
    assert_eq!(header, exported());
    assert!(header.len() > 15);
}

#[test]
fn the_declarations_of_the_crate() {
    let text = read("src/ffi.rs");
    let crates = declared(&text, "\n    fn hidvorn_", |parameter| {
        let (_, kind) = parameter.split_once(": ").expect("a type");
        let known = ["*mut u64", "*const u64", "*mut u8", "*const u8", "usize", "u64", "bool"];
        vec![known.into_iter().find(|known| *known == kind).expect("a known type")]
    });
    assert_eq!(crates, exported());
}

#[test]
fn the_refusals_of_the_header() {
    let text = read("include/hidvorn.h");
    let (_, refusals) = text.split_once("/* refusals;").expect("refusals");
    let (refusals, _) = refusals.split_once("/* kinds").expect("an end of the refusals");
    let lines = refusals.lines().filter_map(|line| line.strip_prefix("#define HIDVORN_"));
    let numbers = lines.map(|line| line.split(' ').nth(1).and_then(|word| word.parse().ok()));
    assert!(numbers.eq(Cause::ALL.iter().map(|cause| Some(cause.number()))));
}
