//! Reads an object file and merges its rows, once each, for a profiler to count.
use hidvorn::{Link, Object};
use std::{env, error::Error, fs};

fn main() -> Result<(), Box<dyn Error>> {
    let path = env::args().nth(1).ok_or("read_cost FILE")?;
    let object = Object::read(fs::read(path)?)?;
    let mut link = Link::new();
    link.merge_elf(&object)?;
    println!("{} sections, {} symbols", object.section_count(), object.symbol_count());
    Ok(())
}
