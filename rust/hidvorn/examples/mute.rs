//! A title's link: the emulator core carries a weak `mute` that does nothing, and its mixer calls
//! it by name; the sound archive has the strong one, which clears the mix buffer. Prints who holds
//! `mute` at the end, and warns of each definition that a member which was not taken would have
//! given: a gate for a title's build, which other linkers don't have.
use hidvorn::{
    ElfSymbol, Link, Object, PendingArchive, Refusal, Relocations, SectionContent, SectionHeader,
    Step,
};
use std::collections::BTreeSet;
use support::{Holders, strength, warn};

mod support;

/// An ELF object by hand: a program section for each name of `sections`, whose relocations name
/// the symbols of `calls`; and symbols by name, binding, section and size.
fn object(sections: &[(&str, &[usize])], symbols: &[(&str, u64, usize, u64)]) -> Object<'static> {
    // A string table: a zero byte, then zero-ended names.
    let mut strings = vec![0];
    let mut offset = |name: &str| {
        let at = strings.len();
        strings.extend(name.as_bytes());
        strings.push(0);
        at
    };
    let section_names: Vec<_> = sections.iter().map(|(name, _)| offset(name)).collect();
    let symbol_names: Vec<_> = symbols.iter().map(|(name, ..)| offset(name)).collect();
    let len = strings.len();

    let mut object = Object::new(strings);
    object.push_section(SectionHeader::default());
    for name in section_names {
        let content = SectionContent::Program;
        object.push_section(SectionHeader { name, read: true, content, ..Default::default() });
    }
    let content = SectionContent::StringTable { first: 0, len };
    let table = object.push_section(SectionHeader { content, ..Default::default() });
    object.set_section_names(table);
    object.push_symbol(ElfSymbol::default());
    for (&(_, binding, section, size), name) in symbols.iter().zip(symbol_names) {
        object.push_symbol(ElfSymbol {
            name,
            binding,
            kind: 2,
            section,
            size,
            value: 0,
            visibility: 0,
        });
    }
    let count = object.symbol_count();
    let content = SectionContent::SymbolTable { strings: table, first: 0, count };
    let symbol_table = object.push_section(SectionHeader { content, ..Default::default() });
    for (number, (_, calls)) in sections.iter().enumerate() {
        let content = SectionContent::Rela(Relocations {
            table: symbol_table,
            applies_to: number + 1,
            symbols: calls,
        });
        object.push_section(SectionHeader { content, ..Default::default() });
    }
    object
}

/// The System V index of an archive: count, offsets, zero-ended names.
fn index(entries: &[(&str, u32)]) -> Vec<u8> {
    let mut out = (entries.len() as u32).to_be_bytes().to_vec();
    out.extend(entries.iter().flat_map(|(_, offset)| offset.to_be_bytes()));
    out.extend(entries.iter().flat_map(|(name, _)| [name.as_bytes(), &[0]].concat()));
    out
}

const WEAK: u64 = 2;
const STRONG: u64 = 1;

/// The core: symbol 1 is the weak mute, symbol 2 the mixer, which calls it and what `others` are.
fn core(others: &[&str]) -> Object<'static> {
    let mut symbols = vec![("mute", WEAK, 1, 1), ("mixer", STRONG, 2, 20)];
    symbols.extend(others.iter().map(|name| (*name, STRONG, 0, 0)));
    let calls: Vec<_> = (1..=symbols.len()).filter(|symbol| *symbol != 2).collect();
    object(&[(".text.mute", &[]), (".text.mixer", &calls)], &symbols)
}

fn main() -> Result<(), Refusal> {
    // A weak definition is a definition: by itself it pulls no member, as the gABI says too.
    println!("the mixer calls mute alone");
    link_title(&core(&[]))?;
    println!();
    println!("the mixer calls mute and mix_clear, which the core doesn't have");
    link_title(&core(&["mix_clear"]))
}

fn link_title(core: &Object<'_>) -> Result<(), Refusal> {
    let sound = object(
        &[(".text.mute", &[2]), (".text.mix", &[])],
        &[("mute", STRONG, 1, 8), ("mix_clear", STRONG, 2, 64)],
    );
    let video = object(&[(".text.blank", &[])], &[("blank", STRONG, 1, 40)]);
    let members = [(60, "libav.a(sound.o)", &sound), (900, "libav.a(video.o)", &video)];
    let archive = index(&[("mute", 60), ("mix_clear", 60), ("blank", 900)]);

    let mut link = Link::new();
    let (mut holders, mut taken) = (Holders::default(), BTreeSet::new());
    holders.note("core.o", &link.merge_elf(core)?);
    let mut walk = PendingArchive::new(archive)?;
    let passes = loop {
        let member = match walk.next(&link)? {
            Step::Member(member) => member,
            Step::Done { passes } => break passes,
        };
        let (_, name, object) = members.iter().find(|(at, ..)| *at == member.offset).unwrap();
        let required: Vec<_> = walk.required(&member).map(String::from_utf8_lossy).collect();
        println!("pass {} offers {name}, for {}", member.passes, required.join(", "));
        if walk.admits(&link, &member, object)? {
            holders.note(name, &link.merge_elf(object)?);
            taken.insert(member.offset);
        } else {
            println!("warning: {name}: offered, but not admitted: what it defines is left out");
        }
    };
    println!("done after {passes} passes");

    // At the end of the whole link, of every archive each member that was not taken.
    for (_, name, object) in members.iter().filter(|(at, ..)| !taken.contains(at)) {
        warn(&link, &holders, name, object)?;
    }
    let mute = link.get_global(link.find(b"mute").expect("the core defines it"))?;
    let holder = holders.of(&mute).expect("the core defines it");
    println!("mute is held by the {} one of {holder}, size {}", strength(&mute), mute.size);

    // The mixer is the entry: what it doesn't reach is dropped.
    let mixer = link.find(b"mixer").expect("the core defines it");
    let entry = link.get_global(mixer)?.id;
    let marks = vec![0; link.symbol_count()];
    let collected = link.gc_sections(&marks, Some(entry))?;
    println!("dropped sections: {:?}", collected.sections);
    Ok(())
}
