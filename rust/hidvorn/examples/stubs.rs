//! Stub symbols added by a list, and one by one: `stubs list|single COUNT ROUNDS`.
//!
//! To be run under callgrind: what a round takes is the difference of two runs.
use hidvorn::*;

fn main() {
    let args: Vec<String> = std::env::args().collect();
    let [_, way, count, rounds] = args.as_slice() else {
        panic!("stubs list|single COUNT ROUNDS");
    };
    let (count, rounds): (usize, usize) = (count.parse().unwrap(), rounds.parse().unwrap());
    let mut fresh = Link::with_key(1, Profile::Old, Capacity::BOUNDS).unwrap();
    let elf = ElfSymbol { binding: 1, section: 0xfff1, ..ElfSymbol::default() };
    let stub = |link: &mut Link, i: usize| {
        let name = link.intern(format!("stub{i:08}").as_bytes()).unwrap();
        ListedSymbol { elf, name, file: None }
    };
    let list: Vec<_> = (0..count).map(|i| stub(&mut fresh, i)).collect();
    let none = SectionConversion::new();
    for _ in 0..rounds {
        let mut link = fresh.clone();
        let ids: Vec<SymbolId> = if way == "list" {
            link.add_all(&list, &none).unwrap()
        } else {
            let one = |ListedSymbol { elf, name, file }| {
                link.add(UpcomingSymbol::Elf { elf, name, file, conversion: &none }).unwrap()
            };
            list.iter().copied().map(one).collect()
        };
        assert_eq!(ids.len(), count);
    }
}
