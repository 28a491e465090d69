//! A list of adds with fewer cells than adds, which `Link::add_all` never lends.
use crate::ffi::{self, VALUE};
use crate::{Capacity, ElfSymbol, Link, ListedSymbol, Profile};

#[test]
fn fewer_cells_than_adds() {
    for profile in [Profile::Old, Profile::Gabi] {
        let mut link = Link::with_profile(profile, Capacity::BOUNDS).expect("room");
        let name = link.intern(b"foo").expect("room");
        let symbol = ListedSymbol { elf: ElfSymbol::default(), name, file: None };
        let adds = [symbol.cells(); 3].concat();
        let mut ids = [7, 8];
        let Link { header, names, symbols, sections, .. } = &mut link;
        let answer = ffi::add_list(header, names, symbols, sections, &[], &adds, &mut ids);
        let refusal = answer.expect_err("two cells for three adds");
        assert_eq!((refusal.number(), refusal.place, header[VALUE]), (2, 0, 0));
        assert_eq!(ids, [7, 8]);
        assert!(link.get_global(name).is_err());
    }
}
