//! The report over titles: what the figures count, and the totals.
mod support;

use hidvorn::*;
use support::{refused, strings};

const CAPACITY: Capacity =
    Capacity { names: 64, name_bytes: 1024, symbols: 64, sections: 16, inputs: 4 };

/// A link of readable program sections of these sizes, each with a global symbol.
fn sized(sizes: &[u64]) -> Link {
    let names: Vec<_> = (0..sizes.len()).map(|i| format!("f{i}")).collect();
    let names: Vec<_> = names.iter().map(String::as_str).collect();
    let (bytes, places) = strings(&[&[".text"], names.as_slice()].concat());
    let len = bytes.len();
    let mut object = Object::new(bytes);
    let header = |content| SectionHeader { content, ..Default::default() };
    object.push_section(header(SectionContent::Null));
    for size in sizes {
        let header = header(SectionContent::Program);
        object.push_section(SectionHeader { name: places[0], read: true, size: *size, ..header });
    }
    object.push_symbol(ElfSymbol::default());
    for (i, name) in places[1..].iter().enumerate() {
        let symbol = ElfSymbol { name: *name, binding: 1, section: i + 1, ..Default::default() };
        object.push_symbol(symbol);
    }
    let strings = sizes.len() + 1;
    object.push_section(header(SectionContent::StringTable { first: 0, len }));
    object.set_section_names(strings);
    let count = sizes.len() + 1;
    object.push_section(header(SectionContent::SymbolTable { strings, first: 0, count }));
    let mut link = Link::with_capacity(CAPACITY).unwrap();
    link.merge_elf(&object).unwrap();
    link
}

#[test]
fn a_new_link() {
    let mut report = Report::new();
    assert_eq!(report.to_string(), "total 0 0 0 0 0 0 0 0 0 0 0 0 0");
    let figures = report.add(&Link::new(), None).unwrap();
    assert_eq!(figures, Figures { null: 1, ..Figures::default() });
    assert_eq!((report.titles(), report.totals()), (1, figures));
    assert_eq!(Figures::NAMES.len(), figures.to_array().len());
}

#[test]
fn sizes_stay_when_sections_are_dropped() {
    let mut link = sized(&[5, 7]);
    let mut report = Report::new();
    let before = report.add(&link, None).unwrap();
    assert_eq!(before.to_string(), "1 0 0 2 0 0 0 0 0 2 0 12 0");
    let name = link.intern(b"f0").unwrap();
    let entry = link.get_global(name).unwrap().id;
    link.gc_sections(&vec![0; link.symbol_count()], Some(entry)).unwrap();
    let after = report.add(&link, None).unwrap();
    assert_eq!(after.to_string(), "1 0 0 1 0 0 0 0 0 1 1 5 7");
    let sections: Vec<_> = link.sections().collect();
    assert!(matches!(sections[0], Section::Built { size: 5, .. }));
    assert!(matches!(sections[1], Section::Dropped { size: 7, .. }));
    assert_eq!(report.to_string(), "total 2 0 0 3 0 0 0 0 0 3 1 17 7");
}

#[test]
fn every_kind_of_value() {
    let mut link = sized(&[1]);
    let name = link.intern(b"removed").unwrap();
    let value = SymbolValue::Absolute { value: 1 };
    let removed = link.add(UpcomingSymbol::GlobalHidden { name, value }).unwrap();
    link.remove(removed).unwrap();
    let values = [
        SymbolValue::Absolute { value: 1 },
        SymbolValue::Section { section: SectionId::new(0) },
        SymbolValue::SectionRelative { section: SectionId::new(0), offset: 1 },
        SymbolValue::Undefined { default_zero: false },
        SymbolValue::Common { alignment: 8 },
        SymbolValue::ExternallyDefined,
        SymbolValue::SectionNotLoaded,
    ];
    for (i, value) in values.into_iter().enumerate() {
        let name = link.intern(format!("v{i}").as_bytes()).unwrap();
        link.add(UpcomingSymbol::GlobalHidden { name, value }).unwrap();
    }
    let figures = Report::new().add(&link, None).unwrap();
    assert_eq!(figures.to_array()[..7], [1, 1, 1, 2, 1, 1, 2]);
}

#[test]
fn sums_that_are_too_large() {
    let half = 1 << 63;
    let mut report = Report::new();
    assert_eq!(refused(report.add(&sized(&[half, half]), None)), (31, 0));
    assert_eq!(report, Report::new());
    let first = report.add(&sized(&[half]), None).unwrap();
    assert_eq!(refused(report.add(&sized(&[half]), None)), (31, 1));
    assert_eq!((report.titles(), report.totals()), (1, first));
    report.add(&sized(&[1]), None).unwrap();
    assert_eq!((report.titles(), report.totals().kept_bytes), (2, half + 1));
}

#[test]
fn any_order_of_titles() {
    let titles = [sized(&[3]), sized(&[5, 7]), sized(&[])];
    let orders = [[0, 1, 2], [0, 2, 1], [1, 0, 2], [1, 2, 0], [2, 0, 1], [2, 1, 0]];
    let reports = orders.map(|order| {
        let mut report = Report::new();
        for title in order {
            report.add(&titles[title], None).unwrap();
        }
        report
    });
    assert_eq!(reports[0].to_string(), "total 3 0 0 3 0 0 0 0 0 3 0 15 0");
    assert!(reports.iter().all(|report| *report == reports[0]));
}

#[test]
fn a_thousand_titles() {
    let (link, mut report) = (sized(&[2]), Report::new());
    for _ in 0..1000 {
        report.add(&link, None).unwrap();
    }
    assert_eq!(report.totals().kept_bytes, 2000);
    assert_eq!(refused(report.add(&link, None)), (1, 1000));
    assert_eq!(report.titles(), 1000);
}

#[test]
fn a_broken_link_is_reported() {
    let mut link = sized(&[4]);
    // f0 again
    assert_eq!(link.merge_elf(&support::object(&[("f0", 1, 1, 0)])).unwrap_err().number(), 17);
    let figures = Report::new().add(&link, None).unwrap();
    assert_eq!((figures.relative, figures.kept, figures.kept_bytes), (1, 1, 4));
}
