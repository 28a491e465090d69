//! The figures of links over a lot of titles, and their totals.
use crate::ffi::{self, Header};
use crate::{Link, PendingArchive, Refusal};
use std::fmt;

/// The figures of a title, or the sums over the titles of a report. `Display` writes them in the
/// order of the fields, a blank between two: a line of the sheet without its number.
#[derive(Clone, Copy, Debug, Default, PartialEq, Eq, Hash)]
pub struct Figures {
    /// Symbols that weren't removed and whose value is null.
    pub null: u64,
    /// Those that are absolute.
    pub absolute: u64,
    /// Those of a section.
    pub section: u64,
    /// Those at a place in a section.
    pub relative: u64,
    /// Those that are undefined.
    pub undefined: u64,
    /// Those that are common.
    pub common: u64,
    /// All others: in a section that isn't loaded, external, at an address.
    pub other: u64,
    /// Members that the walk handed out.
    pub offered: u64,
    /// Passes that the walk made.
    pub passes: u64,
    /// Sections that are built and weren't dropped.
    pub kept: u64,
    /// Sections that collections dropped.
    pub dropped: u64,
    /// The bytes of the kept sections.
    pub kept_bytes: u64,
    /// The bytes of the dropped ones.
    pub dropped_bytes: u64,
}

impl Figures {
    /// The names of the figures as a sheet has them, in the order of the fields.
    pub const NAMES: [&'static str; 13] = [
        "null",
        "abs",
        "sec",
        "rel",
        "undef",
        "com",
        "other",
        "offered",
        "passes",
        "kept",
        "dropped",
        "keptbytes",
        "droppedbytes",
    ];

    /// The figures in the order of the fields.
    pub const fn to_array(self) -> [u64; 13] {
        [
            self.null,
            self.absolute,
            self.section,
            self.relative,
            self.undefined,
            self.common,
            self.other,
            self.offered,
            self.passes,
            self.kept,
            self.dropped,
            self.kept_bytes,
            self.dropped_bytes,
        ]
    }

    fn of_cells(cells: [u64; 13]) -> Figures {
        let [null, absolute, section, relative, undefined, common, other, rest @ ..] = cells;
        let [offered, passes, kept, dropped, kept_bytes, dropped_bytes] = rest;
        Figures {
            null,
            absolute,
            section,
            relative,
            undefined,
            common,
            other,
            offered,
            passes,
            kept,
            dropped,
            kept_bytes,
            dropped_bytes,
        }
    }
}

impl fmt::Display for Figures {
    fn fmt(&self, f: &mut fmt::Formatter<'_>) -> fmt::Result {
        for (at, value) in self.to_array().into_iter().enumerate() {
            write!(f, "{}{value}", if at == 0 { "" } else { " " })?;
        }
        Ok(())
    }
}

/// A report over titles: how many were added, and the sums of their figures. `Display` writes the
/// last line of the sheet.
#[derive(Clone, Copy, Debug, Default, PartialEq, Eq, Hash)]
pub struct Report {
    cells: [u64; 14],
}

impl Report {
    /// No title yet.
    pub const fn new() -> Self {
        Report { cells: [0; 14] }
    }

    /// Adds a title, a link as it stands and its walk, and answers its figures. Without a walk
    /// nothing was offered and no pass made. A broken link is reported.
    ///
    /// 31 at the number of titles before it, if a sum is 2^64 or more; 1 at 1,000 for a title more
    /// than that. A refused title leaves the report as it was.
    pub fn add(
        &mut self,
        link: &Link,
        walk: Option<&PendingArchive<'_>>,
    ) -> Result<Figures, Refusal> {
        let none = [0; 7];
        let walk = walk.map_or(&none, PendingArchive::walk_cells);
        let mut header: Header = link.header;
        let mut figures = [0; 13];
        let Report { cells } = self;
        ffi::report_title(&mut header, walk, &link.symbols, &link.sections, cells, &mut figures)?;
        Ok(Figures::of_cells(figures))
    }

    /// How many titles were added: at most 1,000.
    pub const fn titles(&self) -> usize {
        self.cells[0] as usize
    }

    /// The sums of their figures.
    pub fn totals(&self) -> Figures {
        let [_, totals @ ..] = self.cells;
        Figures::of_cells(totals)
    }
}

impl fmt::Display for Report {
    fn fmt(&self, f: &mut fmt::Formatter<'_>) -> fmt::Result {
        write!(f, "total {}", self.totals())
    }
}
