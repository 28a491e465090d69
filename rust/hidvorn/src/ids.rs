//! Ids that never stand for one another.
//!
//! Name and symbol ids that a link doesn't have are refused. Section ids of values and conversions
//! are taken as they are; a collection that reaches one gives 21. An id of another link stands for
//! whatever has its number here.

macro_rules! id {
    ($(#[$doc:meta])* $name:ident) => {
        $(#[$doc])*
        #[derive(Clone, Copy, Debug, PartialEq, Eq, PartialOrd, Ord, Hash)]
        pub struct $name(pub(crate) usize);

        impl $name {
            /// The id of that number, a position in a link's rows. No link is asked whether it has
            /// such a row.
            pub const fn new(number: usize) -> Self {
                Self(number)
            }

            /// Its number.
            pub const fn number(self) -> usize {
                self.0
            }

            pub(crate) fn of_cell(cell: u64) -> Self {
                Self(cell as usize)
            }

            /// An optional id in a cell: 0 for none, else the id and 1.
            #[allow(dead_code)]
            pub(crate) fn of_optional_cell(cell: u64) -> Option<Self> {
                (cell as usize).checked_sub(1).map(Self)
            }

            #[allow(dead_code)]
            pub(crate) fn cell(self) -> u64 {
                self.0 as u64
            }
        }
    };
}

id! {
    /// A name of a link: equal bytes have equal ids, different bytes different ones.
    ///
    /// An id that a link doesn't have is refused. An id of another link stands for whatever name
    /// has its number here.
    Interned
}

id! {
    /// A symbol of a link. It keeps its id when another symbol takes its row.
    ///
    /// An id that a link doesn't have is refused, but leads nowhere as the entry of a collection.
    /// An id of another link stands for whatever symbol has its number here.
    SymbolId
}

id! {
    /// A section of a link.
    ///
    /// In values and conversions an id is taken as it is, whether a link has it or not; a
    /// collection that reaches one that isn't built gives 21. A section symbol's must be below the
    /// capacity of sections (2). An id of another link stands for whatever section has its number
    /// here.
    SectionId
}

impl Interned {
    /// The empty name, which every link has.
    pub const EMPTY: Interned = Interned(0);

    /// The largest number has no cell of its own and gets that of the number before it. No link has
    /// either, so that both are refused.
    pub(crate) fn optional_cell(name: Option<Self>) -> u64 {
        name.map_or(0, |name| name.cell().saturating_add(1))
    }
}

impl SymbolId {
    /// The null symbol, which every link has until it is removed.
    pub const NULL: SymbolId = SymbolId(0);
}
