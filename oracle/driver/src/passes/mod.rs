pub(crate) mod gc_sections;
pub(crate) mod load_inputs;

/// Stand-in: a field of `Object` that the oracle never fills.
pub(crate) mod generate_got {
    #[derive(Debug)]
    pub(crate) struct Got;
}

/// Stand-in, as above.
pub(crate) mod generate_plt {
    #[derive(Debug)]
    pub(crate) struct Plt;
}

/// Stand-in: the view that lists a collection's marked symbols sorts them by this hash. The order
/// in which roots are put into a set can't be seen, so nothing is hashed.
pub(crate) mod build_elf {
    pub(crate) mod gnu_hash {
        use crate::repr::symbols::Symbol;
        use cuddld_elf::ElfClass;

        pub(crate) struct GnuHasher;

        impl GnuHasher {
            pub(crate) fn new<'a>(_: ElfClass, _: impl Iterator<Item = &'a Symbol>) -> Self {
                GnuHasher
            }

            pub(crate) fn hash(&self, _: &Symbol) -> GnuHashResult {
                GnuHashResult::NotHashed
            }
        }

        pub(crate) enum GnuHashResult {
            NotHashed,
            Hashed { bucket: u32 },
        }
    }
}
