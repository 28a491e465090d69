//! Stand-in for cuddld's ELF crate: the types of a parsed object, with no parsing and no linking.
//! The one rule in here is how a name is found in a string table; it is document 01's.
pub mod ids;
mod numbers;
mod object;
mod reader;
mod rows;

pub use numbers::*;
pub use object::*;
pub use reader::*;
pub use rows::Rows;

/// Mentioned by address_resolver.rs; never reached by the oracle.
pub mod writer {
    pub mod layout {
        use cuddld_utils::ints::Address;
        use std::collections::BTreeMap;

        pub struct Layout<S> {
            pub sections: BTreeMap<S, SectionMetadata>,
        }

        pub struct SectionMetadata {
            pub memory: Option<MemoryMetadata>,
        }

        pub struct MemoryMetadata {
            pub address: Address,
        }

        impl<S: Ord> Layout<S> {
            pub fn metadata_of_section(&self, section: &S) -> &SectionMetadata {
                &self.sections[section]
            }
        }
    }
}
