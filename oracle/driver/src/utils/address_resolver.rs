//! The unchanged file of cuddld.
include!(concat!(env!("CUDDLD_FILES"), "/utils/address_resolver.rs"));
