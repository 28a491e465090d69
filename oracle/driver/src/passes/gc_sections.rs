//! The unchanged file of cuddld.
include!(concat!(env!("CUDDLD_FILES"), "/passes/gc_sections.rs"));
