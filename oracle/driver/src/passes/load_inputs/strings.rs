//! The unchanged file of cuddld.
include!(concat!(env!("CUDDLD_FILES"), "/passes/load_inputs/strings.rs"));
