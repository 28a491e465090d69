//! The unchanged file of cuddld, and a child module that reads its private state.
include!(concat!(env!("CUDDLD_FILES"), "/passes/load_inputs/read_objects.rs"));

pub(super) mod access;
