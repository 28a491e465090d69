//! The unchanged file of cuddld, and a child module that reads its private state.
include!(concat!(env!("CUDDLD_FILES"), "/interner.rs"));

pub(crate) mod access;
