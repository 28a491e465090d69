//! The unchanged file of cuddld, and a child module that reads its private state. (symbol.rs and
//! views.rs beside it are unchanged too; see build.rs.)
include!(concat!(env!("OUT_DIR"), "/repr/symbols/mod.rs"));

pub(crate) mod access;
