//! The unchanged file of cuddld.
include!(concat!(env!("CUDDLD_FILES"), "/repr/relocations.rs"));
