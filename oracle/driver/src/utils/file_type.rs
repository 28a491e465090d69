//! The unchanged file of cuddld.
include!(concat!(env!("CUDDLD_FILES"), "/utils/file_type.rs"));
