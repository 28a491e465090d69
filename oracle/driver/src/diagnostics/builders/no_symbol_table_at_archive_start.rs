//! The unchanged file of cuddld.
include!(concat!(
    env!("CUDDLD_FILES"),
    "/diagnostics/builders/no_symbol_table_at_archive_start.rs"
));
