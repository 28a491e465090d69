//! The unchanged file of cuddld, with stand-ins for the four files beside it (see build.rs).
include!(concat!(env!("OUT_DIR"), "/diagnostics/builders/undefined_symbol/mod.rs"));
