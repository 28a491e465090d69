//! Stand-in: the options that the 17 files name.
use std::path::PathBuf;

#[derive(Debug, Clone, Copy)]
pub(crate) enum Mode {
    PositionDependent,
}

#[derive(Debug, Clone)]
pub(crate) struct CliInput {
    pub(crate) path: PathBuf,
    pub(crate) library_name: String,
    pub(crate) options: CliInputOptions,
}

#[derive(Debug, Clone)]
pub(crate) struct CliInputOptions {
    pub(crate) as_needed: bool,
}
