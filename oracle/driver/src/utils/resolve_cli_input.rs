//! Stand-in: an input of the oracle is a path already.
use crate::cli::CliInput;
use cuddld_macros::{Display, Error};
use std::path::PathBuf;

pub(crate) struct ResolvedCliInput {
    pub(crate) path: PathBuf,
    pub(crate) library_name: String,
}

#[derive(Debug, Error, Display)]
#[display("cannot resolve the input")]
pub(crate) struct ResolveCliInputError;

pub(crate) fn resolve_cli_input(
    _search_paths: &[PathBuf],
    input: &CliInput,
) -> Result<ResolvedCliInput, ResolveCliInputError> {
    Ok(ResolvedCliInput { path: input.path.clone(), library_name: input.library_name.clone() })
}
