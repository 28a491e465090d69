pub(crate) mod address_resolver;
pub(crate) mod file_type;
pub(crate) mod resolve_cli_input;
