pub(crate) mod builders {
    mod no_symbol_table_at_archive_start;
    mod undefined_symbol;

    pub(crate) use no_symbol_table_at_archive_start::NoSymbolNameAtArchiveStartDiagnostic;
    pub(crate) use undefined_symbol::UndefinedSymbolDiagnostic;
}
