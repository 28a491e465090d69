pub(crate) mod object;
pub(crate) mod relocations;
pub(crate) mod sections;
pub(crate) mod symbols;

/// Stand-in: fields of `Object` that the oracle never fills.
pub(crate) mod dynamic_entries {
    #[derive(Debug)]
    pub(crate) struct DynamicEntries;
}

/// Stand-in, as above.
pub(crate) mod segments {
    #[derive(Debug)]
    pub(crate) struct Segments;
}
