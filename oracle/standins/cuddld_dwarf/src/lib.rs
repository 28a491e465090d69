//! Stand-in: the names that sections.rs mentions. Nothing here is reached by the oracle.
pub mod eh_encoding {
    pub enum DwarfEhApplication {
        Absolute,
        PcRel,
        DataRel,
    }

    pub enum DwarfEhValueFormat {
        I32,
        U32,
    }

    pub enum DwarfEhEncoding {
        Present { value_format: DwarfEhValueFormat, application: DwarfEhApplication },
    }
}
