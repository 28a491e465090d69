//! One link of the Rust, and everything in it as lines.
use crate::cli::Mode;
use crate::form;
use crate::interner::Interned;
use crate::passes::load_inputs::Groups;
use crate::repr::dynamic_entries::DynamicEntries;
use crate::repr::object::Object;
use crate::repr::sections::access::Row;
use crate::repr::sections::{SectionContent, Sections};
use crate::repr::segments::Segments;
use crate::repr::symbols::{Symbol, SymbolType, SymbolValue, SymbolVisibility, Symbols};
use cuddld_elf::{ElfAbi, ElfClass, ElfEndian, ElfEnvironment, ElfMachine};
use cuddld_utils::ints::ExtractNumber;

pub(crate) struct Link {
    pub(crate) object: Object,
    pub(crate) groups: Groups,
}

impl Link {
    pub(crate) fn new() -> Self {
        let object = Object {
            env: ElfEnvironment {
                class: ElfClass::Elf64,
                endian: ElfEndian::Little,
                abi: ElfAbi::SystemV,
                machine: ElfMachine::X86_64,
            },
            inputs: Vec::new(),
            sections: Sections::new(),
            segments: Segments,
            symbols: Symbols::new().expect("a new table"),
            dynamic_entries: DynamicEntries,
            got: None,
            got_plt: None,
            plt: None,
            entry_point: None,
            mode: Mode::PositionDependent,
            executable_stack: false,
            gnu_stack_section_ignored: false,
            emit_eh_frame_hdr: false,
        };
        Link { object, groups: Groups::new() }
    }

    /// Every row of the link.
    pub(crate) fn dump(&self) -> Vec<String> {
        let mut out = Vec::new();
        self.dump_symbols(&mut out);
        self.dump_sections(&mut out);

        let signatures = self.groups.signatures();
        out.push(format!("groups {}", signatures.len()));
        for name in signatures {
            out.push(format!("group {}", form::name(&name.resolve())));
        }

        out.push(format!("inputs {}", self.object.inputs.len()));
        for input in &self.object.inputs {
            out.push(match &input.shared_object {
                None => "input object".into(),
                Some(library) => {
                    let names = |list: &[Interned<String>]| {
                        form::counted(list.iter().map(|name| form::name(&name.resolve())))
                    };
                    format!(
                        "input library {} {} {}",
                        form::name(&library.name.resolve()),
                        names(&library.dependencies),
                        names(&library.undefined_global_symbols)
                    )
                }
            });
        }
        out
    }

    fn dump_symbols(&self, out: &mut Vec<String>) {
        let symbols = &self.object.symbols;
        out.push(format!("symbols {}", symbols.rows().len()));
        for (id, row) in symbols.rows().enumerate() {
            out.push(match row {
                Some(symbol) => symbol_row(symbol),
                None => format!("symbol {id} removed"),
            });
        }

        out.push(format!("sectionsymbols {}", symbols.section_symbols().len()));
        for (section, symbol) in symbols.section_symbols() {
            out.push(format!("sectionsymbol {} {}", section.number(), symbol.number()));
        }

        let mut names: Vec<_> = symbols.global_names().iter().collect();
        names.sort_by_key(|(_, id)| **id);
        out.push(format!("globals {}", names.len()));
        for (name, id) in names {
            out.push(format!("global {} {}", form::name(&name.resolve()), id.number()));
        }
    }

    fn dump_sections(&self, out: &mut Vec<String>) {
        let rows: Vec<_> = self.object.sections.rows().collect();
        out.push(format!("sections {}", rows.len()));
        for (id, row) in rows.iter().enumerate() {
            out.push(match row {
                Row::Reserved => format!("section {id} reserved"),
                Row::Dropped(name) => {
                    format!("section {id} dropped {}", form::name(&name.resolve()))
                }
                Row::Built(section) => {
                    assert_eq!(section.id.number(), id as u64);
                    let (kind, read, relocations) = match &section.content {
                        SectionContent::Data(data) => (1, data.perms.read, &data.relocations[..]),
                        SectionContent::Uninitialized(uninit) => (2, uninit.perms.read, &[][..]),
                        other => panic!("oracle: never built: {other:?}"),
                    };
                    format!(
                        "section {id} built {} {kind} {} {} {}",
                        form::name(&section.name.resolve()),
                        section.retain as u8,
                        read as u8,
                        form::counted(relocations.iter().map(|one| one.symbol.number()))
                    )
                }
            });
        }
    }
}

pub(crate) fn symbol_row(symbol: &Symbol) -> String {
    let (class, hidden) = match symbol.visibility() {
        SymbolVisibility::Local => ("local", false),
        SymbolVisibility::Global { weak: false, hidden } => ("global", hidden),
        SymbolVisibility::Global { weak: true, hidden } => ("weak", hidden),
    };
    let kind = match symbol.type_() {
        SymbolType::NoType => 0,
        SymbolType::Object => 1,
        SymbolType::Function => 2,
        SymbolType::Section => 3,
    };
    let file = symbol.stt_file().map(|name| name.resolve());
    format!(
        "symbol {} {} {class} {} {kind} {} {}",
        symbol.id().number(),
        form::name(&symbol.name().resolve()),
        hidden as u8,
        form::optional_name(file.as_ref().map(|name| name.as_str())),
        value(symbol.value())
    )
}

fn value(value: SymbolValue) -> String {
    match value {
        SymbolValue::Null => "null".into(),
        SymbolValue::Absolute { value } => format!("abs {}", value.extract()),
        SymbolValue::Section { section } => format!("sec {}", section.number()),
        SymbolValue::SectionRelative { section, offset } => {
            let offset = offset.extract();
            let sign = if offset < 0 { '-' } else { '+' };
            format!("rel {} {sign} {}", section.number(), offset.unsigned_abs())
        }
        SymbolValue::SectionVirtualAddress { section, memory_address } => {
            format!("addr {} {}", section.number(), memory_address.extract())
        }
        SymbolValue::SectionNotLoaded => "notloaded".into(),
        SymbolValue::ExternallyDefined => "external".into(),
        SymbolValue::Undefined { default_zero } => format!("undef {}", default_zero as u8),
    }
}
