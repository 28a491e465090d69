//! What this port is compared with: the Rust for links of the old profile, the plain reading of the
//! documents for those of the gABI profile and those with commons, which the Rust doesn't have.
use crate::announced::Announced;
use crate::form::Fault;
use crate::machine::Machine;
use crate::model::{Model, Seen};

pub struct Reference {
    pub(crate) machine: Machine,
    model: Model,
    /// The link is of the gABI profile, or has commons.
    read: bool,
}

/// Whether a line begins a link.
pub fn begins(line: &str) -> bool {
    line == "link" || line.starts_with("link ")
}

impl Reference {
    #[allow(clippy::new_without_default)]
    pub fn new() -> Self {
        Reference { machine: Machine::new(), model: Model::new(), read: false }
    }

    /// The answers to a line, without their `> `.
    pub fn line(&mut self, line: &str) -> Result<Vec<String>, Fault> {
        if begins(line) {
            self.read = line != "link";
        }
        if line.starts_with("conversion") {
            // It outlives the link.
            self.model.line(line)?;
            return self.machine.line(line);
        }
        if self.read { self.model.line(line) } else { self.machine.line(line) }
    }

    /// What the gABI profile was tried on.
    pub fn seen(&self) -> Seen {
        self.model.seen()
    }

    pub(crate) fn rows(&self) -> &Announced {
        if self.read { self.model.rows() } else { &self.machine.rows }
    }

    /// How many rows of symbols and of sections the link has.
    pub(crate) fn counts(&self) -> (u64, u64) {
        if self.read {
            return self.model.counts();
        }
        let object = &self.machine.link.object;
        (object.symbols.rows().len() as u64, object.sections.rows().count() as u64)
    }
}
