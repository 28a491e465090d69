//! Stand-in: where an object came from, and messages that nobody prints here.
use std::path::{Path, PathBuf};

pub mod widgets;

#[derive(Debug, Clone, PartialEq, Eq, PartialOrd, Ord)]
pub enum ObjectSpan {
    Synthetic,
    File(PathBuf),
    ArchiveMember { archive: PathBuf, member: String },
}

impl ObjectSpan {
    pub fn new_synthetic() -> Self {
        ObjectSpan::Synthetic
    }

    pub fn new_file(path: &Path) -> Self {
        ObjectSpan::File(path.into())
    }

    pub fn new_archive_member(archive: &Path, member: &str) -> Self {
        ObjectSpan::ArchiveMember { archive: archive.into(), member: member.into() }
    }
}

pub trait DiagnosticContext {}

pub struct GatheredContext<'a> {
    pub contexts: Vec<&'a dyn DiagnosticContext>,
}

pub enum DiagnosticKind {
    Error,
}

pub struct Diagnostic {
    pub kind: DiagnosticKind,
    pub title: String,
    pub widgets: Vec<Box<dyn widgets::Widget>>,
}

impl Diagnostic {
    pub fn new(kind: DiagnosticKind, title: impl Into<String>) -> Self {
        Diagnostic { kind, title: title.into(), widgets: Vec::new() }
    }

    pub fn add(mut self, widget: impl widgets::Widget + 'static) -> Self {
        self.widgets.push(Box::new(widget));
        self
    }

    pub fn add_iter<W: widgets::Widget + 'static>(
        mut self,
        widgets: impl IntoIterator<Item = W>,
    ) -> Self {
        for widget in widgets {
            self.widgets.push(Box::new(widget));
        }
        self
    }
}

pub trait DiagnosticBuilder {
    fn build(&self, ctx: &GatheredContext<'_>) -> Diagnostic;
}
