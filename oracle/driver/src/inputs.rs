//! Merges, loads, archives and collections.
use crate::form::{self, Fault};
use crate::machine::Machine;
use crate::passes::gc_sections;
use crate::passes::load_inputs::{self, ArchiveWalk, Offer};
use crate::refusal::{self, guarded, refusal};
use crate::repr::symbols::SymbolId;
use cuddld_diagnostics::ObjectSpan;
use cuddld_elf::Stored;
use std::path::PathBuf;
use std::sync::atomic::{AtomicU64, Ordering};

impl Machine {
    pub(crate) fn merge(&mut self) -> Result<String, Fault> {
        let elf = self.rows.object.elf()?;
        let link = &mut self.link;
        let call = || {
            let source = ObjectSpan::new_synthetic();
            load_inputs::merge(&mut link.object, &mut link.groups, elf, source)
        };
        Ok(match guarded(call) {
            Ok(Ok(())) => "merged".into(),
            Ok(Err(error)) => refusal::of_merge(&error).to_string(),
            Err(number) => refusal::of_merge_panic(number).to_string(),
        })
    }

    pub(crate) fn load(&mut self) -> String {
        let rows = &self.rows.library;
        let object = &mut self.link.object;
        let inputs = object.inputs.len();
        let call = || load_inputs::load(object, rows.library(), rows.file.clone(), rows.as_needed);
        match guarded(call) {
            // The Rust answers the same; a loaded library has an input's row.
            Ok(Ok(())) if self.link.object.inputs.len() > inputs => "loaded".into(),
            Ok(Ok(())) => "notneeded".into(),
            Ok(Err(error)) => refusal::of_load(&error).to_string(),
            Err(number) => refusal::of_load_panic(number).to_string(),
        }
    }

    pub(crate) fn start(&mut self) -> Result<String, Fault> {
        if self.rows.indexes.is_some() {
            return Err("the Rust walks one archive".into());
        }
        let archive = self.rows.archive.archive()?;
        self.walk = None;
        self.required = None;
        Ok(match guarded(|| ArchiveWalk::start(archive, &self.link.object.symbols)) {
            Ok(Ok(walk)) => {
                self.walk = Some(walk);
                "started".into()
            }
            Ok(Err(error)) => refusal::of_walk(&error).to_string(),
            Err(number) => return Err(format!("refusal {number} at a start")),
        })
    }

    pub(crate) fn next(&mut self) -> Result<String, Fault> {
        let walk = self.walk.as_mut().ok_or("no walk was started")?;
        let symbols = &self.link.object.symbols;
        Ok(match guarded(|| walk.next(symbols)) {
            Ok(Ok(Some((offset, required)))) => {
                let names = required.names();
                let names = names.iter().map(|name| form::name(&name.resolve()));
                let answer = format!("member {offset} {} {}", walk.passes(), form::counted(names));
                self.required = Some(required);
                answer
            }
            Ok(Ok(None)) => format!("done {}", walk.passes()),
            Ok(Err(error)) => refusal::of_walk(&error).to_string(),
            Err(number) => refusal(number, trace::seen().entry).to_string(),
        })
    }

    pub(crate) fn admit(&self) -> Result<String, Fault> {
        let required = self.required.as_ref().ok_or("nothing is required")?;
        Ok(if required.admits(&self.rows.object.elf()?) { "yes".into() } else { "no".into() })
    }

    pub(crate) fn walk(&mut self) -> Result<Vec<String>, Fault> {
        let mut archive = self.rows.archive.archive()?;
        for (offset, rows) in &self.rows.archive.members {
            let bytes = cuddld_elf::shelve(Stored::Object(rows.elf()?));
            archive.members.insert(*offset as u32, bytes);
        }
        let file = TemporaryFile::new(&cuddld_ar::shelve(archive))?;

        let mut answers: Vec<String> = Vec::new();
        let mut offered = None;
        let mut refused = false;
        let mut tell = |offer: Offer| match offer {
            Offer::Offered(offset) => offered = Some(offset),
            Offer::NotAdmitted => answers.push(format!("offer {} no", offered.take().unwrap())),
            Offer::Merged => answers.push(format!("offer {} merged", offered.take().unwrap())),
            Offer::Refused(error) => {
                let error = refusal::of_merge(&error);
                answers.push(format!("offer {} {error}", offered.take().unwrap()));
                refused = true;
            }
        };
        let link = &mut self.link;
        let call = || load_inputs::walk(&mut link.object, &mut link.groups, &file.path, &mut tell);
        match guarded(call) {
            Ok(Ok(())) if refused => {}
            Ok(Ok(())) => answers.push("done".into()),
            Ok(Err(error)) => answers.push(refusal::of_walk(&error).to_string()),
            Err(number) => answers.push(match offered {
                Some(offset) => format!("offer {offset} {}", refusal::of_merge_panic(number)),
                None => refusal(number, trace::seen().entry).to_string(),
            }),
        }
        Ok(answers)
    }

    pub(crate) fn collect(&mut self, entry: Option<u64>, marks: &[u8]) -> Result<String, Fault> {
        let object = &mut self.link.object;
        let present: Vec<_> =
            object.symbols.rows().map(|row| row.map(|symbol| symbol.id())).collect();
        if marks.len() < present.len() {
            return Err("fewer marks than symbol rows".into());
        }
        for id in present.into_iter().flatten() {
            let marked = marks[id.number() as usize] != 0;
            object.symbols.get_mut(id).set_needed_by_dynamic(marked);
        }
        object.entry_point = entry.map(SymbolId::of);
        Ok(match guarded(|| gc_sections::run(object)) {
            Ok(dropped) => {
                let names = dropped.iter().map(|section| form::name(&section.name.resolve()));
                format!("dropped {}", form::counted(names))
            }
            // The Rust meets some unbuilt section first; document 01 gives the lowest.
            Err(number) => refusal(number, None).to_string(),
        })
    }
}

/// `ObjectsReader` opens files, so the archive that it is to walk must be one.
pub(crate) struct TemporaryFile {
    pub(crate) path: PathBuf,
}

impl TemporaryFile {
    pub(crate) fn new(bytes: &[u8]) -> Result<Self, Fault> {
        static COUNT: AtomicU64 = AtomicU64::new(0);
        let count = COUNT.fetch_add(1, Ordering::Relaxed);
        let name = format!("oracle-{}-{count}", std::process::id());
        let path = std::env::temp_dir().join(name);
        std::fs::write(&path, bytes).map_err(|error| error.to_string())?;
        Ok(TemporaryFile { path })
    }
}

impl Drop for TemporaryFile {
    fn drop(&mut self) {
        let _ = std::fs::remove_file(&self.path);
    }
}
