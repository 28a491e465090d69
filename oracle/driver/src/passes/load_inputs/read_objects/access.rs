//! A walk over an archive, step by step.
//!
//! `PendingArchive::new` makes the first pass, over the table as it stands then; document 01 makes
//! every pass at a call for the next member. So the struct is filled here as `new` fills it, and
//! `next` makes the first pass. (`ObjectsReader` calls `new` and `next` one after the other, over
//! the same table: a whole walk through it shows that nothing else differs.)
use super::*;
use crate::bench::Clock;
use cuddld_ar::Archive;
use std::time::Duration;

pub(in crate::passes::load_inputs) struct Steps {
    pending: PendingArchive<'static>,
    pub(in crate::passes::load_inputs) passes: u64,
    done: bool,
}

pub(in crate::passes::load_inputs) enum Step {
    Done,
    Member { offset: u64, requirements: Vec<ObjectRequirement> },
}

static OPTIONS: CliInputOptions = CliInputOptions { as_needed: false };

impl Steps {
    pub(in crate::passes::load_inputs) fn start(
        archive: Archive,
        symbols: &Symbols,
    ) -> Result<Self, ReadObjectsError> {
        let has_index = archive.index.is_some();
        let mut pending = PendingArchive {
            reader: ArReader::of(archive),
            path: PathBuf::from("archive"),
            pending_members: VecDeque::new(),
            loaded_members: HashSet::new(),
            options: &OPTIONS,
        };
        if !has_index {
            // The Rust's refusal of an archive without an index comes from a pass.
            pending.calculate_pending(symbols)?;
        }
        Ok(Steps { pending, passes: 0, done: false })
    }

    /// A pass is made exactly when nothing is queued. After "done" `ObjectsReader` throws the
    /// archive away, so it stays done.
    pub(in crate::passes::load_inputs) fn next(
        &mut self,
        symbols: &Symbols,
    ) -> Result<Step, ReadObjectsError> {
        if self.done {
            return Ok(Step::Done);
        }
        let makes_a_pass = self.pending.pending_members.is_empty();
        let next = self.pending.next(symbols)?;
        self.passes += makes_a_pass as u64;
        Ok(match next {
            Some((file, requirements)) => {
                Step::Member { offset: file.name.parse().expect("an offset"), requirements }
            }
            None => {
                self.done = true;
                Step::Done
            }
        })
    }
}

/// The time of `PendingArchive::new` over an opened file, if it finds something to offer.
pub(in crate::passes::load_inputs) fn time_new(
    archive: &std::path::Path,
    symbols: &Symbols,
) -> Result<Option<Duration>, ReadObjectsError> {
    let file = BufReader::new(File::open(archive).expect("the archive"));
    let path = archive.to_path_buf();
    let start = Clock::start();
    let pending = PendingArchive::new(path, file, symbols, &OPTIONS)?;
    let time = start.elapsed();
    Ok(pending.map(|_| time))
}

/// Shows what document 01 does otherwise (see differences.rs).
pub(in crate::passes::load_inputs) fn new_is_empty(
    archive: &std::path::Path,
    symbols: &Symbols,
) -> bool {
    let file = BufReader::new(File::open(archive).expect("the archive"));
    let pending = PendingArchive::new(archive.into(), file, symbols, &OPTIONS);
    pending.expect("an archive with an index").is_none()
}

impl Steps {
    /// `PendingArchive::next` whether it was done or not.
    pub(in crate::passes::load_inputs) fn next_though_done(
        &mut self,
        symbols: &Symbols,
    ) -> Result<Step, ReadObjectsError> {
        self.done = false;
        self.next(symbols)
    }
}
