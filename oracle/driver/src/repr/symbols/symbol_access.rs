//! Sets the flag by which a symbol becomes a root of a collection. The Rust only ever sets it; the
//! oracle's collections come each with their own marks.
use super::*;

impl Symbol {
    pub(crate) fn set_needed_by_dynamic(&mut self, needed: bool) {
        self.needed_by_dynamic = needed;
    }
}
