//! The names of the process: the Rust's outlive a link.
use super::*;

pub(crate) fn is_issued(name: &str) -> bool {
    String::interner().state.lock().expect("the names").mapping.contains_key(name)
}

/// For a measurement that begins with no names. No link may be used after it.
pub(crate) fn forget_all() {
    fn forget<T: Internable>() {
        let mut state = T::interner().state.lock().expect("the names");
        state.data = Vec::new();
        state.mapping = BTreeMap::new();
    }
    forget::<String>();
    forget::<ObjectSpan>();
}
