//! A lookup that is refused allocates nothing; its text is made when it is asked for.
use hidvorn::*;
use std::alloc::{GlobalAlloc, Layout, System};
use std::cell::Cell;

struct Counting;

thread_local! {
    static ALLOCATED: Cell<usize> = const { Cell::new(0) };
}

// SAFETY: each call is handed on to the system's allocator as it came.
unsafe impl GlobalAlloc for Counting {
    unsafe fn alloc(&self, layout: Layout) -> *mut u8 {
        ALLOCATED.set(ALLOCATED.get() + 1);
        unsafe { System.alloc(layout) }
    }

    unsafe fn dealloc(&self, memory: *mut u8, layout: Layout) {
        unsafe { System.dealloc(memory, layout) }
    }
}

#[global_allocator]
static ALLOCATOR: Counting = Counting;

/// The number of a lookup's refusal, and how often memory was asked for by it.
fn looked_up(link: &Link, name: Interned) -> (u64, usize) {
    let before = ALLOCATED.get();
    let number = link.get_global(name).map_or_else(|refused| refused.number(), |_| 0);
    (number, ALLOCATED.get() - before)
}

#[test]
fn refused_lookups_allocate_nothing() {
    let mut link = Link::new();
    let name = link.intern(b"mute").unwrap();
    assert_eq!(looked_up(&link, name), (23, 0));
    let id = link.add(UpcomingSymbol::GlobalUnknown { name }).unwrap();
    assert_eq!(looked_up(&link, name), (0, 0));
    link.remove(id).unwrap();
    assert_eq!(looked_up(&link, name), (21, 0));

    let refused = link.get_global(name).unwrap_err();
    let text = "absent or removed id, or section never built, place 1, name `mute` (refusal 21)";
    let before = ALLOCATED.get();
    assert_eq!(refused.to_string(), text);
    assert!(ALLOCATED.get() > before);
    let boxed = || -> Result<Symbol, Box<dyn std::error::Error>> { Ok(link.get_global(name)?) };
    assert_eq!(boxed().unwrap_err().to_string(), text);
    assert_eq!(Refusal::from(refused).about, Some(Box::new(About::Name(b"mute".to_vec()))));
}
