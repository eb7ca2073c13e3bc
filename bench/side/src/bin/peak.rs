//! peak FILE: the most memory, in bytes, that is in use at once in each library's two entries, beside the field itself. For Gussetraft it is
//! what the caller lends; for the unchanged Rust it is counted, its own distances included.

use side::{
    measured::read_level,
    run::{self, Entries},
};
use std::{
    alloc::{GlobalAlloc, Layout, System},
    cell::Cell,
    env,
    sync::atomic::{AtomicUsize, Ordering::Relaxed},
};

/// The system's allocator, counted.
struct Counted;

static IN_USE: AtomicUsize = AtomicUsize::new(0);
static PEAK: AtomicUsize = AtomicUsize::new(0);

// SAFETY: each call is the system's own.
unsafe impl GlobalAlloc for Counted {
    unsafe fn alloc(&self, layout: Layout) -> *mut u8 {
        let now = IN_USE.fetch_add(layout.size(), Relaxed) + layout.size();
        PEAK.fetch_max(now, Relaxed);
        unsafe { System.alloc(layout) }
    }

    unsafe fn dealloc(&self, block: *mut u8, layout: Layout) {
        IN_USE.fetch_sub(layout.size(), Relaxed);
        unsafe { System.dealloc(block, layout) }
    }
}

#[global_allocator]
static COUNTED: Counted = Counted;

fn main() {
    let path = env::args().nth(1).expect("peak FILE");
    let case = read_level(&path);
    let before = Cell::new(0);
    run::rust(&case, Entries::Both, |number| {
        if number == 900 {
            before.set(IN_USE.load(Relaxed));
            PEAK.store(before.get(), Relaxed);
        }
    });
    let counted = PEAK.load(Relaxed) - before.get();
    let n = case.field.spans();
    let lent = 2 * (3 * n + gussetraft::workspace_len(n));
    println!("{lent} {counted}");
}
