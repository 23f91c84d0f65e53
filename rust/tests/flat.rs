//! How much memory the listing of rides takes: the same for every long text, also one that is nothing but headers. This is a program of its own with one test,
//! since it counts what the whole program has.
use marks::{rides, rides_in};
use std::{
    alloc::{GlobalAlloc, Layout, System},
    sync::atomic::{AtomicUsize, Ordering::Relaxed},
};

/// The system's memory, counted: how much there is, and the most that there was.
struct Counted;

static HELD: AtomicUsize = AtomicUsize::new(0);
static MOST: AtomicUsize = AtomicUsize::new(0);

// SAFETY: all is handed on to the system's allocator as it is; `realloc` and `alloc_zeroed` are the trait's own, over these two.
unsafe impl GlobalAlloc for Counted {
    unsafe fn alloc(&self, layout: Layout) -> *mut u8 {
        MOST.fetch_max(HELD.fetch_add(layout.size(), Relaxed) + layout.size(), Relaxed);
        System.alloc(layout)
    }

    unsafe fn dealloc(&self, at: *mut u8, layout: Layout) {
        HELD.fetch_sub(layout.size(), Relaxed);
        System.dealloc(at, layout);
    }
}

#[global_allocator]
static COUNTED: Counted = Counted;

/// The most bytes that a run has at a time beside those that were there before.
fn most(run: impl FnOnce()) -> usize {
    let before = HELD.load(Relaxed);
    MOST.store(before, Relaxed);
    run();
    MOST.load(Relaxed) - before
}

#[test]
fn memory_is_flat_whatever_the_text() {
    let dense = b"\x0c\0.FIT".repeat(4_000_000);
    let count = dense.len() / 6 - 1;
    for text in [&dense[..], &vec![0; 20_000_000]] {
        let count = if text[0] == 0 { 0 } else { count };
        let of_text = most(|| assert_eq!(rides(text).count(), count));
        assert!(of_text <= 330 << 10, "{of_text} bytes");
        let of_source = most(|| assert_eq!(rides_in(text, text.len() as u64).count(), count));
        assert!(of_source <= 600 << 10, "{of_source} bytes");
    }
    let short = most(|| assert_eq!(rides(&dense[..600]).count(), 99));
    assert!(short <= 1_000, "{short} bytes");
}
