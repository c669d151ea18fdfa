//! A registry that writes a recording or a journal stores nothing of its calls. The memory of this
//! program is counted, so no other test runs in it.

use failreg::{Recorder, Registry};
use std::alloc::{GlobalAlloc, Layout, System};
use std::io;
use std::sync::atomic::{AtomicUsize, Ordering};

struct Counting;

/// How many bytes are in use.
static IN_USE: AtomicUsize = AtomicUsize::new(0);

// SAFETY: what it gives is what the system gave.
unsafe impl GlobalAlloc for Counting {
    unsafe fn alloc(&self, layout: Layout) -> *mut u8 {
        IN_USE.fetch_add(layout.size(), Ordering::Relaxed);
        // SAFETY: the caller's layout.
        unsafe { System.alloc(layout) }
    }

    unsafe fn dealloc(&self, there: *mut u8, layout: Layout) {
        IN_USE.fetch_sub(layout.size(), Ordering::Relaxed);
        // SAFETY: it is from the system, with this layout.
        unsafe { System.dealloc(there, layout) }
    }
}

#[global_allocator]
static ALLOCATOR: Counting = Counting;

fn in_use_after(node: &Registry, passes: u32) -> usize {
    std::thread::scope(|scope| {
        for _ in 0..4 {
            scope.spawn(|| (0..passes / 4).for_each(|_| drop(node.pass("p").unwrap())));
        }
    });
    IN_USE.load(Ordering::Relaxed)
}

fn keeps_nothing(node: &Registry) {
    node.set("p", "50%10*return(x)->1%sleep(1)->off").unwrap();
    let early = in_use_after(node, 4_000);
    let late = in_use_after(node, 100_000);
    assert!(
        late < early + 4096,
        "{early} bytes after 4,000 passes, then {late}"
    );
}

#[test]
fn a_registry_that_writes_keeps_no_call() {
    let recorder = Recorder::new(io::sink());
    keeps_nothing(&Registry::builder().recording_to(&recorder).build().unwrap());
    let path = concat!(env!("CARGO_TARGET_TMPDIR"), "/part_of_much");
    _ = std::fs::remove_file(path);
    let open = || Registry::builder().recording(path).build().unwrap();
    let before = IN_USE.load(Ordering::Relaxed);
    keeps_nothing(&open());
    // Nor does one that resumes from its journal.
    let node = open();
    let after = IN_USE.load(Ordering::Relaxed);
    assert!(after < before + 16_384, "{before} bytes, then {after}");
    assert_eq!(node.calls().unwrap(), 104_001);
    keeps_nothing(&node);
}
