//! What takes no memory. The library's own requests are counted by `bindings/c/refused_memory.c`.
#![allow(unsafe_code)] // the allocator that counts
use histar::{label, Entry, Kernel, Object, Refusal};
use std::alloc::{GlobalAlloc, Layout, System};
use std::sync::atomic::{AtomicU64, Ordering};

static REQUESTS: AtomicU64 = AtomicU64::new(0);

struct Counting;

// SAFETY: each request goes to the system's allocator as it is.
unsafe impl GlobalAlloc for Counting {
    unsafe fn alloc(&self, layout: Layout) -> *mut u8 {
        REQUESTS.fetch_add(1, Ordering::SeqCst);
        unsafe { System.alloc(layout) }
    }

    unsafe fn dealloc(&self, place: *mut u8, layout: Layout) {
        unsafe { System.dealloc(place, layout) }
    }
}

#[global_allocator]
static COUNTING: Counting = Counting;

/// How many requests for memory this makes.
fn requests(work: impl FnOnce()) -> u64 {
    let before = REQUESTS.load(Ordering::SeqCst);
    work();
    REQUESTS.load(Ordering::SeqCst) - before
}

#[test]
fn reads_and_writes_take_no_memory() {
    let kernel = Kernel::boot(64).unwrap();
    let boot = kernel.session();
    let plain = label! { L1 };
    let entry = Entry::in_root(boot.segment_create(Object::ROOT, &plain, 2, 1).unwrap());
    let none = requests(|| {
        for offset in 0..192 {
            boot.segment_write(entry, offset, &[7; 64]).unwrap();
            assert_eq!(boot.segment_read(entry, offset, 64).unwrap(), [7; 64]);
            assert_eq!(boot.segment_read(entry, 300, 64).unwrap_err().reason, Refusal::Bounds);
        }
    });
    assert_eq!(none, 0);
    // (a label that is answered has pairs of its own, and takes some: so requests are counted)
    boot.cat_create().unwrap();
    assert!(requests(|| drop(boot.self_get().unwrap())) > 0);
}
