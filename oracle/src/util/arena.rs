//! Allocation that takes next to no time, to tell what the Rust's work takes without it. While a run
//! goes by `free`, memory is cut off one stretch, from its front to its end, and nothing is given back;
//! the next run begins at the front again. At all other times it is the system's allocator.

use std::alloc::{GlobalAlloc, Layout, System};
use std::ptr;
use std::sync::atomic::{AtomicBool, AtomicPtr, AtomicUsize, Ordering::Relaxed};

/// More than the largest view takes in all; past it the system's allocator answers.
const SIZE: usize = 64 << 20;
const ALIGN: usize = 4_096;

static ON: AtomicBool = AtomicBool::new(false);
static STRETCH: AtomicPtr<u8> = AtomicPtr::new(ptr::null_mut());
static NEXT: AtomicUsize = AtomicUsize::new(0);

struct Arena;

#[global_allocator]
static ALLOCATOR: Arena = Arena;

/// Runs the call. Nothing that it allocates may be left when it ends, and only one thread may allocate.
pub fn free(call: impl FnOnce() -> u64) -> u64 {
    if STRETCH.load(Relaxed).is_null() {
        let layout = Layout::from_size_align(SIZE, ALIGN).expect("a power of two");
        // SAFETY: the layout has a size.
        STRETCH.store(unsafe { System.alloc_zeroed(layout) }, Relaxed);
        assert!(!STRETCH.load(Relaxed).is_null(), "64 MB");
    }
    NEXT.store(0, Relaxed);
    ON.store(true, Relaxed);
    let answer = call();
    ON.store(false, Relaxed);
    answer
}

/// Where memory lies in the stretch, if it does.
fn place(memory: *mut u8) -> Option<usize> {
    let front = STRETCH.load(Relaxed);
    let at = memory.addr().wrapping_sub(front.addr());
    (!front.is_null() && at < SIZE).then_some(at)
}

// SAFETY: what is cut off the stretch is aligned, inside it, and cut off once in a run; all else is the
// system's, and what is given back goes where it came from.
unsafe impl GlobalAlloc for Arena {
    unsafe fn alloc(&self, layout: Layout) -> *mut u8 {
        if ON.load(Relaxed) {
            let at = NEXT.load(Relaxed).next_multiple_of(layout.align());
            if layout.align() <= ALIGN && at + layout.size() <= SIZE {
                NEXT.store(at + layout.size(), Relaxed);
                return unsafe { STRETCH.load(Relaxed).add(at) };
            }
        }
        unsafe { System.alloc(layout) }
    }

    unsafe fn alloc_zeroed(&self, layout: Layout) -> *mut u8 {
        if !ON.load(Relaxed) {
            return unsafe { System.alloc_zeroed(layout) };
        }
        let memory = unsafe { self.alloc(layout) };
        if !memory.is_null() {
            unsafe { ptr::write_bytes(memory, 0, layout.size()) };
        }
        memory
    }

    unsafe fn dealloc(&self, memory: *mut u8, layout: Layout) {
        if place(memory).is_none() {
            unsafe { System.dealloc(memory, layout) };
        }
    }

    unsafe fn realloc(&self, memory: *mut u8, layout: Layout, size: usize) -> *mut u8 {
        match place(memory) {
            None if !ON.load(Relaxed) => return unsafe { System.realloc(memory, layout, size) },
            // The last one cut off grows where it is.
            Some(at) if at + layout.size() == NEXT.load(Relaxed) && at + size <= SIZE => {
                NEXT.store(at + size, Relaxed);
                return memory;
            }
            _ => {}
        }
        unsafe {
            let more = self.alloc(Layout::from_size_align_unchecked(size, layout.align()));
            if !more.is_null() {
                ptr::copy_nonoverlapping(memory, more, layout.size().min(size));
                self.dealloc(memory, layout);
            }
            more
        }
    }
}
