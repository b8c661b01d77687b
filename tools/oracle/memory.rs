// Memory for the Rust. A damaged count makes it ask for up to 64 GiB at once, and where that is refused the process ends. So a
// request above LARGE is granted without backing and noted, and the call that made it is known by the note.
use std::alloc::{GlobalAlloc, Layout, System};
use std::sync::atomic::{AtomicBool, Ordering::Relaxed};

/// The allocator; a program that calls the Rust on damaged records takes it as its global one.
pub struct Memory;

const LARGE: usize = 1 << 30;

static ASKED: AtomicBool = AtomicBool::new(false);

impl Memory {
    /// Whether more than LARGE was asked for at once since the last time that this was called.
    pub fn was_large() -> bool {
        ASKED.swap(false, Relaxed)
    }
}

extern "C" {
    fn mmap(at: *mut u8, len: usize, prot: i32, flags: i32, fd: i32, offset: i64) -> *mut u8;
    fn munmap(at: *mut u8, len: usize) -> i32;
}

// Linux: read and write; private, anonymous, no reserve.
const READ_WRITE: i32 = 3;
const UNBACKED: i32 = 0x4022;

unsafe impl GlobalAlloc for Memory {
    #[inline]
    unsafe fn alloc(&self, layout: Layout) -> *mut u8 {
        if layout.size() <= LARGE {
            return System.alloc(layout);
        }
        ASKED.store(true, Relaxed);
        let p = mmap(std::ptr::null_mut(), layout.size(), READ_WRITE, UNBACKED, -1, 0);
        if p as isize == -1 {
            return std::ptr::null_mut();
        }
        p
    }

    #[inline]
    unsafe fn dealloc(&self, p: *mut u8, layout: Layout) {
        if layout.size() <= LARGE {
            System.dealloc(p, layout);
        } else {
            munmap(p, layout.size());
        }
    }

    #[inline]
    unsafe fn realloc(&self, p: *mut u8, layout: Layout, size: usize) -> *mut u8 {
        if layout.size() <= LARGE && size <= LARGE {
            return System.realloc(p, layout, size);
        }
        let new = self.alloc(Layout::from_size_align_unchecked(size, layout.align()));
        if !new.is_null() {
            std::ptr::copy_nonoverlapping(p, new, layout.size().min(size));
            self.dealloc(p, layout);
        }
        new
    }
}
