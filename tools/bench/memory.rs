//! Memory for inputs and answers: whole and in large pages, so that page tables have no part in what is measured.

use std::alloc::{alloc, dealloc, Layout};
use std::ops::{Deref, DerefMut};

const PAGE: usize = 2 * 1024 * 1024;
const MADV_HUGEPAGE: i32 = 14;

extern "C" {
    fn madvise(start: *mut u8, len: usize, advice: i32) -> i32;
}

pub struct Memory {
    start: *mut u8,
    len: usize,
}

fn layout(len: usize) -> Layout {
    Layout::from_size_align(len.next_multiple_of(PAGE), PAGE).unwrap()
}

impl Memory {
    /// So many bytes, written once, so that each has its page.
    pub fn new(len: usize) -> Memory {
        let layout = layout(len);
        let start = unsafe { alloc(layout) };
        assert!(!start.is_null());
        // Where the system has no large pages to give, the memory comes in small ones.
        unsafe { madvise(start, layout.size(), MADV_HUGEPAGE) };
        unsafe { start.write_bytes(1, layout.size()) };
        Memory { start, len }
    }

    pub fn holding(bytes: &[u8]) -> Memory {
        let mut memory = Memory::new(bytes.len());
        memory.copy_from_slice(bytes);
        memory
    }
}

impl Deref for Memory {
    type Target = [u8];

    fn deref(&self) -> &[u8] {
        unsafe { std::slice::from_raw_parts(self.start, self.len) }
    }
}

impl DerefMut for Memory {
    fn deref_mut(&mut self) -> &mut [u8] {
        unsafe { std::slice::from_raw_parts_mut(self.start, self.len) }
    }
}

impl Drop for Memory {
    fn drop(&mut self) {
        unsafe { dealloc(self.start, layout(self.len)) };
    }
}
