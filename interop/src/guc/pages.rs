//! Memory between two pages that nobody may touch, flush with one of them: the
//! archive dies if it so much as reads outside what it was lent.

use std::ffi::c_void;

extern "C" {
    fn mmap(at: *mut c_void, len: usize, prot: i32, flags: i32, fd: i32, off: i64) -> *mut c_void;
    fn mprotect(at: *mut c_void, len: usize, prot: i32) -> i32;
    fn munmap(at: *mut c_void, len: usize) -> i32;
}

const PAGE: usize = 4096;
const NONE: i32 = 0;
const READ_WRITE: i32 = 3;
const PRIVATE_ANONYMOUS: i32 = 0x22;

/// A slice between two such pages.
#[derive(Debug)]
pub struct Pages<T> {
    base: *mut c_void,
    bytes: usize,
    first: *mut T,
    count: usize,
}

impl<T: Copy> Pages<T> {
    /// A copy of the slice, its end flush with the upper page or its start with
    /// the lower one. None if the system has no memory for it.
    pub fn new(contents: &[T], at_end: bool) -> Option<Pages<T>> {
        let wanted = std::mem::size_of_val(contents);
        let inner = (wanted + PAGE - 1) / PAGE * PAGE;
        let bytes = inner + 2 * PAGE;
        // A mapping of `bytes`, of which the middle `inner` may be used.
        let base = unsafe { mmap(std::ptr::null_mut(), bytes, NONE, PRIVATE_ANONYMOUS, -1, 0) };
        if base as isize == -1 {
            return None;
        }
        let skip = PAGE + if at_end { inner - wanted } else { 0 };
        let first = base.cast::<u8>().wrapping_add(skip).cast::<T>();
        let usable = base.cast::<u8>().wrapping_add(PAGE);
        let pages = Pages { base, bytes, first, count: contents.len() };
        let opened = unsafe { mprotect(usable.cast(), inner, READ_WRITE) };
        if inner > 0 && opened != 0 {
            return None;
        }
        // `first` is aligned: a type's size is a multiple of its alignment, and
        // the end and the start are page-aligned.
        unsafe { first.copy_from_nonoverlapping(contents.as_ptr(), contents.len()) };
        Some(pages)
    }

    pub fn get(&self) -> &[T] {
        // All `count` values were written by `new`, and the mapping is ours.
        unsafe { std::slice::from_raw_parts(self.first, self.count) }
    }

    pub fn get_mut(&mut self) -> &mut [T] {
        unsafe { std::slice::from_raw_parts_mut(self.first, self.count) }
    }
}

impl<T> Drop for Pages<T> {
    fn drop(&mut self) {
        unsafe { munmap(self.base, self.bytes) };
    }
}
