//! Memory for an image: whole pages, zero at first, with nothing behind them until they are touched.

use std::ops::{Deref, DerefMut};

pub const PAGE: usize = 4096;

extern "C" {
    fn mmap(at: *mut u8, len: usize, access: i32, kind: i32, file: i32, offset: i64) -> *mut u8;
    fn munmap(at: *mut u8, len: usize) -> i32;
}

/// The bytes of a device. An HDD of 64 GiB fits: no memory is reserved (private, anonymous, not reserved).
pub struct Image {
    at: *mut u8,
    len: usize,
}

impl Image {
    pub fn new(pages: usize) -> Image {
        let len = PAGE * pages;
        let at = unsafe { mmap(std::ptr::null_mut(), len, 3, 0x4022, -1, 0) };
        assert!(at as isize != -1, "no address space");
        Image { at, len }
    }

    /// Writes to every page, so that no later store is the first.
    pub fn touch(&mut self) {
        self.chunks_mut(PAGE).for_each(|page| page[0] = 0);
    }
}

impl Deref for Image {
    type Target = [u8];
    fn deref(&self) -> &[u8] {
        unsafe { std::slice::from_raw_parts(self.at, self.len) }
    }
}

impl DerefMut for Image {
    fn deref_mut(&mut self) -> &mut [u8] {
        unsafe { std::slice::from_raw_parts_mut(self.at, self.len) }
    }
}

impl PartialEq for Image {
    fn eq(&self, other: &Image) -> bool {
        self[..] == other[..]
    }
}

impl Drop for Image {
    fn drop(&mut self) {
        unsafe { munmap(self.at, self.len) };
    }
}
