//! Memory as a host lends it, between inaccessible pages: what touches a byte outside of it ends the process.

use std::ffi::{c_int, c_long, c_void};

extern "C" {
    fn mmap(
        address: *mut c_void,
        length: usize,
        protection: c_int,
        flags: c_int,
        file: c_int,
        offset: c_long,
    ) -> *mut c_void;
    fn mprotect(address: *mut c_void, length: usize, protection: c_int) -> c_int;
    fn munmap(address: *mut c_void, length: usize) -> c_int;
}

// Of Linux on x86-64, as the archive is.
const NONE: c_int = 0;
const READ: c_int = 1;
const READ_WRITE: c_int = 3;
const PRIVATE_ANONYMOUS_UNRESERVED: c_int = 0x4022;
const FAILED: usize = usize::MAX;
const PAGE: usize = 4096;

/// What stands in the accessible bytes around the lent ones.
const AROUND: u8 = 0xc3;

/// Where lent bytes lie in their pages: from the first byte of a page, or up to the last one.
#[derive(Clone, Copy, Debug, PartialEq, Eq)]
pub enum Edge {
    Start,
    End,
}

/// Lent bytes, of which none is accessible beyond the pages that they lie in.
pub struct Lent {
    map: *mut u8,
    /// Accessible pages; there is an inaccessible one before them, and at least one behind them.
    pages: usize,
    mapped: usize,
    /// Where the lent bytes start among the accessible ones.
    start: usize,
    length: usize,
}

impl Lent {
    /// Lends these bytes.
    pub fn new(bytes: &[u8], edge: Edge) -> Lent {
        let pages = bytes.len().div_ceil(PAGE).max(1);
        let start = match edge {
            Edge::Start => 0,
            Edge::End => pages * PAGE - bytes.len(),
        };
        let mut lent = Lent::map(pages, 2 + pages, start, bytes.len());
        lent.accessible_mut().fill(AROUND);
        lent.accessible_mut()[start..start + bytes.len()].copy_from_slice(bytes);
        lent
    }

    /// Lends so many bytes of which only the first pages are accessible; these hold `bytes` first.
    pub fn vast(bytes: &[u8], length: usize) -> Lent {
        let pages = bytes.len().div_ceil(PAGE).max(1);
        assert!(pages * PAGE < length);
        let mut lent = Lent::map(pages, 2 + length.div_ceil(PAGE), 0, length);
        lent.accessible_mut().fill(AROUND);
        lent.accessible_mut()[..bytes.len()].copy_from_slice(bytes);
        lent
    }

    fn map(pages: usize, pages_in_all: usize, start: usize, length: usize) -> Lent {
        let mapped = pages_in_all * PAGE;
        // A fresh mapping of our own, whose middle alone is made accessible.
        let map = unsafe { mmap(std::ptr::null_mut(), mapped, NONE, PRIVATE_ANONYMOUS_UNRESERVED, -1, 0) };
        assert!(map as usize != FAILED, "no memory is mapped");
        let lent = Lent { map: map.cast(), pages, mapped, start, length };
        lent.protect(READ_WRITE);
        lent
    }

    /// Lets the bytes be read and no longer written.
    pub fn read_only(self) -> Lent {
        self.protect(READ);
        self
    }

    fn protect(&self, protection: c_int) {
        // The accessible pages of our mapping.
        let done = unsafe { mprotect(self.map.add(PAGE).cast(), self.pages * PAGE, protection) };
        assert_eq!(done, 0, "the protection of pages is not changed");
    }

    /// What a call is lent. A pointer with no bytes is null where it lies at a start, so that both kinds are met.
    pub fn pointer(&self) -> *mut u8 {
        if self.length == 0 && self.start == 0 {
            return std::ptr::null_mut();
        }
        // Within our mapping.
        unsafe { self.map.add(PAGE + self.start) }
    }

    pub fn len(&self) -> usize {
        self.length
    }

    pub fn is_empty(&self) -> bool {
        self.length == 0
    }

    /// The lent bytes, as far as they are accessible.
    pub fn bytes(&self) -> &[u8] {
        let end = (self.start + self.length).min(self.pages * PAGE);
        &self.accessible()[self.start..end]
    }

    /// Whether the bytes around the lent ones are as they were.
    pub fn around_untouched(&self) -> bool {
        let (before, rest) = self.accessible().split_at(self.start);
        before.iter().chain(&rest[self.length.min(rest.len())..]).all(|&byte| byte == AROUND)
    }

    fn accessible(&self) -> &[u8] {
        // The accessible pages of our mapping; nobody writes them while they are borrowed.
        unsafe { std::slice::from_raw_parts(self.map.add(PAGE), self.pages * PAGE) }
    }

    fn accessible_mut(&mut self) -> &mut [u8] {
        // As above, and only called while the pages may be written.
        unsafe { std::slice::from_raw_parts_mut(self.map.add(PAGE), self.pages * PAGE) }
    }
}

impl Drop for Lent {
    fn drop(&mut self) {
        // Our own mapping, which nobody borrows any more.
        unsafe { munmap(self.map.cast(), self.mapped) };
    }
}
