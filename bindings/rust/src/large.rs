//! Long objects, over the library norphuen_large. An object that does not fit a page is cut into parts, and a spine lists them.
use crate::{result_of, written, Class, Error, HeapTotals, Needed, RawHeap, CLOSED};

/// Names an object. It stays the same wherever the parts of the object move.
#[derive(Clone, Copy, Debug, PartialEq, Eq)]
pub struct Handle(pub u32);

/// An open heap.
pub struct Heap {
    raw: RawHeap,
}

#[rustfmt::skip]
unsafe extern "C" {
    fn nph_large_open(heap: *mut RawHeap, pages: u32, page_bytes: u32, proxies: u32) -> i32;
    fn nph_large_bytes_needed(pages: u32, page_bytes: u32, proxies: u32, needed: *mut Needed) -> i32;
    fn nph_large_close(heap: *mut RawHeap);
    fn nph_large_malloc(heap: *mut RawHeap, bytes: u32, handle: *mut u32) -> i32;
    fn nph_large_free(heap: *mut RawHeap, handle: u32) -> i32;
    fn nph_large_write(heap: *mut RawHeap, handle: u32, at: u32, bytes: *const u8, count: usize) -> i32;
    fn nph_large_read(heap: *mut RawHeap, handle: u32, at: u32, bytes: *mut u8, count: usize) -> i32;
    fn nph_large_length(heap: *mut RawHeap, handle: u32, bytes: *mut u32) -> i32;
    fn nph_large_figures(heap: *mut RawHeap, size_class: u32, figures: *mut Class) -> i32;
    fn nph_large_totals(heap: *mut RawHeap, totals: *mut HeapTotals) -> i32;
    fn nph_large_last_steps(heap: *mut RawHeap, steps: *mut u64) -> i32;
    fn nph_large_most_malloc(page_bytes: u32, bytes: u32) -> u64;
    fn nph_large_most_free(page_bytes: u32, bytes: u32) -> u64;
    fn nph_large_most_access(page_bytes: u32, at: u32, count: u32) -> u64;
    fn nph_large_version() -> u32;
}

/// The version of the library.
pub fn version() -> u32 {
    unsafe { nph_large_version() }
}

/// The most steps of a call, before it is made, in a heap with pages of `page_bytes` bytes.
pub mod most {
    /// Of `malloc` of `bytes` bytes.
    pub fn malloc(page_bytes: u32, bytes: u32) -> u64 {
        unsafe { super::nph_large_most_malloc(page_bytes, bytes) }
    }

    /// Of `free` of an object of `bytes` bytes.
    pub fn free(page_bytes: u32, bytes: u32) -> u64 {
        unsafe { super::nph_large_most_free(page_bytes, bytes) }
    }

    /// Of `read` or `write` of `count` bytes from byte `at` on.
    pub fn access(page_bytes: u32, at: u32, count: u32) -> u64 {
        unsafe { super::nph_large_most_access(page_bytes, at, count) }
    }
}

// Why the calls are safe: each gets an open heap, references that do not overlap, and slices with their lengths.
impl Heap {
    /// Opens a heap without objects; `page_bytes` are the bytes of a page. Parts and spines count as objects of the `proxies`.
    pub fn open(pages: u32, page_bytes: u32, proxies: u32) -> Result<Heap, Error> {
        let mut heap = Heap { raw: CLOSED };
        let code = unsafe { nph_large_open(&mut heap.raw, pages, page_bytes, proxies) };
        result_of(code, heap)
    }

    /// What `open` with these settings asks of `rattle_alloc`.
    pub fn bytes_needed(pages: u32, page_bytes: u32, proxies: u32) -> Result<Needed, Error> {
        written(|needed| unsafe { nph_large_bytes_needed(pages, page_bytes, proxies, needed) })
    }

    /// Makes an object of `bytes` zeros. Fails with `Size` if its spine does not fit a page.
    pub fn malloc(&mut self, bytes: u32) -> Result<Handle, Error> {
        written(|handle| unsafe { nph_large_malloc(&mut self.raw, bytes, handle) }).map(Handle)
    }

    /// Frees an object with all its parts.
    pub fn free(&mut self, object: Handle) -> Result<(), Error> {
        result_of(unsafe { nph_large_free(&mut self.raw, object.0) }, ())
    }

    /// Writes the bytes into an object, from its byte `at` on, across parts.
    pub fn write(&mut self, object: Handle, at: u32, bytes: &[u8]) -> Result<(), Error> {
        result_of(unsafe { nph_large_write(&mut self.raw, object.0, at, bytes.as_ptr(), bytes.len()) }, ())
    }

    /// Fills `bytes` with the bytes of an object, from its byte `at` on, across parts.
    pub fn read(&mut self, object: Handle, at: u32, bytes: &mut [u8]) -> Result<(), Error> {
        result_of(unsafe { nph_large_read(&mut self.raw, object.0, at, bytes.as_mut_ptr(), bytes.len()) }, ())
    }

    /// The length of an object in bytes.
    pub fn length(&mut self, object: Handle) -> Result<u32, Error> {
        written(|bytes| unsafe { nph_large_length(&mut self.raw, object.0, bytes) })
    }

    /// The figures of a size class, numbered from 0; none if there is no such class.
    pub fn figures(&mut self, size_class: u32) -> Option<Class> {
        written(|figures| unsafe { nph_large_figures(&mut self.raw, size_class, figures) }).ok()
    }

    /// The figures of the whole heap.
    pub fn totals(&mut self) -> HeapTotals {
        written(|totals| unsafe { nph_large_totals(&mut self.raw, totals) }).unwrap_or_default()
    }

    /// The steps of the last call that counts them: `malloc`, `free`, `write`, `read` and `totals`.
    pub fn last_steps(&mut self) -> u64 {
        written(|steps| unsafe { nph_large_last_steps(&mut self.raw, steps) }).unwrap_or_default()
    }
}

closed_by!(nph_large_close);
