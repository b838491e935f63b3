//! Frees in slices, over the library norphuen_sliced. A free leaves its long work as a job, and `Heap::step` does a slice of it.
use crate::{handle_of, result_of, written, Class, Error, HeapTotals, Loan, Needed, RawHeap, CLOSED};

/// Names an object. It stays the same wherever the object moves.
#[derive(Clone, Copy, Debug, PartialEq, Eq)]
pub struct Handle(pub u32);

/// An open heap. `objects` lends it, and the next call ends the loan first.
pub struct Heap {
    raw: RawHeap,
}

#[rustfmt::skip]
unsafe extern "C" {
    fn nph_sliced_open(heap: *mut RawHeap, pages: u32, page_bytes: u32, proxies: u32, quantum: u32) -> i32;
    fn nph_sliced_bytes_needed(pages: u32, page_bytes: u32, proxies: u32, needed: *mut Needed) -> i32;
    fn nph_sliced_close(heap: *mut RawHeap);
    fn nph_sliced_malloc(heap: *mut RawHeap, bytes: u32, handle: *mut u32) -> i32;
    fn nph_sliced_free(heap: *mut RawHeap, handle: u32) -> i32;
    fn nph_sliced_step(heap: *mut RawHeap) -> i32;
    fn nph_sliced_left(heap: *mut RawHeap, words: *mut u32) -> i32;
    fn nph_sliced_moving(heap: *mut RawHeap, handle: *mut u32) -> i32;
    fn nph_sliced_write(heap: *mut RawHeap, handle: u32, at: u32, bytes: *const u8, count: usize) -> i32;
    fn nph_sliced_read(heap: *mut RawHeap, handle: u32, at: u32, bytes: *mut u8, count: usize) -> i32;
    fn nph_sliced_length(heap: *mut RawHeap, handle: u32, bytes: *mut u32) -> i32;
    fn nph_sliced_has_room(heap: *mut RawHeap, bytes: u32) -> i32;
    fn nph_sliced_slot_words(heap: *mut RawHeap, handle: u32, words: *mut u32) -> i32;
    fn nph_sliced_class_of(heap: *mut RawHeap, bytes: u32, size_class: *mut u32) -> i32;
    fn nph_sliced_figures(heap: *mut RawHeap, size_class: u32, figures: *mut Class) -> i32;
    fn nph_sliced_totals(heap: *mut RawHeap, totals: *mut HeapTotals) -> i32;
    fn nph_sliced_last_steps(heap: *mut RawHeap, steps: *mut u64) -> i32;
    fn nph_sliced_place(heap: *mut RawHeap, handle: u32, place: *mut u32) -> i32;
    fn nph_sliced_lend(heap: *mut RawHeap, words: *mut *mut u64) -> i32;
    fn nph_sliced_return(heap: *mut RawHeap) -> i32;
    fn nph_sliced_version() -> u32;
    fn nph_sliced_most_malloc() -> u64;
    fn nph_sliced_most_free(quantum: u32) -> u64;
    fn nph_sliced_most_step(quantum: u32) -> u64;
    fn nph_sliced_most_access(at: u32, count: u32) -> u64;
    fn nph_sliced_most_has_room() -> u64;
    fn nph_sliced_most_length() -> u64;
}

/// Those of this library.
const LOAN: Loan = Loan { length: nph_sliced_length, place: nph_sliced_place, lend: nph_sliced_lend, headers: 1 };

/// The version of the library.
pub fn version() -> u32 {
    unsafe { nph_sliced_version() }
}

/// The most steps of a call, before it is made.
pub mod most {
    /// Of `malloc`.
    pub fn malloc() -> u64 {
        unsafe { super::nph_sliced_most_malloc() }
    }

    /// Of `free` in a heap with this quantum.
    pub fn free(quantum: u32) -> u64 {
        unsafe { super::nph_sliced_most_free(quantum) }
    }

    /// Of `step` in a heap with this quantum.
    pub fn step(quantum: u32) -> u64 {
        unsafe { super::nph_sliced_most_step(quantum) }
    }

    /// Of `read` or `write` of `count` bytes from byte `at` on. One that is not refused takes just these.
    pub fn access(at: u32, count: u32) -> u64 {
        unsafe { super::nph_sliced_most_access(at, count) }
    }

    /// Of `has_room`.
    pub fn has_room() -> u64 {
        unsafe { super::nph_sliced_most_has_room() }
    }

    /// Of `length`.
    pub fn length() -> u64 {
        unsafe { super::nph_sliced_most_length() }
    }
}

// Why the calls are safe: each gets an open heap, references that do not overlap, and slices with their lengths. The slices of
// `objects` borrow the heap, so none is left when a later call ends the loan. They belong to objects that differ.
impl Heap {
    /// The heap for a call. Ends the loan.
    fn raw(&mut self) -> *mut RawHeap {
        if self.raw.is_lent {
            unsafe { nph_sliced_return(&mut self.raw) };
        }
        &mut self.raw
    }

    /// Opens a heap without objects, whose slices have at most `quantum` words; `page_bytes` are the bytes of a page.
    pub fn open(pages: u32, page_bytes: u32, proxies: u32, quantum: u32) -> Result<Heap, Error> {
        let mut heap = Heap { raw: CLOSED };
        let code = unsafe { nph_sliced_open(&mut heap.raw, pages, page_bytes, proxies, quantum) };
        result_of(code, heap)
    }

    /// What `open` with these settings asks of `rattle_alloc`.
    pub fn bytes_needed(pages: u32, page_bytes: u32, proxies: u32) -> Result<Needed, Error> {
        written(|needed| unsafe { nph_sliced_bytes_needed(pages, page_bytes, proxies, needed) })
    }

    /// Makes an object of `bytes` zeros. Fails with `Busy` if only the slot of the pending job is left.
    pub fn malloc(&mut self, bytes: u32) -> Result<Handle, Error> {
        written(|handle| unsafe { nph_sliced_malloc(self.raw(), bytes, handle) }).map(Handle)
    }

    /// Frees an object, and does the first slice of its job. Fails with `Busy` if a job is pending.
    pub fn free(&mut self, object: Handle) -> Result<(), Error> {
        result_of(unsafe { nph_sliced_free(self.raw(), object.0) }, ())
    }

    /// Does one slice of the pending job; nothing if none is pending.
    pub fn step(&mut self) {
        unsafe { nph_sliced_step(self.raw()) };
    }

    /// The words that the pending job has yet to clear or move; 0 if none is pending.
    pub fn left(&mut self) -> u32 {
        written(|words| unsafe { nph_sliced_left(self.raw(), words) }).unwrap_or_default()
    }

    /// The object that the pending job moves.
    pub fn moving(&mut self) -> Option<Handle> {
        written(|handle| unsafe { nph_sliced_moving(self.raw(), handle) }).ok().and_then(|number| handle_of(number, Handle))
    }

    /// Writes the bytes into an object, from its byte `at` on.
    pub fn write(&mut self, object: Handle, at: u32, bytes: &[u8]) -> Result<(), Error> {
        result_of(unsafe { nph_sliced_write(self.raw(), object.0, at, bytes.as_ptr(), bytes.len()) }, ())
    }

    /// Fills `bytes` with the bytes of an object, from its byte `at` on.
    pub fn read(&mut self, object: Handle, at: u32, bytes: &mut [u8]) -> Result<(), Error> {
        result_of(unsafe { nph_sliced_read(self.raw(), object.0, at, bytes.as_mut_ptr(), bytes.len()) }, ())
    }

    /// The bytes of N objects, in place. Fails with `Busy` if a job is pending, and with `Unknown` also if a handle occurs twice.
    pub fn objects<const N: usize>(&mut self, objects: [Handle; N]) -> Result<[&mut [u8]; N], Error> {
        unsafe { LOAN.objects(self.raw(), objects.map(|object| object.0)) }
    }

    /// The length of an object in bytes.
    pub fn length(&mut self, object: Handle) -> Result<u32, Error> {
        written(|bytes| unsafe { nph_sliced_length(self.raw(), object.0, bytes) })
    }

    /// Whether `malloc` would succeed now, else its error.
    pub fn has_room(&mut self, bytes: u32) -> Result<(), Error> {
        result_of(unsafe { nph_sliced_has_room(self.raw(), bytes) }, ())
    }

    /// The words of an object's slot. A free of the object begins a job of as many words.
    pub fn slot_words(&mut self, object: Handle) -> Result<u32, Error> {
        written(|words| unsafe { nph_sliced_slot_words(self.raw(), object.0, words) })
    }

    /// The size class of an object of `bytes` bytes.
    pub fn class_of(&mut self, bytes: u32) -> Result<u32, Error> {
        written(|size_class| unsafe { nph_sliced_class_of(self.raw(), bytes, size_class) })
    }

    /// The figures of a size class, numbered from 0; none if there is no such class. The slot of a pending job counts as used.
    pub fn figures(&mut self, size_class: u32) -> Option<Class> {
        written(|figures| unsafe { nph_sliced_figures(self.raw(), size_class, figures) }).ok()
    }

    /// The figures of the whole heap. The slot of a pending job counts as taken.
    pub fn totals(&mut self) -> HeapTotals {
        written(|totals| unsafe { nph_sliced_totals(self.raw(), totals) }).unwrap_or_default()
    }

    /// The steps of the last call that counts them. `left`, `moving`, `figures` and `totals` take none, and leave the count as it
    /// was.
    pub fn last_steps(&mut self) -> u64 {
        written(|steps| unsafe { nph_sliced_last_steps(self.raw(), steps) }).unwrap_or_default()
    }
}

closed_by!(nph_sliced_close);
