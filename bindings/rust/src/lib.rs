//! Norphuen for Rust: a safe wrapper over the C library, which `build.rs` links. It needs `core` alone without two features
//! that are on by default: `malloc` takes memory by C's malloc, and without it the program defines the three allocator functions
//! that `include/norphuen.h` describes. `alloc` uses Rust's `alloc`, to return an image as a `Vec`.
//!
//! The features `nonmoving`, `tlsf` and `half` choose that library in place of the moving one. The features `sliced`, `tasks`,
//! `images` and `large` add the module of that library.
//!
//! A `Heap` closes itself when it is dropped. It is `Send` and not `Sync`: one caller at a time, in any thread.
//! `Heap::objects` lends the bytes of objects in place; it needs a library that lends, as the header says.
#![no_std]

#[cfg(feature = "alloc")]
extern crate alloc;

/// What the heaps of all libraries share: one closes itself by this call when it is dropped, and may go to another thread.
macro_rules! closed_by {
    ($close:ident) => {
        // The library's own type is proved `Send`.
        unsafe impl Send for Heap {}

        impl Drop for Heap {
            fn drop(&mut self) {
                unsafe { $close(&mut self.raw) }
            }
        }
    };
}

#[cfg(feature = "images")]
pub mod images;
#[cfg(feature = "large")]
pub mod large;
#[cfg(feature = "malloc")]
mod malloc;
#[cfg(feature = "sliced")]
pub mod sliced;
#[cfg(feature = "tasks")]
pub mod tasks;

/// Names an object. It stays the same wherever the object moves.
#[derive(Clone, Copy, Debug, PartialEq, Eq)]
pub struct Handle(pub u32);

/// Why a call fails; the header explains each, `Size` under the name NPH_SIZE.
#[derive(Clone, Copy, Debug, PartialEq, Eq)]
#[rustfmt::skip]
pub enum Error { Size, Proxy, Space, Unknown, Range, Kind, Closed, Open, Lent, Memory, Pages, PageBytes, Bound, Proxies, Region, NotLent, Entries, Busy, Quantum, Live, Image }

/// The memory that `Heap::open` asks for: the bytes of all blocks, those of the largest block, and how many blocks.
#[repr(C)]
#[derive(Clone, Copy, Debug, Default, PartialEq, Eq)]
#[rustfmt::skip]
pub struct Needed { pub total: u64, pub largest: u64, pub blocks: u32 }

/// What a program has live at one time: at most `count` objects of `bytes` bytes.
#[repr(C)]
#[derive(Clone, Copy, Debug, Default, PartialEq, Eq)]
#[rustfmt::skip]
pub struct Need { pub bytes: u32, pub count: u32 }

/// The header's nph_freed.
#[repr(C)]
#[derive(Clone, Copy, Debug, Default, PartialEq, Eq)]
#[rustfmt::skip]
struct RawFreed { slot_words: u32, moved: u32 }

/// The header's nph_resized.
#[repr(C)]
#[derive(Clone, Copy, Debug, Default, PartialEq, Eq)]
#[rustfmt::skip]
struct RawResized { old_slot_words: u32, slot_words: u32, moved: u32 }

/// A free: the words of the freed slot or block, and the object that moved to its address.
#[derive(Clone, Copy, Debug, PartialEq, Eq)]
#[rustfmt::skip]
pub struct Freed<H = Handle> { pub slot_words: u32, pub moved: Option<H> }

/// A resize: the words of the slot before and after, and the other object that moved to the old address.
#[derive(Clone, Copy, Debug, PartialEq, Eq)]
#[rustfmt::skip]
pub struct Resized { pub old_slot_words: u32, pub slot_words: u32, pub moved: Option<Handle> }

/// The figures of a size class: the words of a slot, slots of a page, live objects, pages, and partly full pages.
#[repr(C)]
#[derive(Clone, Copy, Debug, Default, PartialEq, Eq)]
#[rustfmt::skip]
pub struct Class { pub slot_words: u32, pub slots: u32, pub live: u32, pub pages: u32, pub not_full: u32 }

/// The figures of the whole heap; the header's nph_heap_totals explains each.
#[repr(C)]
#[derive(Clone, Copy, Debug, Default, PartialEq, Eq)]
#[rustfmt::skip]
pub struct HeapTotals { pub asked: u64, pub taken: u64, pub held: u64, pub live: u32, pub used: u32, pub free: u32, pub largest: u32 }

/// What a heap counted since it was opened; the header's nph_counted explains each.
#[repr(C)]
#[derive(Clone, Copy, Debug, Default, PartialEq, Eq)]
#[rustfmt::skip]
pub struct Counted { pub most_asked: u64, pub least_free: u64, pub moves: u64, pub unknown: u64, pub size: u64, pub proxy: u64, pub space: u64 }

/// The header's nph_heap. Without a loan the last field is padding.
#[repr(C)]
struct RawHeap {
    at: *mut u8,
    last: u32,
    is_open: bool,
    is_lent: bool,
}

/// The header's NPH_HEAP.
const CLOSED: RawHeap = RawHeap { at: core::ptr::null_mut(), last: 0, is_open: false, is_lent: false };

/// An open heap. `objects` lends it, and the next call ends the loan first.
pub struct Heap {
    raw: RawHeap,
    /// `nph_return` if the heap is lent. A pointer, so that a program without `objects` links to every library.
    end_loan: Option<unsafe extern "C" fn(*mut RawHeap) -> i32>,
}

/// The name of a call in the library.
#[cfg(not(any(feature = "nonmoving", feature = "tlsf", feature = "half")))]
#[rustfmt::skip]
macro_rules! named { ($call:literal) => { concat!("nph_", $call) } }
#[cfg(all(feature = "nonmoving", not(any(feature = "tlsf", feature = "half"))))]
#[rustfmt::skip]
macro_rules! named { ($call:literal) => { concat!("nph_nm_", $call) } }
#[cfg(all(feature = "tlsf", not(feature = "half")))]
#[rustfmt::skip]
macro_rules! named { ($call:literal) => { concat!("nph_tlsf_", $call) } }
#[cfg(feature = "half")]
#[rustfmt::skip]
macro_rules! named { ($call:literal) => { concat!("nph_half_", $call) } }
/// The words of an object in front of its bytes.
const HEADERS: usize = if cfg!(any(feature = "tlsf", feature = "half")) { 2 } else { 1 };
#[cfg(any(
    all(feature = "nonmoving", feature = "tlsf"),
    all(feature = "nonmoving", feature = "half"),
    all(feature = "tlsf", feature = "half")
))]
compile_error!("two of the features nonmoving, tlsf and half name two libraries");

#[rustfmt::skip]
#[cfg_attr(any(feature = "tlsf", feature = "half"), allow(dead_code))]
unsafe extern "C" {
    #[link_name = named!("open")] fn nph_open(heap: *mut RawHeap, pages: u32, page_bytes: u32, k: u32, proxies: u32) -> i32;
    #[link_name = named!("bytes_needed")] fn nph_bytes_needed(pages: u32, page_bytes: u32, k: u32, proxies: u32, needed: *mut Needed) -> i32;
    #[link_name = named!("pages_needed")] fn nph_pages_needed(page_bytes: u32, k: u32, needs: *const Need, count: usize, pages: *mut u32) -> i32;
    #[link_name = named!("close")] fn nph_close(heap: *mut RawHeap);
    #[link_name = named!("malloc")] fn nph_malloc(heap: *mut RawHeap, bytes: u32, handle: *mut u32) -> i32;
    #[link_name = named!("free")] fn nph_free(heap: *mut RawHeap, handle: u32, freed: *mut RawFreed) -> i32;
    #[link_name = named!("resize")] fn nph_resize(heap: *mut RawHeap, handle: u32, bytes: u32, resized: *mut RawResized) -> i32;
    #[link_name = named!("write")] fn nph_write(heap: *mut RawHeap, handle: u32, at: u32, bytes: *const u8, count: usize) -> i32;
    #[link_name = named!("read")] fn nph_read(heap: *mut RawHeap, handle: u32, at: u32, bytes: *mut u8, count: usize) -> i32;
    #[link_name = named!("length")] fn nph_length(heap: *mut RawHeap, handle: u32, bytes: *mut u32) -> i32;
    #[link_name = named!("has_room")] fn nph_has_room(heap: *mut RawHeap, bytes: u32) -> i32;
    #[link_name = named!("slot_words")] fn nph_slot_words(heap: *mut RawHeap, handle: u32, words: *mut u32) -> i32;
    #[link_name = named!("class_of")] fn nph_class_of(heap: *mut RawHeap, bytes: u32, size_class: *mut u32) -> i32;
    #[link_name = named!("figures")] fn nph_figures(heap: *mut RawHeap, size_class: u32, figures: *mut Class) -> i32;
    #[link_name = named!("totals")] fn nph_totals(heap: *mut RawHeap, totals: *mut HeapTotals) -> i32;
    #[link_name = named!("next")] fn nph_next(heap: *mut RawHeap, handle: u32, next: *mut u32) -> i32;
    #[link_name = named!("counts")] fn nph_counts(heap: *mut RawHeap, counts: *mut Counted) -> i32;
    #[link_name = named!("set_bound")] fn nph_set_bound(heap: *mut RawHeap, slot_words: u32, k: u32) -> i32;
    #[link_name = named!("last_steps")] fn nph_last_steps(heap: *mut RawHeap, steps: *mut u64) -> i32;
    #[link_name = named!("place")] fn nph_place(heap: *mut RawHeap, handle: u32, place: *mut u32) -> i32;
    #[link_name = named!("lend")] fn nph_lend(heap: *mut RawHeap, words: *mut *mut u64) -> i32;
    #[link_name = named!("return")] fn nph_return(heap: *mut RawHeap) -> i32;
    #[link_name = named!("version")] fn nph_version() -> u32;
    #[link_name = named!("kind")] fn nph_kind() -> u32;
    #[link_name = named!("most_malloc")] fn nph_most_malloc() -> u64;
    #[link_name = named!("most_free")] fn nph_most_free(slot_words: u32) -> u64;
    #[link_name = named!("most_resize")] fn nph_most_resize(bytes: u32, old_slot_words: u32, slot_words: u32) -> u64;
    #[link_name = named!("most_access")] fn nph_most_access(at: u32, count: u32) -> u64;
    #[link_name = named!("most_has_room")] fn nph_most_has_room() -> u64;
    #[link_name = named!("most_totals")] fn nph_most_totals(free_count: u32) -> u64;
    #[link_name = named!("most_length")] fn nph_most_length() -> u64;
}

/// The calls of a loan, and the words of an object in front of its bytes.
struct Loan {
    length: unsafe extern "C" fn(*mut RawHeap, u32, *mut u32) -> i32,
    place: unsafe extern "C" fn(*mut RawHeap, u32, *mut u32) -> i32,
    lend: unsafe extern "C" fn(*mut RawHeap, *mut *mut u64) -> i32,
    headers: usize,
}

/// Those of the library that a feature chose.
const LOAN: Loan = Loan { length: nph_length, place: nph_place, lend: nph_lend, headers: HEADERS };

impl Loan {
    /// Lends the heap: the bytes of N objects, in place. Fails with `Unknown` also if a handle occurs twice. The caller ends the
    /// loan after the last use of the bytes.
    unsafe fn objects<'a, const N: usize>(&self, heap: *mut RawHeap, objects: [u32; N]) -> Result<[&'a mut [u8]; N], Error> {
        let (mut places, mut lengths, mut words) = ([0; N], [0; N], core::ptr::null_mut());
        for (i, object) in objects.iter().enumerate() {
            if objects[..i].contains(object) {
                return Err(Error::Unknown);
            }
            lengths[i] = written(|bytes| (self.length)(heap, *object, bytes))? as usize;
            places[i] = written(|place| (self.place)(heap, *object, place))? as usize;
        }
        result_of((self.lend)(heap, &mut words), ())?;
        let bytes = |i: usize| words.add(places[i] + self.headers).cast::<u8>();
        Ok(core::array::from_fn(|i| core::slice::from_raw_parts_mut(bytes(i), lengths[i])))
    }
}

/// The value if the code is that of success, else the error of the code.
fn result_of<T>(code: i32, value: T) -> Result<T, Error> {
    use Error::*;
    Err(match code {
        0 => return Ok(value),
        1 => Size,
        2 => Proxy,
        3 => Space,
        4 => Unknown,
        5 => Range,
        6 => Kind,
        7 => Closed,
        8 => Open,
        9 => Lent,
        10 => Memory,
        11 => Pages,
        12 => PageBytes,
        13 => Bound,
        14 => Proxies,
        15 => Region,
        16 => NotLent,
        17 => Entries,
        18 => Busy,
        19 => Quantum,
        20 => Live,
        _ => Image,
    })
}

/// What a call writes if it succeeds, else its error.
fn written<T: Default>(call: impl FnOnce(&mut T) -> i32) -> Result<T, Error> {
    let mut value = T::default();
    let code = call(&mut value);
    result_of(code, value)
}

/// The handle with this number, none for NPH_NONE.
fn handle_of<H>(number: u32, handle: fn(u32) -> H) -> Option<H> {
    (number != u32::MAX).then(|| handle(number))
}

/// The version of the library: 10,000 times the major number, 100 times the minor one, and the patch.
pub fn version() -> u32 {
    unsafe { nph_version() }
}

/// The kind of the library's heaps.
#[derive(Clone, Copy, Debug, PartialEq, Eq)]
#[rustfmt::skip]
pub enum HeapKind { Moving, NonMoving, Tlsf, HalfFit }

/// The kind of the library's heaps.
pub fn kind() -> HeapKind {
    match unsafe { nph_kind() } {
        0 => HeapKind::Moving,
        1 => HeapKind::NonMoving,
        2 => HeapKind::Tlsf,
        _ => HeapKind::HalfFit,
    }
}

/// The most steps of a call, before it is made.
pub mod most {
    /// Of `malloc`.
    pub fn malloc() -> u64 {
        unsafe { super::nph_most_malloc() }
    }

    /// Of `free` of an object whose slot or block has `slot_words` words.
    pub fn free(slot_words: u32) -> u64 {
        unsafe { super::nph_most_free(slot_words) }
    }

    /// Of `resize` to `bytes` bytes, from a slot of `old_slot_words` words to one of `slot_words`.
    pub fn resize(bytes: u32, old_slot_words: u32, slot_words: u32) -> u64 {
        unsafe { super::nph_most_resize(bytes, old_slot_words, slot_words) }
    }

    /// Of `read` or `write` of `count` bytes from byte `at` on. One that is not refused takes just these.
    pub fn access(at: u32, count: u32) -> u64 {
        unsafe { super::nph_most_access(at, count) }
    }

    /// Of `has_room`.
    pub fn has_room() -> u64 {
        unsafe { super::nph_most_has_room() }
    }

    /// Of `totals` with `free_count` free pages or blocks.
    pub fn totals(free_count: u32) -> u64 {
        unsafe { super::nph_most_totals(free_count) }
    }

    /// Of `length`.
    pub fn length() -> u64 {
        unsafe { super::nph_most_length() }
    }
}

// Why the calls are safe: each gets an open heap, references that do not overlap, and slices with their lengths. The slices of
// `objects` borrow the heap, so none is left when a later call ends the loan. They belong to objects that differ.
impl Heap {
    /// The heap for a call. Ends the loan.
    fn raw(&mut self) -> *mut RawHeap {
        if let Some(end_loan) = self.end_loan.take() {
            unsafe { end_loan(&mut self.raw) };
        }
        &mut self.raw
    }

    /// Opens a heap without objects; `page_bytes` are the bytes of a page, `k` bounds the partly full pages of a class.
    pub fn open(pages: u32, page_bytes: u32, k: u32, proxies: u32) -> Result<Heap, Error> {
        let mut heap = Heap { raw: CLOSED, end_loan: None };
        let code = unsafe { nph_open(&mut heap.raw, pages, page_bytes, k, proxies) };
        result_of(code, heap)
    }

    /// What `open` with these settings asks of `rattle_alloc`.
    pub fn bytes_needed(pages: u32, page_bytes: u32, k: u32, proxies: u32) -> Result<Needed, Error> {
        written(|needed| unsafe { nph_bytes_needed(pages, page_bytes, k, proxies, needed) })
    }

    /// Makes an object of `bytes` zeros.
    pub fn malloc(&mut self, bytes: u32) -> Result<Handle, Error> {
        written(|handle| unsafe { nph_malloc(self.raw(), bytes, handle) }).map(Handle)
    }

    /// Frees an object.
    pub fn free(&mut self, object: Handle) -> Result<Freed, Error> {
        let RawFreed { slot_words, moved } = written(|freed| unsafe { nph_free(self.raw(), object.0, freed) })?;
        Ok(Freed { slot_words, moved: handle_of(moved, Handle) })
    }

    /// Changes an object's length to `bytes` bytes: its first bytes stay, and added bytes are zero.
    pub fn resize(&mut self, object: Handle, bytes: u32) -> Result<Resized, Error> {
        let RawResized { old_slot_words, slot_words, moved } =
            written(|resized| unsafe { nph_resize(self.raw(), object.0, bytes, resized) })?;
        Ok(Resized { old_slot_words, slot_words, moved: handle_of(moved, Handle) })
    }

    /// Writes the bytes into an object, from its byte `at` on.
    pub fn write(&mut self, object: Handle, at: u32, bytes: &[u8]) -> Result<(), Error> {
        result_of(unsafe { nph_write(self.raw(), object.0, at, bytes.as_ptr(), bytes.len()) }, ())
    }

    /// Fills `bytes` with the bytes of an object, from its byte `at` on.
    pub fn read(&mut self, object: Handle, at: u32, bytes: &mut [u8]) -> Result<(), Error> {
        result_of(unsafe { nph_read(self.raw(), object.0, at, bytes.as_mut_ptr(), bytes.len()) }, ())
    }

    /// The bytes of N objects, in place. Fails with `Unknown` also if a handle occurs twice.
    pub fn objects<const N: usize>(&mut self, objects: [Handle; N]) -> Result<[&mut [u8]; N], Error> {
        let bytes = unsafe { LOAN.objects(self.raw(), objects.map(|object| object.0)) }?;
        self.end_loan = Some(nph_return);
        Ok(bytes)
    }

    /// The length of an object in bytes.
    pub fn length(&mut self, object: Handle) -> Result<u32, Error> {
        written(|bytes| unsafe { nph_length(self.raw(), object.0, bytes) })
    }

    /// Whether `malloc` would succeed now, else its error.
    pub fn has_room(&mut self, bytes: u32) -> Result<(), Error> {
        result_of(unsafe { nph_has_room(self.raw(), bytes) }, ())
    }

    /// The words of an object's slot or block, as `free` of it would return them.
    pub fn slot_words(&mut self, object: Handle) -> Result<u32, Error> {
        written(|words| unsafe { nph_slot_words(self.raw(), object.0, words) })
    }

    /// The figures of a size class, numbered from 0; none if there is no such class.
    pub fn figures(&mut self, size_class: u32) -> Option<Class> {
        written(|figures| unsafe { nph_figures(self.raw(), size_class, figures) }).ok()
    }

    /// The figures of the whole heap.
    pub fn totals(&mut self) -> HeapTotals {
        written(|totals| unsafe { nph_totals(self.raw(), totals) }).unwrap_or_default()
    }

    /// The live object after this one in a fixed order, the first one for `None`; none after the last.
    pub fn next(&mut self, object: Option<Handle>) -> Result<Option<Handle>, Error> {
        let handle = object.map_or(u32::MAX, |object| object.0);
        written(|next| unsafe { nph_next(self.raw(), handle, next) }).map(|next| handle_of(next, Handle))
    }

    /// What the heap counted since it was opened.
    pub fn counts(&mut self) -> Counted {
        written(|counts| unsafe { nph_counts(self.raw(), counts) }).unwrap_or_default()
    }

    /// The steps of the last call that counts them, as the header says.
    pub fn last_steps(&mut self) -> u64 {
        written(|steps| unsafe { nph_last_steps(self.raw(), steps) }).unwrap_or_default()
    }
}

/// The calls of a library with pages.
#[cfg(not(any(feature = "tlsf", feature = "half")))]
impl Heap {
    /// How many pages are enough: no `malloc` or `resize` fails with `Space` if the live objects, with the new or resized one,
    /// never exceed the needs.
    pub fn pages_needed(page_bytes: u32, k: u32, needs: &[Need]) -> Result<u32, Error> {
        written(|pages| unsafe { nph_pages_needed(page_bytes, k, needs.as_ptr(), needs.len(), pages) })
    }

    /// The size class of an object of `bytes` bytes.
    pub fn class_of(&mut self, bytes: u32) -> Result<u32, Error> {
        written(|size_class| unsafe { nph_class_of(self.raw(), bytes, size_class) })
    }

    /// Sets how many pages of the class with slots of `slot_words` words may be partly full, while no object is live.
    pub fn set_bound(&mut self, slot_words: u32, k: u32) -> Result<(), Error> {
        result_of(unsafe { nph_set_bound(self.raw(), slot_words, k) }, ())
    }
}

closed_by!(nph_close);
