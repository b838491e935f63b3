//! Images, over the library norphuen_images. A program names an object by an id that it chooses, and saves the whole heap as bytes
//! that can be loaded later.
use crate::{result_of, written, Error, Needed, RawHeap, CLOSED};
#[cfg(feature = "alloc")]
use alloc::vec::Vec;

/// Names an object. The program chooses it, and it stays the same in a loaded heap.
#[derive(Clone, Copy, Debug, PartialEq, Eq, PartialOrd, Ord, Hash)]
pub struct Id(pub u16);

/// Why `Heap::load` fails.
#[derive(Clone, Copy, Debug, PartialEq, Eq)]
pub enum LoadError {
    /// The bytes are no image from this offset on; the header says which byte that is.
    Image(u64),
    /// `Bound` or `Memory`.
    Other(Error),
}

impl From<LoadError> for Error {
    fn from(error: LoadError) -> Error {
        match error {
            LoadError::Image(_) => Error::Image,
            LoadError::Other(error) => error,
        }
    }
}

/// An open heap.
pub struct Heap {
    raw: RawHeap,
}

#[rustfmt::skip]
unsafe extern "C" {
    fn nph_images_open(heap: *mut RawHeap, pages: u32, page_bytes: u32, k: u32, proxies: u32) -> i32;
    fn nph_images_bytes_needed(pages: u32, page_bytes: u32, k: u32, proxies: u32, needed: *mut Needed) -> i32;
    fn nph_images_load(heap: *mut RawHeap, bytes: *const u8, count: usize, k: u32, offset: *mut u64) -> i32;
    fn nph_images_close(heap: *mut RawHeap);
    fn nph_images_make(heap: *mut RawHeap, id: u32, bytes: u32) -> i32;
    fn nph_images_free(heap: *mut RawHeap, id: u32) -> i32;
    fn nph_images_write(heap: *mut RawHeap, id: u32, at: u32, bytes: *const u8, count: usize) -> i32;
    fn nph_images_read(heap: *mut RawHeap, id: u32, at: u32, bytes: *mut u8, count: usize) -> i32;
    fn nph_images_length(heap: *mut RawHeap, id: u32, bytes: *mut u32) -> i32;
    fn nph_images_image_bytes(heap: *mut RawHeap, bytes: *mut u64) -> i32;
    fn nph_images_save(heap: *mut RawHeap, bytes: *mut u8, count: usize, written: *mut u64) -> i32;
    fn nph_images_version() -> u32;
}

/// The version of the library.
pub fn version() -> u32 {
    unsafe { nph_images_version() }
}

// Why the calls are safe: each gets an open heap, or `load` a closed one, references that do not overlap, and slices with their
// lengths.
impl Heap {
    /// Opens a heap without objects; `page_bytes` are the bytes of a page, `k` bounds the partly full pages of a class.
    pub fn open(pages: u32, page_bytes: u32, k: u32, proxies: u32) -> Result<Heap, Error> {
        let mut heap = Heap { raw: CLOSED };
        let code = unsafe { nph_images_open(&mut heap.raw, pages, page_bytes, k, proxies) };
        result_of(code, heap)
    }

    /// What `open` with these settings, or `load` of an image with them, asks of `rattle_alloc`.
    pub fn bytes_needed(pages: u32, page_bytes: u32, k: u32, proxies: u32) -> Result<Needed, Error> {
        written(|needed| unsafe { nph_images_bytes_needed(pages, page_bytes, k, proxies, needed) })
    }

    /// Opens a heap with the settings and the objects of an image. An image has no `k`.
    pub fn load(image: &[u8], k: u32) -> Result<Heap, LoadError> {
        let (mut heap, mut offset) = (Heap { raw: CLOSED }, 0);
        let code = unsafe { nph_images_load(&mut heap.raw, image.as_ptr(), image.len(), k, &mut offset) };
        result_of(code, heap).map_err(|error| match error {
            Error::Image => LoadError::Image(offset),
            other => LoadError::Other(other),
        })
    }

    /// Makes an object of `bytes` zeros under an id. Fails with `Live` if an object has the id.
    pub fn make(&mut self, id: Id, bytes: u32) -> Result<(), Error> {
        result_of(unsafe { nph_images_make(&mut self.raw, id.0.into(), bytes) }, ())
    }

    /// Frees the object of an id, which may then name another.
    pub fn free(&mut self, id: Id) -> Result<(), Error> {
        result_of(unsafe { nph_images_free(&mut self.raw, id.0.into()) }, ())
    }

    /// Writes the bytes into the object of an id, from its byte `at` on.
    pub fn write(&mut self, id: Id, at: u32, bytes: &[u8]) -> Result<(), Error> {
        result_of(unsafe { nph_images_write(&mut self.raw, id.0.into(), at, bytes.as_ptr(), bytes.len()) }, ())
    }

    /// Fills `bytes` with the bytes of the object of an id, from its byte `at` on.
    pub fn read(&mut self, id: Id, at: u32, bytes: &mut [u8]) -> Result<(), Error> {
        result_of(unsafe { nph_images_read(&mut self.raw, id.0.into(), at, bytes.as_mut_ptr(), bytes.len()) }, ())
    }

    /// The length of the object of an id in bytes.
    pub fn length(&mut self, id: Id) -> Result<u32, Error> {
        written(|bytes| unsafe { nph_images_length(&mut self.raw, id.0.into(), bytes) })
    }

    /// How many bytes the heap's image has.
    pub fn image_bytes(&mut self) -> u64 {
        written(|bytes| unsafe { nph_images_image_bytes(&mut self.raw, bytes) }).unwrap_or_default()
    }

    /// Writes the heap's image to the start of a buffer, and returns its bytes. Fails with `Range` if the buffer is shorter.
    pub fn save_to<'a>(&mut self, buffer: &'a mut [u8]) -> Result<&'a [u8], Error> {
        let (bytes, count) = (buffer.as_mut_ptr(), buffer.len());
        let written = written(|written| unsafe { nph_images_save(&mut self.raw, bytes, count, written) })?;
        Ok(&buffer[..written as usize])
    }

    /// The heap's image. Fails with `Memory` if there is none for it.
    #[cfg(feature = "alloc")]
    pub fn save(&mut self) -> Result<Vec<u8>, Error> {
        let (mut image, count) = (Vec::new(), self.image_bytes() as usize);
        image.try_reserve_exact(count).map_err(|_| Error::Memory)?;
        image.resize(count, 0);
        self.save_to(&mut image)?;
        Ok(image)
    }
}

closed_by!(nph_images_close);
