//! The three functions by which the library takes and returns memory, over C's malloc.
use core::ffi::c_void;
use core::ptr::NonNull;

/// The header's nph_block.
#[repr(C)]
struct Block {
    ok: bool,
    at: *mut c_void,
}

unsafe extern "C" {
    fn malloc(bytes: usize) -> *mut c_void;
    fn realloc(at: *mut c_void, bytes: usize) -> *mut c_void;
    fn free(at: *mut c_void);
}

/// A block at this address, or none: then the address must not be null either.
fn block_at(at: *mut c_void) -> Block {
    let none = NonNull::<u64>::dangling().as_ptr().cast();
    Block { ok: !at.is_null(), at: if at.is_null() { none } else { at } }
}

// malloc aligns a block for every type, so for each alignment up to 16 that the library asks for.
#[unsafe(no_mangle)]
extern "C" fn rattle_alloc(bytes: usize, _align: usize) -> Block {
    block_at(unsafe { malloc(bytes.max(1)) })
}

#[unsafe(no_mangle)]
unsafe extern "C" fn rattle_realloc(at: *mut c_void, _kept: usize, bytes: usize, _align: usize) -> Block {
    block_at(unsafe { realloc(at, bytes.max(1)) })
}

#[unsafe(no_mangle)]
unsafe extern "C" fn rattle_dealloc(at: *mut c_void) {
    unsafe { free(at) }
}
