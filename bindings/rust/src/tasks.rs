//! Heaps of tasks, over the library norphuen_tasks. Sixteen tasks, numbered 0 to 15, share the pages, each with a quota.
use crate::{handle_of, result_of, written, Class, Error, Freed, Need, Needed, RawFreed, RawHeap, CLOSED};

/// Names an object of task number `TASK`, so a call with it is a call of that task. It stays the same wherever the object moves.
#[derive(Clone, Copy, Debug, PartialEq, Eq)]
pub struct Handle<const TASK: u32>(pub u32);

/// A task: its quota, the pages that have its objects, and its live objects.
#[repr(C)]
#[derive(Clone, Copy, Debug, Default, PartialEq, Eq)]
#[rustfmt::skip]
pub struct Task { pub quota: u32, pub pages: u32, pub live: u32 }

/// An open heap.
pub struct Heap {
    raw: RawHeap,
}

#[rustfmt::skip]
unsafe extern "C" {
    fn nph_tasks_open(heap: *mut RawHeap, pages: u32, page_bytes: u32, proxies: u32) -> i32;
    fn nph_tasks_bytes_needed(pages: u32, page_bytes: u32, proxies: u32, needed: *mut Needed) -> i32;
    fn nph_tasks_close(heap: *mut RawHeap);
    fn nph_tasks_set_quota(heap: *mut RawHeap, task: u32, pages: u32) -> i32;
    fn nph_tasks_malloc(heap: *mut RawHeap, task: u32, bytes: u32, handle: *mut u32) -> i32;
    fn nph_tasks_free(heap: *mut RawHeap, task: u32, handle: u32, freed: *mut RawFreed) -> i32;
    fn nph_tasks_write(heap: *mut RawHeap, task: u32, handle: u32, at: u32, bytes: *const u8, count: usize) -> i32;
    fn nph_tasks_read(heap: *mut RawHeap, task: u32, handle: u32, at: u32, bytes: *mut u8, count: usize) -> i32;
    fn nph_tasks_length(heap: *mut RawHeap, task: u32, handle: u32, bytes: *mut u32) -> i32;
    fn nph_tasks_task(heap: *mut RawHeap, task: u32, figures: *mut Task) -> i32;
    fn nph_tasks_figures(heap: *mut RawHeap, task: u32, size_class: u32, figures: *mut Class) -> i32;
    fn nph_tasks_unassigned(heap: *mut RawHeap, pages: *mut u32) -> i32;
    fn nph_tasks_admit(heap: *mut RawHeap, task: u32, needs: *const Need, count: usize) -> i32;
    fn nph_tasks_least_quota(heap: *mut RawHeap, needs: *const Need, count: usize, pages: *mut u32) -> i32;
    fn nph_tasks_last_steps(heap: *mut RawHeap, steps: *mut u64) -> i32;
    fn nph_tasks_version() -> u32;
}

/// The version of the library.
pub fn version() -> u32 {
    unsafe { nph_tasks_version() }
}

// Why the calls are safe: each gets an open heap, references that do not overlap, and slices with their lengths.
impl Heap {
    /// Opens a heap without objects, in which each task may have `proxies` objects and has the quota 0; `page_bytes` are the
    /// bytes of a page.
    pub fn open(pages: u32, page_bytes: u32, proxies: u32) -> Result<Heap, Error> {
        let mut heap = Heap { raw: CLOSED };
        let code = unsafe { nph_tasks_open(&mut heap.raw, pages, page_bytes, proxies) };
        result_of(code, heap)
    }

    /// What `open` with these settings asks of `rattle_alloc`.
    pub fn bytes_needed(pages: u32, page_bytes: u32, proxies: u32) -> Result<Needed, Error> {
        written(|needed| unsafe { nph_tasks_bytes_needed(pages, page_bytes, proxies, needed) })
    }

    /// Sets the quota of a task. Fails with `Pages` if all quotas would sum to more pages than the heap has, or with `Space` if
    /// the task uses more than `pages` pages.
    pub fn set_quota(&mut self, task: u32, pages: u32) -> Result<(), Error> {
        result_of(unsafe { nph_tasks_set_quota(&mut self.raw, task, pages) }, ())
    }

    /// Makes an object of `bytes` zeros.
    pub fn malloc<const TASK: u32>(&mut self, bytes: u32) -> Result<Handle<TASK>, Error> {
        written(|handle| unsafe { nph_tasks_malloc(&mut self.raw, TASK, bytes, handle) }).map(Handle)
    }

    /// Frees an object. What moves is of the same task.
    pub fn free<const TASK: u32>(&mut self, object: Handle<TASK>) -> Result<Freed<Handle<TASK>>, Error> {
        let RawFreed { slot_words, moved } = written(|freed| unsafe { nph_tasks_free(&mut self.raw, TASK, object.0, freed) })?;
        Ok(Freed { slot_words, moved: handle_of(moved, Handle) })
    }

    /// Writes the bytes into an object, from its byte `at` on.
    pub fn write<const TASK: u32>(&mut self, object: Handle<TASK>, at: u32, bytes: &[u8]) -> Result<(), Error> {
        result_of(unsafe { nph_tasks_write(&mut self.raw, TASK, object.0, at, bytes.as_ptr(), bytes.len()) }, ())
    }

    /// Fills `bytes` with the bytes of an object, from its byte `at` on.
    pub fn read<const TASK: u32>(&mut self, object: Handle<TASK>, at: u32, bytes: &mut [u8]) -> Result<(), Error> {
        result_of(unsafe { nph_tasks_read(&mut self.raw, TASK, object.0, at, bytes.as_mut_ptr(), bytes.len()) }, ())
    }

    /// The length of an object in bytes.
    pub fn length<const TASK: u32>(&mut self, object: Handle<TASK>) -> Result<u32, Error> {
        written(|bytes| unsafe { nph_tasks_length(&mut self.raw, TASK, object.0, bytes) })
    }

    /// The figures of a task; none if there is no such task.
    pub fn task(&mut self, task: u32) -> Option<Task> {
        written(|figures| unsafe { nph_tasks_task(&mut self.raw, task, figures) }).ok()
    }

    /// The figures of a size class of a task, numbered from 0; none if there is no such class or task.
    pub fn figures(&mut self, task: u32, size_class: u32) -> Option<Class> {
        written(|figures| unsafe { nph_tasks_figures(&mut self.raw, task, size_class, figures) }).ok()
    }

    /// How many pages are in no quota.
    pub fn unassigned(&mut self) -> u32 {
        written(|pages| unsafe { nph_tasks_unassigned(&mut self.raw, pages) }).unwrap_or_default()
    }

    /// Whether the quota of a task is enough for these needs: then no `malloc` of the task fails with `Space` if it begins
    /// without objects, keeps its quota, and its live objects with the new one stay within the needs. Else fails with `Space`, or
    /// as `least_quota` does.
    pub fn admit(&mut self, task: u32, needs: &[Need]) -> Result<(), Error> {
        result_of(unsafe { nph_tasks_admit(&mut self.raw, task, needs.as_ptr(), needs.len()) }, ())
    }

    /// The least quota for which `admit` succeeds.
    pub fn least_quota(&mut self, needs: &[Need]) -> Result<u32, Error> {
        written(|pages| unsafe { nph_tasks_least_quota(&mut self.raw, needs.as_ptr(), needs.len(), pages) })
    }

    /// The steps of the last call that counts them: `malloc` and the calls with a handle.
    pub fn last_steps(&mut self) -> u64 {
        written(|steps| unsafe { nph_tasks_last_steps(&mut self.raw, steps) }).unwrap_or_default()
    }
}

closed_by!(nph_tasks_close);
