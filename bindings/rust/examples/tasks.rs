//! Two tasks in one heap, each with the least quota for its needs. A handle of one is no handle of the other.
use norphuen::tasks::Heap;
use norphuen::{Error, Freed, Need};

const LOGGER: u32 = 0;
const PLANNER: u32 = 1;

/// Gives a task the least quota for its need, if so many pages are left, and prints what becomes of it.
fn start(heap: &mut Heap, task: u32, need: Need) -> Result<(), Error> {
    let quota = heap.least_quota(&[need])?;
    println!("task {task}: {quota} pages: {:?}, admitted: {:?}", heap.set_quota(task, quota), heap.admit(task, &[need]));
    println!("{} pages left", heap.unassigned());
    Ok(())
}

fn main() -> Result<(), Error> {
    println!("no pages: {:?}", Heap::open(0, 512, 8).err());
    let mut heap = Heap::open(3, 512, 8)?;
    start(&mut heap, LOGGER, Need { bytes: 176, count: 4 })?;
    start(&mut heap, PLANNER, Need { bytes: 504, count: 1 })?;
    start(&mut heap, 2, Need { bytes: 8, count: 1 })?;
    let [a, b, c, _d] = [(); 4].map(|()| heap.malloc::<LOGGER>(176).expect("within the quota"));
    println!("a fifth of the logger: {:?}", heap.malloc::<LOGGER>(176));
    let page = heap.malloc::<PLANNER>(504)?;
    println!("a second page of the planner: {:?}", heap.malloc::<PLANNER>(504));
    heap.write(b, 0, &[0xca, 0xfe])?;
    println!("free a: {:?}", heap.free(a));
    assert_eq!(heap.free(c), Ok(Freed { slot_words: 23, moved: Some(b) }));
    let mut bytes = [0; 2];
    heap.read(b, 0, &mut bytes)?;
    println!("b: {bytes:02x?}, of {:?} bytes, the page of {:?}", heap.length(b), heap.length(page));
    println!("{:?}, {:?}", heap.task(LOGGER), heap.task(16));
    println!("{:?}", heap.task(PLANNER));
    println!("less than the planner uses: {:?}", heap.set_quota(PLANNER, 0));
    println!("a: {:?}, task 16: {:?}", heap.length(a), heap.malloc::<16>(8));
    Ok(())
}
