//! A log of records in one long object, which is cut into parts in pages of their own. Each call is budgeted before it is made.
use norphuen::large::{most, Heap};
use norphuen::Error;

const PAGE_BYTES: u32 = 512;
const BYTES: u32 = 20_000;
const RECORD: u32 = 40;

/// Prints what a call returned, its steps, and the most that it may take.
fn show(heap: &mut Heap, call: &str, result: Result<(), Error>, most: u64) {
    println!("{call}: {result:?}, {} of {most} steps", heap.last_steps());
}

fn main() -> Result<(), Error> {
    println!("open for {} bytes", Heap::bytes_needed(48, PAGE_BYTES, 100)?.total);
    let mut heap = Heap::open(48, PAGE_BYTES, 100)?;
    let log = heap.malloc(BYTES)?;
    show(&mut heap, "malloc", Ok(()), most::malloc(PAGE_BYTES, BYTES));
    println!("a second log: {:?}, a log of 100,000 bytes: {:?}", heap.malloc(BYTES), heap.malloc(100_000));

    // A record that passes the end of a part, whose bytes are 504.
    let (at, mut record) = (12 * RECORD, [0; RECORD as usize]);
    let written = heap.write(log, at, b"record 12, which is in two parts of it.\n");
    show(&mut heap, "write", written, most::access(PAGE_BYTES, at, RECORD));
    let read = heap.read(log, at, &mut record);
    show(&mut heap, "read", read, most::access(PAGE_BYTES, at, RECORD));
    print!("{}", String::from_utf8_lossy(&record));
    println!("past the end: {:?}, of {:?} bytes", heap.read(log, BYTES - 1, &mut record), heap.length(log));
    println!("{:?}", heap.totals());

    let freed = heap.free(log);
    show(&mut heap, "free", freed, most::free(PAGE_BYTES, BYTES));
    println!("free again: {:?}", heap.free(log));
    Ok(())
}
