//! What rustc must refuse. A line `misuse N: TEXT` stands before each; the message has TEXT. Without `misuse` all compiles.
use norphuen::{images, large, sliced, tasks, Error, Heap};

fn main() -> Result<(), Error> {
    let (mut slices, mut shared) = (sliced::Heap::open(4, 1024, 10, 8)?, tasks::Heap::open(4, 1024, 10)?);
    let (c, d) = (slices.malloc(8)?, shared.malloc::<0>(8)?);
    // misuse 6: E0308
    #[cfg(misuse = "6")]
    let d: tasks::Handle<1> = d;
    // misuse 7: E0308
    #[cfg(misuse = "7")]
    shared.free::<1>(d)?;
    // misuse 8: E0308
    #[cfg(misuse = "8")]
    Heap::open(4, 1024, 1, 10)?.free(c)?;
    // misuse 9: E0382
    #[cfg(misuse = "9")]
    drop(shared);
    // misuse 10: E0277
    #[cfg(misuse = "10")]
    std::thread::scope(|s| drop(s.spawn(|| &slices)));
    let mut log = large::Heap::open(4, 1024, 10)?;
    let long = log.malloc(2000)?;
    // misuse 12: E0308
    #[cfg(misuse = "12")]
    slices.free(long)?;
    log.free(long)?;
    let mut saved = images::Heap::open(4, 1024, 1, 10)?;
    // misuse 13: out of range
    #[cfg(misuse = "13")]
    saved.make(images::Id(65536), 8)?;
    // misuse 14: E0308
    #[cfg(misuse = "14")]
    saved.make(long, 8)?;
    saved.make(images::Id(7), 8)?;
    // misuse 15: E0382
    #[cfg(misuse = "15")]
    drop(saved);
    images::Heap::load(&saved.save()?, 1)?;
    let [z] = slices.objects([c])?;
    // misuse 11: E0499
    #[cfg(misuse = "11")]
    slices.step();
    z[0] = 1;
    (slices.free(c)?, shared.free(d)?);
    let mut heap = Heap::open(4, 1024, 1, 10)?;
    let (a, b) = (heap.malloc(8)?, heap.malloc(8)?);
    let [x, y] = heap.objects([a, b])?;
    x[0] = y[0];
    // misuse 1: E0499
    #[cfg(misuse = "1")]
    heap.free(b)?;
    // misuse 2: E0505
    #[cfg(misuse = "2")]
    drop(heap);
    // misuse 3: E0499
    #[cfg(misuse = "3")]
    let [y] = heap.objects([b])?;
    // misuse 4: E0382
    #[cfg(misuse = "4")]
    let (first, second) = (heap, heap);
    // misuse 5: E0277
    #[cfg(misuse = "5")]
    std::thread::scope(|s| drop(s.spawn(|| &heap)));
    x[1] = y[0];
    Ok(())
}
