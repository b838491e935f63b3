//! A free in slices: examples/slice.cf in Rust. An object is read and written while a job moves it, and in place afterwards.
use norphuen::sliced::{most, Heap};
use norphuen::Error;

const QUANTUM: u32 = 8;

/// Does the rest of the pending job, and prints how many slices that takes.
fn finish(heap: &mut Heap) {
    let mut slices = 0;
    while heap.left() > 0 {
        heap.step();
        assert!(heap.last_steps() <= most::step(QUANTUM));
        slices += 1;
    }
    println!("slices: {slices}");
}

fn main() -> Result<(), Error> {
    println!("quantum 0: {:?}", Heap::open(2, 512, 8, 0).err());
    let mut heap = Heap::open(2, 512, 8, QUANTUM)?;
    let [a, b, c, d] = [(); 4].map(|()| heap.malloc(176).expect("room"));
    heap.write(b, 0, &[0xca])?;
    println!("free a: {:?}, {} words left", heap.free(a), heap.left());
    println!("free c: {:?}", heap.free(c));
    finish(&mut heap);
    println!("free c: {:?}, {} words left, b moves: {}", heap.free(c), heap.left(), heap.moving() == Some(b));
    println!("b in place: {:?}, {:?}", heap.objects([b]).err(), heap.totals());
    heap.write(b, 175, &[0xfe])?;
    println!("a page: {:?}", heap.malloc(504));
    finish(&mut heap);
    let [x, y] = heap.objects([b, d])?;
    println!("b in place: {:02x} and {:02x}", x[0], x[175]);
    y.copy_from_slice(x);
    let mut bytes = [0; 176];
    heap.read(d, 0, &mut bytes)?;
    println!("d: {:02x} and {:02x}, {:?}", bytes[0], bytes[175], heap.totals());
    println!("a page: {:?}", heap.has_room(504));
    println!("free a: {:?}, moving: {:?}", heap.free(a), heap.moving());
    Ok(())
}
