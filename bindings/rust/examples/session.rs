//! The session of the README, in Rust.
use norphuen::{Error, Freed, Handle, Heap};

fn main() {
    assert_eq!(Heap::open(2, 500, 1, 8).err(), Some(Error::PageBytes));
    let mut heap = Heap::open(2, 512, 1, 8).expect("memory");
    let [a, b, c, d] = [(); 4].map(|()| heap.malloc(176).expect("room"));
    println!("room for 8 bytes: {:?}", heap.has_room(8));
    println!("write: {:?}", heap.write(b, 0, &[0xca, 0xfe]));
    println!("free a: {:?}, {} steps", heap.free(a), heap.last_steps());
    assert_eq!(heap.free(c), Ok(Freed { slot_words: 23, moved: Some(b) }));
    println!("free c: b moved, {} steps", heap.last_steps());
    let mut bytes = [0; 2];
    heap.read(b, 0, &mut bytes).expect("live");
    println!("read: {bytes:02x?}");
    let [x, y] = heap.objects([b, d]).expect("live");
    y[..2].copy_from_slice(&x[..2]);
    println!("in place: {:02x?}, {} and {} bytes", &y[..2], x.len(), y.len());
    println!("a: {:?}, b twice: {:?}", heap.objects([a]).err(), heap.objects([b, b]).err());
    println!("resize: {:?}, length {:?}", heap.resize(b, 20), heap.length(b));
    println!("class 0: {:?}", heap.figures(0));
    println!("class 20: {:?}", heap.figures(20));
    println!("{:?}", heap.totals());
    println!("read of a: {:?}, of none: {:?}", heap.read(a, 0, &mut bytes), heap.free(Handle(u32::MAX)));
}
