//! A log that outlives a restart: the heap is saved as an image in a `Vec`, and loaded again, with another k. A record begins
//! with the id of the record before it, and ids stay the same in the loaded heap.
use norphuen::images::{Heap, Id};
use norphuen::Error;

/// Holds the id of the last record. The first one names itself as the one before it.
const LAST: Id = Id(1);

/// The id that an object begins with.
fn id_in(heap: &mut Heap, object: Id) -> Result<Id, Error> {
    let mut bytes = [0; 2];
    heap.read(object, 0, &mut bytes)?;
    Ok(Id(u16::from_le_bytes(bytes)))
}

fn add(heap: &mut Heap, id: Id, text: &str) -> Result<(), Error> {
    let before = match heap.make(LAST, 2) {
        Ok(()) => id,
        Err(Error::Live) => id_in(heap, LAST)?,
        Err(error) => return Err(error),
    };
    heap.make(id, 2 + text.len() as u32)?;
    heap.write(id, 0, &before.0.to_le_bytes())?;
    heap.write(id, 2, text.as_bytes())?;
    heap.write(LAST, 0, &id.0.to_le_bytes())
}

fn show(heap: &mut Heap) -> Result<(), Error> {
    let mut id = id_in(heap, LAST)?;
    loop {
        let mut text = vec![0; heap.length(id)? as usize - 2];
        heap.read(id, 2, &mut text)?;
        println!("{}: {}", id.0, String::from_utf8_lossy(&text));
        match id_in(heap, id)? {
            before if before == id => return Ok(()),
            before => id = before,
        }
    }
}

fn refuse(what: &str, image: &[u8], k: u32) {
    println!("{what}: {:?}", Heap::load(image, k).err());
}

fn main() -> Result<(), Error> {
    println!("no pages: {:?}, {:?}", Heap::open(0, 512, 1, 8).err(), Heap::bytes_needed(8, 512, 2, 100)?);
    let mut log = Heap::open(8, 512, 2, 100)?;
    add(&mut log, Id(60000), "started")?;
    add(&mut log, Id(60002), "low battery")?;
    add(&mut log, Id(60001), "stopped")?;
    println!("make again: {:?}", log.make(Id(60001), 8));
    let image = log.save()?;
    println!("saved: {} of {} bytes", image.len(), log.image_bytes());
    println!("into a byte less: {:?}", log.save_to(&mut vec![0; image.len() - 1]));
    println!("into 2,000 bytes: {}", log.save_to(&mut [0; 2000])? == image);
    drop(log);

    let mut log = Heap::load(&image, 64)?;
    show(&mut log)?;
    println!("saved again: {}", if log.save()? == image { "the same bytes" } else { "other bytes" });
    println!("free: {:?}, again: {:?}", log.free(Id(60000)), log.free(Id(60000)));

    refuse("k = 65", &image, 65);
    refuse("no bytes", &[], 1);
    refuse("a byte less", &image[..image.len() - 1], 1);
    let mut changed = image;
    changed[8] ^= 0xff;
    refuse("a byte changed", &changed, 1);
    Ok(())
}
