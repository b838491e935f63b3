//! The cache of examples/c/lru.c in Rust. It prints the same.
use norphuen::{Error, Handle, Heap};

const MOST: u32 = 100;
const KEYS: u32 = 300;
/// An entry: its key, three links, and six words, each the key. `next` is in the bucket, the others in the order of use.
const BYTES: usize = 64;
const NEXT: usize = 4;
const NEWER: usize = 8;
const OLDER: usize = 12;
const VALUE: usize = 16;

type Link = Option<Handle>;

fn number(entry: &[u8], at: usize) -> u32 {
    u32::from_ne_bytes(entry[at..at + 4].try_into().expect("four bytes"))
}

fn link(entry: &[u8], at: usize) -> Link {
    Some(Handle(number(entry, at))).filter(|handle| handle.0 != u32::MAX)
}

fn set_link(entry: &mut [u8], at: usize, to: Link) {
    let number = to.map_or(u32::MAX, |handle| handle.0);
    entry[at..at + 4].copy_from_slice(&number.to_ne_bytes());
}

struct Cache {
    heap: Heap,
    buckets: [Link; 64],
    newest: Link,
    oldest: Link,
    count: u32,
    hits: u32,
    evicted: u32,
    moves: u32,
}

impl Cache {
    /// The last word of a key's value. A key without an entry gets one, and each word of its value is the key.
    fn value_of(&mut self, key: u32) -> Result<u64, Error> {
        let bucket = key as usize % self.buckets.len();
        let mut at = self.buckets[bucket];
        while let Some(handle) = at {
            let [entry] = self.heap.objects([handle])?;
            if number(entry, 0) == key {
                let value = entry[BYTES - 8..].try_into().expect("eight bytes");
                self.unlink(handle)?;
                self.put_first(handle)?;
                self.hits += 1;
                return Ok(u64::from_ne_bytes(value));
            }
            at = link(entry, NEXT);
        }
        if self.count == MOST {
            self.evict()?;
        }
        let made = self.heap.malloc(BYTES as u32)?;
        let [entry] = self.heap.objects([made])?;
        entry[..4].copy_from_slice(&key.to_ne_bytes());
        set_link(entry, NEXT, self.buckets[bucket]);
        for word in entry[VALUE..].chunks_exact_mut(8) {
            word.copy_from_slice(&u64::from(key).to_ne_bytes());
        }
        self.buckets[bucket] = Some(made);
        self.put_first(made)?;
        self.count += 1;
        Ok(u64::from(key))
    }

    /// Takes an entry out of the order of use.
    fn unlink(&mut self, out: Handle) -> Result<(), Error> {
        let [entry] = self.heap.objects([out])?;
        let (newer, older) = (link(entry, NEWER), link(entry, OLDER));
        match newer {
            Some(newer) => set_link(self.heap.objects([newer])?[0], OLDER, older),
            None => self.newest = older,
        }
        match older {
            Some(older) => set_link(self.heap.objects([older])?[0], NEWER, newer),
            None => self.oldest = newer,
        }
        Ok(())
    }

    /// Puts an entry in front of the order of use.
    fn put_first(&mut self, handle: Handle) -> Result<(), Error> {
        let older = self.newest;
        if let Some(older) = older {
            let [first, second] = self.heap.objects([handle, older])?;
            set_link(second, NEWER, Some(handle));
            set_link(first, NEWER, None);
            set_link(first, OLDER, Some(older));
        } else {
            let [first] = self.heap.objects([handle])?;
            set_link(first, NEWER, None);
            set_link(first, OLDER, None);
            self.oldest = Some(handle);
        }
        self.newest = Some(handle);
        Ok(())
    }

    /// Takes the entry that was not used for longest out of its bucket and of the order, and frees it.
    fn evict(&mut self) -> Result<(), Error> {
        let Some(out) = self.oldest else { return Ok(()) };
        self.unlink(out)?;
        let [entry] = self.heap.objects([out])?;
        let (key, next) = (number(entry, 0), link(entry, NEXT));
        let bucket = key as usize % self.buckets.len();
        let mut at = self.buckets[bucket];
        if at == Some(out) {
            self.buckets[bucket] = next;
        } else {
            while let Some(handle) = at {
                let [entry] = self.heap.objects([handle])?;
                at = link(entry, NEXT);
                if at == Some(out) {
                    set_link(entry, NEXT, next);
                    break;
                }
            }
        }
        self.moves += u32::from(self.heap.free(out)?.moved.is_some());
        self.evicted += 1;
        self.count -= 1;
        Ok(())
    }

    /// The key of an entry.
    fn key(&mut self, of: Link) -> Result<u32, Error> {
        let [entry] = self.heap.objects([of.ok_or(Error::Unknown)?])?;
        Ok(number(entry, 0))
    }
}

/// A drawn number below `n`.
fn draw(state: &mut u64, n: u32) -> u32 {
    *state = state.wrapping_mul(6364136223846793005).wrapping_add(1442695040888963407);
    (*state >> 33) as u32 % n
}

fn main() -> Result<(), Error> {
    let heap = Heap::open(16, 1024, 1, MOST)?;
    let (buckets, newest, oldest) = ([None; 64], None, None);
    let mut cache = Cache { heap, buckets, newest, oldest, count: 0, hits: 0, evicted: 0, moves: 0 };
    let mut state = 1;
    for _ in 0..10000 {
        let below = 1 + draw(&mut state, KEYS); // low keys are drawn more often
        let key = draw(&mut state, below);
        assert_eq!(cache.value_of(key)?, u64::from(key));
    }
    println!("10000 rounds: {} hits, {} evicted, {} moves", cache.hits, cache.evicted, cache.moves);
    let (newest, oldest) = (cache.newest, cache.oldest);
    println!("newest {}, oldest {}", cache.key(newest)?, cache.key(oldest)?);
    Ok(())
}
