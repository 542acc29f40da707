// The same calls over a table of the same layout, for comparison with `page_bench table`:
// rustc -O benches/table.rs -o /tmp/table && /tmp/table 1000000
use std::convert::{TryFrom, TryInto};
use std::time::Instant;

const MPN: u32 = 40;
const COUNT: u32 = 24;
const LINK: u64 = (1 << 23) - 1;

struct Table {
    heads: Vec<u32>,
    frames: Vec<[u8; 16]>,
    mask: u32,
    free: u32,
    used: u32,
    references: u32,
    wide: Vec<(u64, u32)>,
}

fn words(frame: &[u8; 16]) -> (u64, u64) {
    (
        u64::from_be_bytes(frame[..8].try_into().unwrap()),
        u64::from_be_bytes(frame[8..].try_into().unwrap()),
    )
}

fn frame(first: u64, second: u64) -> [u8; 16] {
    let mut bytes = [0; 16];
    bytes[..8].copy_from_slice(&first.to_be_bytes());
    bytes[8..].copy_from_slice(&second.to_be_bytes());
    bytes
}

fn link(second: u64) -> u32 {
    (second >> 1 & LINK) as u32
}

fn with_link(second: u64, link: u32) -> u64 {
    second & !(LINK << 1) | u64::from(link) << 1
}

fn field(second: u64) -> u32 {
    (second >> COUNT) as u32 & 0xffff
}

impl Table {
    fn new(capacity: u32) -> Table {
        let buckets = 1 << capacity.ilog2();
        Table {
            heads: vec![0; buckets],
            frames: (0..capacity).map(|n| frame(0, u64::from(n) << 1)).collect(),
            mask: buckets as u32 - 1,
            free: capacity,
            used: 0,
            references: 0,
            wide: Vec::with_capacity(16),
        }
    }

    // The place of a frame, and the one before it.
    fn find(&self, low: u32, is: impl Fn(u64, u64) -> bool) -> Option<(u32, u32)> {
        let mut before = 0;
        let mut code = self.heads[(low & self.mask) as usize];
        while code != 0 {
            let (first, second) = words(&self.frames[code as usize - 1]);
            if is(first, second) {
                return Some((code, before));
            }
            before = code;
            code = link(second);
        }
        None
    }

    fn add(&mut self, low: u32, first: u64, second: u64) {
        let code = self.free;
        let head = &mut self.heads[(low & self.mask) as usize];
        let place = &mut self.frames[code as usize - 1];
        self.free = link(words(place).1);
        *place = frame(first, with_link(second, *head));
        *head = code;
        self.used += 1;
    }

    fn remove(&mut self, low: u32, code: u32, before: u32) {
        let (first, second) = words(&self.frames[code as usize - 1]);
        let after = link(second);
        if before == 0 {
            self.heads[(low & self.mask) as usize] = after;
        } else {
            let (f, s) = words(&self.frames[before as usize - 1]);
            self.frames[before as usize - 1] = frame(f, with_link(s, after));
        }
        self.frames[code as usize - 1] = frame(first, with_link(second, self.free));
        self.free = code;
        self.used -= 1;
    }

    fn shared(&self, hash: u64) -> Option<(u32, u32)> {
        self.find(hash as u32, |first, second| second & 1 == 1 && first == hash)
    }

    fn hint(&self, key: u32) -> Option<(u32, u32)> {
        self.find(key, |first, second| second & 1 == 0 && (first >> 32) as u32 == key)
    }

    fn count(&self, first: u64, second: u64) -> u32 {
        match field(second) {
            0 => self.wide.iter().find(|w| w.0 == first).unwrap().1,
            count => count,
        }
    }

    fn find_shared(&self, hash: u64) -> Option<(u32, u32)> {
        let (code, _) = self.shared(hash)?;
        let (first, second) = words(&self.frames[code as usize - 1]);
        Some(((second >> MPN) as u32, self.count(first, second)))
    }

    fn find_hint(&self, key: u32) -> Option<(u8, u32, u32)> {
        let (code, _) = self.hint(key)?;
        let (first, second) = words(&self.frames[code as usize - 1]);
        Some(((first >> 24) as u8, first as u32 & 0xff_ffff, (second >> MPN) as u32))
    }

    fn add_shared(&mut self, hash: u64, mpn: u32) {
        self.add(hash as u32, hash, u64::from(mpn) << MPN | 2 << COUNT | 1);
        self.references += 2;
    }

    fn put_hint(&mut self, key: u32, guest: u8, ppn: u32, mpn: u32) {
        let first = u64::from(key) << 32 | u64::from(guest) << 24 | u64::from(ppn);
        self.add(key, first, u64::from(mpn) << MPN);
    }

    fn set_count(&mut self, code: u32, first: u64, second: u64, count: u32) {
        let narrow = u16::try_from(count).unwrap_or(0);
        if narrow == 0 || field(second) == 0 {
            self.wide.retain(|w| w.0 != first);
        }
        if narrow == 0 {
            self.wide.push((first, count));
        }
        let second = second & !(0xffff << COUNT) | u64::from(narrow) << COUNT;
        self.frames[code as usize - 1] = frame(first, second);
    }

    fn join(&mut self, hash: u64) -> u32 {
        let (code, _) = self.shared(hash).unwrap();
        let (first, second) = words(&self.frames[code as usize - 1]);
        let count = self.count(first, second) + 1;
        self.set_count(code, first, second, count);
        self.references += 1;
        count
    }

    fn leave(&mut self, hash: u64) -> u32 {
        let (code, before) = self.shared(hash).unwrap();
        let (first, second) = words(&self.frames[code as usize - 1]);
        let count = self.count(first, second) - 1;
        self.references -= 1;
        if count == 0 {
            self.remove(hash as u32, code, before);
        } else {
            self.set_count(code, first, second, count);
        }
        count
    }

    fn drop_hint(&mut self, key: u32) {
        let (code, before) = self.hint(key).unwrap();
        self.remove(key, code, before);
    }
}

fn hash(n: u32) -> u64 {
    let mixed = u64::from(n).wrapping_mul(0x9e37_79b9_7f4a_7c15);
    let mixed = (mixed ^ (mixed >> 30)).wrapping_mul(0xbf58_476d_1ce4_e5b9);
    let mixed = (mixed ^ (mixed >> 27)).wrapping_mul(0x94d0_49bb_1331_11eb);
    mixed ^ (mixed >> 31)
}

fn key(n: u32) -> u32 {
    let mixed = (n ^ (n >> 16)).wrapping_mul(0x85eb_ca6b);
    let mixed = (mixed ^ (mixed >> 13)).wrapping_mul(0xc2b2_ae35);
    mixed ^ (mixed >> 16)
}

// Times a call for each number below the count, in an order that jumps.
fn each(name: &str, count: u32, mut call: impl FnMut(u32)) {
    let start = Instant::now();
    let mut n = 0;
    for _ in 0..count {
        n = ((u64::from(n) + 611_953) % u64::from(count)) as u32;
        call(n);
    }
    println!("{name}: {}", start.elapsed().as_nanos() / u128::from(count.max(1)));
}

fn main() {
    let capacity: u32 = std::env::args().nth(1).and_then(|word| word.parse().ok()).unwrap_or(1_000_000);
    let mut table = Table::new(capacity);
    let shared = capacity / 4;
    let hints = capacity - shared;
    let start = Instant::now();
    for n in 0..shared {
        if table.find_shared(hash(n)).is_none() && table.used < capacity {
            table.add_shared(hash(n), n % 1024);
        }
    }
    println!("add_shared: {}", start.elapsed().as_nanos() / u128::from(shared.max(1)));
    let start = Instant::now();
    for n in 0..hints {
        if table.find_hint(key(n)).is_none() && table.used < capacity {
            table.put_hint(key(n), 1, n % 1024, n % 1024);
        }
    }
    println!("put_hint: {}", start.elapsed().as_nanos() / u128::from(hints.max(1)));
    let mut found = 0;
    each("find_shared", shared, |n| found += u32::from(table.find_shared(hash(n)).is_some()));
    each("find_hint", hints, |n| found += u32::from(table.find_hint(key(n)).is_some()));
    assert_eq!(found, capacity);
    each("join", shared, |n| {
        if table.find_shared(hash(n)).is_some() && table.references < 1_048_576 {
            table.join(hash(n));
        }
    });
    for name in ["leave", "leave, again", "leave, the last"] {
        each(name, shared, |n| {
            if table.find_shared(hash(n)).is_some() {
                table.leave(hash(n));
            }
        });
    }
    each("drop_hint", hints, |n| {
        if table.find_hint(key(n)).is_some() {
            table.drop_hint(key(n));
        }
    });
    assert_eq!(table.used, 0);
}
