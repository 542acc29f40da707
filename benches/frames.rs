// The same calls over a `Vec` of pages and a list of free ones, for comparison with `page_bench frames`:
// rustc -O benches/frames.rs -o /tmp/frames && /tmp/frames 100000
use std::hint::black_box;
use std::time::Instant;

struct Frames {
    total: usize,
    pages: Vec<[u8; 4096]>,
    free: Vec<u32>,
}

impl Frames {
    fn new(total: usize) -> Frames {
        Frames {
            total,
            pages: Vec::with_capacity(total),
            free: Vec::with_capacity(total),
        }
    }

    fn take_zeroed(&mut self) -> Option<u32> {
        if let Some(mpn) = self.free.pop() {
            self.pages[mpn as usize].fill(0);
            return Some(mpn);
        }
        if self.pages.len() == self.total {
            return None;
        }
        self.pages.push([0; 4096]);
        Some(self.pages.len() as u32 - 1)
    }

    fn take_copy(&mut self, from: u32) -> Option<u32> {
        if let Some(mpn) = self.free.pop() {
            self.pages.copy_within(from as usize..from as usize + 1, mpn as usize);
            return Some(mpn);
        }
        if self.pages.len() == self.total {
            return None;
        }
        self.pages.extend_from_within(from as usize..from as usize + 1);
        Some(self.pages.len() as u32 - 1)
    }

    fn write(&mut self, mpn: u32, at: usize, bytes: &[u8]) {
        self.pages[mpn as usize][at..at + bytes.len()].copy_from_slice(bytes);
    }

    fn give_back(&mut self, mpn: u32) {
        self.free.push(mpn);
    }
}

fn lap(start: Instant, name: &str, count: u32) -> Instant {
    println!("{name}: {}", start.elapsed().as_nanos() / u128::from(count));
    Instant::now()
}

fn main() {
    let count: u32 = std::env::args().nth(1).and_then(|word| word.parse().ok()).unwrap_or(100_000);
    let mut frames = Frames::new(count as usize);
    let start = Instant::now();
    while black_box(&mut frames).take_zeroed().is_some() {}
    let start = lap(start, "take_zeroed, first", count);
    for mpn in 0..count {
        black_box(&mut frames).write(mpn, 0, &[0x41; 64]);
    }
    let start = lap(start, "write of 64 bytes", count);
    for mpn in 1..count {
        black_box(&mut frames).give_back(mpn);
    }
    let start = lap(start, "give_back", count);
    while black_box(&mut frames).take_zeroed().is_some() {}
    lap(start, "take_zeroed, again", count);
    for mpn in 1..count {
        frames.give_back(mpn);
    }
    let start = Instant::now();
    while black_box(&mut frames).take_copy(0).is_some() {}
    lap(start, "take_copy, again", count);
}
