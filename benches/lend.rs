//! Lends pages, of which every other one equals the one before, to a list of frames with std's map from a 64-bit hash to frames, for
//! comparison with `benches/embed.c`. It prints the pages lent a second, in the best of several runs.
use std::collections::HashMap;
use std::hash::{DefaultHasher, Hash, Hasher};
use std::time::Instant;

const PAGE: usize = 4096;
const PAGES: usize = 16_384;
const RUNS: usize = 15;

/// The frames, how many pages have each, and the frame of each hash.
struct Frames {
    bytes: Vec<u8>,
    counts: Vec<u32>,
    by_hash: HashMap<u64, u32>,
}

impl Frames {
    fn new() -> Frames {
        Frames {
            bytes: vec![1; PAGES * PAGE],
            counts: Vec::with_capacity(PAGES),
            by_hash: HashMap::with_capacity(PAGES),
        }
    }

    fn frame(&mut self, mpn: u32) -> &mut [u8] {
        let at = mpn as usize * PAGE;
        &mut self.bytes[at..at + PAGE]
    }

    fn lend(&mut self, page: &[u8]) -> u32 {
        let mut hasher = DefaultHasher::new();
        page.hash(&mut hasher);
        let hash = hasher.finish();
        if let Some(&mpn) = self.by_hash.get(&hash) {
            if self.frame(mpn) == page {
                self.counts[mpn as usize] += 1;
                return mpn;
            }
        }
        let mpn = self.counts.len() as u32;
        self.frame(mpn).copy_from_slice(page);
        self.counts.push(1);
        self.by_hash.insert(hash, mpn);
        mpn
    }
}

fn main() {
    let mut pages = vec![0; PAGES * PAGE];
    for (number, page) in pages.chunks_exact_mut(PAGE).enumerate() {
        page[..4].copy_from_slice(&(number as u32 / 2).to_le_bytes());
    }
    let mut best = f64::INFINITY;
    let mut frames = Frames::new();
    for _ in 0..RUNS {
        frames.counts.clear();
        frames.by_hash.clear();
        let start = Instant::now();
        for page in pages.chunks_exact(PAGE) {
            std::hint::black_box(frames.lend(page));
        }
        best = best.min(start.elapsed().as_secs_f64());
    }
    assert_eq!(frames.counts.len(), PAGES / 2);
    println!("{:.0}", PAGES as f64 / best);
}
