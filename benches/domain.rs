//! Lends pages of 16 contents to a list of frames with std's map from a page's bytes to its frame, each page in a slot of its own, for
//! comparison with `benches/domain.c`. It prints the nanoseconds of a lend that joins, the least of several runs.
use std::collections::HashMap;
use std::time::Instant;

const PAGE: usize = 4096;
const CONTENTS: usize = 16;
const JOINS: usize = 16_384;
const RUNS: usize = 25;

type Page = [u8; PAGE];

/// The frames with how many slots have each, the frame of each content, and which client and frame each slot has.
struct Domain {
    frames: Vec<Box<Page>>,
    counts: Vec<u32>,
    by_content: HashMap<Box<Page>, u32>,
    slots: Vec<(u32, u32)>,
}

impl Domain {
    fn lend(&mut self, client: u32, page: &Page) -> (usize, u32) {
        let frame = match self.by_content.get(page) {
            Some(&frame) => frame,
            None => {
                let frame = self.frames.len() as u32;
                self.frames.push(Box::new(*page));
                self.counts.push(0);
                self.by_content.insert(Box::new(*page), frame);
                frame
            }
        };
        self.counts[frame as usize] += 1;
        self.slots.push((client, frame));
        (self.slots.len() - 1, frame)
    }
}

fn main() {
    let mut contents = vec![[1; PAGE]; CONTENTS];
    for (number, page) in contents.iter_mut().enumerate() {
        page[..4].copy_from_slice(&(number as u32).to_le_bytes());
    }
    let mut domain = Domain {
        frames: Vec::new(),
        counts: Vec::new(),
        by_content: HashMap::new(),
        slots: Vec::with_capacity(JOINS + CONTENTS),
    };
    let mut best = f64::INFINITY;
    for _ in 0..RUNS {
        domain.slots.clear();
        for page in &contents {
            domain.lend(0, page);
        }
        let start = Instant::now();
        for i in 0..JOINS {
            std::hint::black_box(domain.lend(0, &contents[i % CONTENTS]));
        }
        best = best.min(start.elapsed().as_secs_f64() / JOINS as f64);
    }
    assert_eq!(domain.frames.len(), CONTENTS);
    println!("{:.0}", best * 1e9);
}
