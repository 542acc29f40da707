//! The hash of a page by the crate `sha2`, one by one and by threads of `rayon`, for comparison with `page_bench hash`.
use rayon::prelude::*;
use rayon::{ThreadPool, ThreadPoolBuilder};
use sha2::{Digest, Sha256};
use std::hint::black_box;
use std::time::{Duration, Instant};

const TURNS: u32 = 10;

fn hash(page: &[u8; 4096]) -> u64 {
    u64::from_be_bytes(Sha256::digest(page)[..8].try_into().unwrap())
}

fn hash_all(pages: &[[u8; 4096]; 2], count: usize) -> Vec<u64> {
    (0..count).map(|n| hash(black_box(&pages[n % 2]))).collect()
}

fn by_threads(pool: &ThreadPool, pages: &[[u8; 4096]; 2], count: usize) -> Vec<u64> {
    pool.install(|| (0..count).into_par_iter().map(|n| hash(black_box(&pages[n % 2]))).collect())
}

fn main() {
    let count: usize = std::env::args().nth(1).and_then(|word| word.parse().ok()).unwrap_or(10_000);
    let pages = [[0x41; 4096], [0x42; 4096]];
    let pools = [2, 4].map(|threads| ThreadPoolBuilder::new().num_threads(threads).build().unwrap());
    let mut least = [Duration::MAX; 3];
    for _turn in 0..TURNS {
        let start = Instant::now();
        black_box(hash_all(&pages, count));
        least[0] = least[0].min(start.elapsed());
        for (pool, least) in pools.iter().zip(&mut least[1..]) {
            let start = Instant::now();
            black_box(by_threads(pool, &pages, count));
            *least = (*least).min(start.elapsed());
        }
    }
    for (name, least) in ["one by one", "two workers", "four workers"].iter().zip(least) {
        println!("{name}: {} ns a page", least.as_nanos() / count as u128);
    }
}
