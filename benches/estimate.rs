//! Counts the different pages of raw images on one thread, by std's map keyed by pages, for comparison with
//! `pageshare estimate`. It prints how many pages there are and how many are different.
use std::collections::HashMap;
use std::fs::File;
use std::io::Read;

const PAGE: usize = 4096;

fn main() -> std::io::Result<()> {
    let mut copies: HashMap<Box<[u8; PAGE]>, u32> = HashMap::new();
    let mut run = vec![0; 64 * PAGE];
    let mut count = 0;
    for path in std::env::args().skip(1) {
        let mut file = File::open(path)?;
        loop {
            let read = file.read(&mut run)?;
            if read == 0 {
                break;
            }
            for page in run[..read].chunks_exact(PAGE) {
                let page: &[u8; PAGE] = page.try_into().unwrap();
                count += 1;
                match copies.get_mut(page) {
                    Some(copies) => *copies += 1,
                    None => {
                        copies.insert(Box::new(*page), 1);
                    }
                }
            }
        }
    }
    println!("{count} {}", copies.len());
    Ok(())
}
