//! Three equal pages of two guests come to share one frame: what `examples/three_share.c` does, in Rust.
use pageshare::{Guest, Machine};
use std::error::Error;

fn main() -> Result<(), Box<dyn Error>> {
    let guests = [Guest { pages: 2, salt: 0 }, Guest { pages: 1, salt: 0 }];
    let mut machine = Machine::new(3, &guests)?;
    let pages = [(0, 0), (0, 1), (1, 0)];
    for (guest, ppn) in pages {
        let verdict = machine.store(guest, ppn, 0, b"A")?;
        println!("guest {guest} stores to its page {ppn}: {verdict}");
    }
    for (guest, ppn) in pages {
        let verdict = machine.propose(guest, ppn)?;
        println!("guest {guest} proposes its page {ppn}: {verdict}");
    }
    let report = machine.report();
    println!(
        "{} pages mapped to {} frames: {} reclaimed",
        report.mapped, report.frames, report.reclaimed
    );
    if let Some(mpn) = machine.frame(1, 0)? {
        println!("guest 1 finds its page 0 in frame {mpn}");
    }
    Ok(())
}
