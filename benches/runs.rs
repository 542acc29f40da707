//! Whole runs with a thread for each guest, over std's bounded channels, for comparison with `page_bench run`.
mod machine;

use machine::{Bytes, Machine, Request, Verdict};
use std::sync::mpsc::{sync_channel, Receiver, SyncSender, TryRecvError};
use std::thread;
use std::time::Instant;

const PAGES: u32 = 64;
const RING: usize = 256;

// What a guest's request number n stores before a proposal: every fourth page holds the same in all guests, and no two of the
// others do.
fn content(guest: usize, n: u32) -> [u8; 8] {
    let [a, b, c, d] = n.to_be_bytes();
    match n / 16 % 4 {
        0 => [1; 8],
        _ => [guest as u8, 2, 2, 2, a, b, c, d],
    }
}

// Request number n of a guest: with a proposal in 16, or stores and loads alone.
fn request(proposes: bool, guest: usize, n: u32) -> Request {
    let turn = if proposes { 16 } else { 2 };
    let ppn = n / turn % PAGES;
    match n % turn {
        0 if proposes => Request::Store { ppn, at: 0, bytes: Bytes::new(&content(guest, n)) },
        0 => Request::Store { ppn, at: 0, bytes: Bytes::new(&[(ppn % 4) as u8; 8]) },
        15 => Request::Propose(ppn),
        _ => Request::Load { ppn, at: 0, len: 8 },
    }
}

struct Port {
    requests: SyncSender<Request>,
    verdicts: Receiver<Verdict>,
}

// Sends the guest's requests and its close, and takes its verdicts; how many there were.
fn serve_guest(port: Port, script: Vec<Request>) -> usize {
    let mut got = 0;
    for request in script {
        port.requests.send(request).unwrap();
        got += port.verdicts.try_iter().count();
    }
    drop(port.requests);
    got + port.verdicts.iter().count()
}

// Serves the guests in turn until each has ended.
fn merge(machine: &mut Machine, ends: Vec<(Receiver<Request>, SyncSender<Verdict>)>) {
    let mut ends: Vec<_> = ends.into_iter().enumerate().collect();
    while !ends.is_empty() {
        ends.retain(|(guest, (requests, verdicts))| match requests.try_recv() {
            Ok(request) => {
                verdicts.send(machine.apply(*guest, &request)).unwrap();
                true
            }
            Err(TryRecvError::Empty) => true,
            Err(TryRecvError::Disconnected) => false,
        });
        thread::yield_now();
    }
}

// How many requests of so many guests are served in a second.
fn rate(guests: usize, requests: u32, proposes: bool) -> u128 {
    let scripts: Vec<Vec<Request>> = (0..guests).map(|guest| (0..requests).map(|n| request(proposes, guest, n)).collect()).collect();
    let pages = vec![PAGES; guests];
    let mut machine = Machine::new(guests * PAGES as usize, &pages, &vec![0; guests]);
    let start = Instant::now();
    let got: usize = thread::scope(|scope| {
        let mut ends = Vec::new();
        let mut threads = Vec::new();
        for script in scripts {
            let (requests, taken) = sync_channel(RING);
            // A guest that waits to send takes no verdict meanwhile, so there is room for all that it may owe.
            let (given, verdicts) = sync_channel(2 * RING + 2);
            ends.push((taken, given));
            threads.push(scope.spawn(move || serve_guest(Port { requests, verdicts }, script)));
        }
        merge(&mut machine, ends);
        threads.into_iter().map(|thread| thread.join().unwrap()).sum()
    });
    got as u128 * 1_000_000_000 / start.elapsed().as_nanos().max(1)
}

fn main() {
    let requests: u32 = std::env::args().nth(1).and_then(|word| word.parse().ok()).unwrap_or(100_000);
    for guests in [1usize, 2, 4, 8, 64] {
        println!("{guests} guests, a proposal in 16: {} a second", rate(guests, requests, true));
        println!("{guests} guests, stores and loads: {} a second", rate(guests, requests, false));
    }
}
