//! A hand-written pair of rings, every access `SeqCst`, timed as `page_bench rings` times the proved one.
//! `rustc -O benches/rings.rs -o /tmp/rings && /tmp/rings 1000000`
#![allow(dead_code)]

use std::cell::UnsafeCell;
use std::mem::MaybeUninit;
use std::sync::Arc;
use std::sync::atomic::{AtomicUsize, Ordering::SeqCst};
use std::thread;
use std::time::Instant;

struct ArrayVec {
    len: usize,
    bytes: [u8; 64],
}

enum Request {
    Propose(u32),
    Store { ppn: u32, at: u32, bytes: ArrayVec },
    Load { ppn: u32, at: u32, len: u32 },
    Release(u32),
    Count,
    Close,
}

enum Verdict {
    NoPage,
    Joined(u32),
    Bytes(ArrayVec),
    Released(bool),
    Totals([u32; 6]),
    Closed,
}

#[repr(align(128))]
struct Padded(AtomicUsize);

struct Shared<T> {
    head: Padded,
    tail: Padded,
    slots: Box<[UnsafeCell<MaybeUninit<T>>]>,
}

// Each slot is used by one end at a time: the producer below `head + capacity`, the consumer below `tail`.
unsafe impl<T: Send> Sync for Shared<T> {}

struct Producer<T> {
    shared: Arc<Shared<T>>,
    cached_head: usize,
    cached_tail: usize,
}

struct Consumer<T> {
    shared: Arc<Shared<T>>,
    cached_head: usize,
    cached_tail: usize,
}

// Positions run below twice the capacity, so that a full ring differs from an empty one.
fn distance(capacity: usize, from: usize, to: usize) -> usize {
    if from <= to { to - from } else { 2 * capacity - from + to }
}

fn collapse(capacity: usize, position: usize) -> usize {
    if position < capacity { position } else { position - capacity }
}

fn next(capacity: usize, position: usize) -> usize {
    if position + 1 == 2 * capacity { 0 } else { position + 1 }
}

fn ring<T>(capacity: usize) -> (Producer<T>, Consumer<T>) {
    let slots = (0..capacity).map(|_| UnsafeCell::new(MaybeUninit::uninit())).collect();
    let shared = Arc::new(Shared {
        head: Padded(AtomicUsize::new(0)),
        tail: Padded(AtomicUsize::new(0)),
        slots,
    });
    let producer = Producer { shared: shared.clone(), cached_head: 0, cached_tail: 0 };
    (producer, Consumer { shared, cached_head: 0, cached_tail: 0 })
}

impl<T> Producer<T> {
    fn free(&mut self) -> usize {
        self.cached_head = self.shared.head.0.load(SeqCst);
        let capacity = self.shared.slots.len();
        capacity - distance(capacity, self.cached_head, self.cached_tail)
    }

    fn push(&mut self, value: T) -> Result<(), T> {
        let capacity = self.shared.slots.len();
        if distance(capacity, self.cached_head, self.cached_tail) == capacity && self.free() == 0 {
            return Err(value);
        }
        let slot = self.shared.slots[collapse(capacity, self.cached_tail)].get();
        unsafe { (*slot).write(value) };
        self.cached_tail = next(capacity, self.cached_tail);
        self.shared.tail.0.store(self.cached_tail, SeqCst);
        Ok(())
    }
}

impl<T> Consumer<T> {
    fn pop(&mut self) -> Option<T> {
        let capacity = self.shared.slots.len();
        if self.cached_head == self.cached_tail {
            self.cached_tail = self.shared.tail.0.load(SeqCst);
            if self.cached_head == self.cached_tail {
                return None;
            }
        }
        let slot = self.shared.slots[collapse(capacity, self.cached_head)].get();
        let value = unsafe { (*slot).assume_init_read() };
        self.cached_head = next(capacity, self.cached_head);
        self.shared.head.0.store(self.cached_head, SeqCst);
        Some(value)
    }
}

struct Port {
    requests: Producer<Request>,
    verdicts: Consumer<Verdict>,
    drained: bool,
}

struct MergerEnd {
    requests: Consumer<Request>,
    verdicts: Producer<Verdict>,
    closing: bool,
    ended: bool,
}

fn ring_pair(capacity: usize) -> (Port, MergerEnd) {
    let (requests, taking) = ring(capacity);
    let (giving, verdicts) = ring(capacity);
    let port = Port { requests, verdicts, drained: false };
    (port, MergerEnd { requests: taking, verdicts: giving, closing: false, ended: false })
}

impl Port {
    fn propose(&mut self, ppn: u32) -> bool {
        self.requests.push(Request::Propose(ppn)).is_ok()
    }

    fn verdict(&mut self) -> Option<Verdict> {
        let verdict = self.verdicts.pop()?;
        self.drained = matches!(verdict, Verdict::Closed);
        Some(verdict)
    }
}

fn answer(request: &Request) -> Verdict {
    match request {
        Request::Propose(ppn) => Verdict::Joined(*ppn),
        Request::Close => Verdict::Closed,
        _ => Verdict::NoPage,
    }
}

impl MergerEnd {
    fn take(&mut self) -> Option<Request> {
        if self.closing {
            return None;
        }
        let request = self.requests.pop()?;
        self.closing = matches!(request, Request::Close);
        Some(request)
    }

    fn give(&mut self, verdict: Verdict) {
        self.ended = matches!(verdict, Verdict::Closed);
        assert!(self.verdicts.push(verdict).is_ok());
    }

    fn serve_one(&mut self) -> bool {
        if self.verdicts.free() == 0 {
            return false;
        }
        let Some(request) = self.take() else {
            return false;
        };
        self.give(answer(&request));
        true
    }
}

fn is_joined(verdict: Option<Verdict>, ppn: u32) -> bool {
    matches!(verdict, Some(Verdict::Joined(number)) if number == ppn)
}

fn on_one_thread(port: &mut Port, end: &mut MergerEnd, rounds: u32) -> u32 {
    let mut in_order = 0;
    for ppn in 0..rounds {
        let sent = port.propose(ppn);
        let served = end.serve_one();
        if sent && served && is_joined(port.verdict(), ppn) {
            in_order += 1;
        }
    }
    in_order
}

fn wait_for_verdict(port: &mut Port) -> Option<Verdict> {
    loop {
        if let Some(verdict) = port.verdict() {
            return Some(verdict);
        }
        thread::yield_now();
    }
}

fn ask(mut port: Port, rounds: u32) -> u32 {
    let mut in_order = 0;
    for ppn in 0..rounds {
        if port.propose(ppn) && is_joined(wait_for_verdict(&mut port), ppn) {
            in_order += 1;
        }
    }
    in_order
}

fn serve(end: &mut MergerEnd, rounds: u32) {
    let mut left = rounds;
    while left > 0 {
        if end.serve_one() {
            left -= 1;
        } else {
            thread::yield_now();
        }
    }
}

fn main() {
    let rounds: u32 = std::env::args().nth(1).and_then(|text| text.parse().ok()).unwrap_or(1000);
    let (mut port, mut end) = ring_pair(64);
    let start = Instant::now();
    let alone = on_one_thread(&mut port, &mut end, rounds);
    let alone_each = start.elapsed().as_nanos() / u128::from(rounds);
    let (port, mut end) = ring_pair(64);
    let start = Instant::now();
    let guest = thread::spawn(move || ask(port, rounds));
    serve(&mut end, rounds);
    let between = guest.join().unwrap();
    let between_each = start.elapsed().as_nanos() / u128::from(rounds);
    println!("in order: {alone} of {rounds} on one thread, {between} between two");
    println!("ns a round trip: {alone_each} on one thread, {between_each} between two");
}
