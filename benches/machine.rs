//! A machine that shares pages of equal content, in Rust as one would write it with `slab`, `sha2` and std's maps.
//!
//! It serves the requests of docs/MODEL.md and gives the same verdicts as the crate `merge_core`.
#![allow(dead_code)]

use sha2::{Digest, Sha256};
use slab::Slab;
use std::collections::HashMap;

pub const PAGE: usize = 4096;

type Page = [u8; PAGE];

/// The bytes of a store or a load: at most 64.
#[derive(Clone, Copy)]
pub struct Bytes {
    len: u8,
    bytes: [u8; 64],
}

impl Bytes {
    pub fn new(bytes: &[u8]) -> Bytes {
        let mut room = [0; 64];
        room[..bytes.len()].copy_from_slice(bytes);
        Bytes { len: bytes.len() as u8, bytes: room }
    }

    pub fn as_slice(&self) -> &[u8] {
        &self.bytes[..usize::from(self.len)]
    }
}

#[derive(Clone, Copy)]
pub enum Request {
    Propose(u32),
    Store { ppn: u32, at: u32, bytes: Bytes },
    Load { ppn: u32, at: u32, len: u32 },
    Release(u32),
    Count,
    Close,
}

#[derive(Clone, Copy)]
pub struct Report {
    pub entries: u32,
    pub mapped: u32,
    pub shared: u32,
    pub frames: u32,
    pub hints: u32,
}

pub enum Verdict {
    NoPage,
    Unmapped,
    Already,
    Joined(u32),
    Paired,
    Hinted,
    Kept,
    Replaced,
    Ineligible,
    Mapped,
    Stored,
    Copied,
    Taken,
    NoFrame,
    Bytes(Bytes),
    Released(bool),
    Totals(Report),
    Closed,
}

#[derive(Clone, Copy)]
enum Slot {
    Unmapped,
    Private { frame: usize, hint: Option<u32> },
    Shared { frame: usize, hash: u64 },
}

struct Guest {
    salt: u32,
    slots: Vec<Slot>,
}

struct SharedFrame {
    frame: usize,
    salt: u32,
    count: u32,
}

pub struct Machine {
    total: usize,
    frames: Slab<Page>,
    guests: Vec<Guest>,
    shared: HashMap<u64, SharedFrame>,
    hints: HashMap<u32, (usize, u32)>,
    entries: u32,
    mapped_pages: u32,
    shared_pages: u32,
}

fn hash_of(salt: u32, page: &Page) -> u64 {
    let mut hasher = Sha256::new();
    if salt != 0 {
        hasher.update(salt.to_be_bytes());
    }
    hasher.update(page);
    let digest = hasher.finalize();
    u64::from_be_bytes(digest[..8].try_into().unwrap())
}

impl Machine {
    pub fn new(total: usize, pages: &[u32], salts: &[u32]) -> Machine {
        let guests = pages.iter().zip(salts);
        let guests = guests.map(|(&count, &salt)| Guest { salt, slots: vec![Slot::Unmapped; count as usize] });
        Machine {
            total,
            frames: Slab::with_capacity(total),
            guests: guests.collect(),
            shared: HashMap::new(),
            hints: HashMap::new(),
            entries: 0,
            mapped_pages: 0,
            shared_pages: 0,
        }
    }

    pub fn report(&self) -> Report {
        Report {
            entries: self.entries,
            mapped: self.mapped_pages,
            shared: self.shared_pages,
            frames: self.frames.len() as u32,
            hints: self.hints.len() as u32,
        }
    }

    pub fn apply(&mut self, guest: usize, request: &Request) -> Verdict {
        self.entries += 1;
        match *request {
            Request::Propose(ppn) => self.propose(guest, ppn),
            Request::Store { ppn, at, ref bytes } => self.store(guest, ppn, at as usize, bytes.as_slice()),
            Request::Load { ppn, at, len } => self.load(guest, ppn, at as usize, len as usize),
            Request::Release(ppn) => self.release(guest, ppn),
            Request::Count => Verdict::Totals(self.report()),
            Request::Close => Verdict::Closed,
        }
    }

    fn slot(&self, guest: usize, ppn: u32) -> Option<Slot> {
        self.guests[guest].slots.get(ppn as usize).copied()
    }

    fn set(&mut self, guest: usize, ppn: u32, slot: Slot) {
        self.guests[guest].slots[ppn as usize] = slot;
    }

    fn store(&mut self, guest: usize, ppn: u32, at: usize, bytes: &[u8]) -> Verdict {
        let is_full = self.frames.len() == self.total;
        let (frame, verdict) = match self.slot(guest, ppn) {
            None => return Verdict::NoPage,
            Some(Slot::Unmapped) if is_full => return Verdict::NoFrame,
            Some(Slot::Unmapped) => {
                self.mapped_pages += 1;
                (self.frames.insert([0; PAGE]), Verdict::Mapped)
            }
            Some(Slot::Private { frame, .. }) => {
                self.frames[frame][at..at + bytes.len()].copy_from_slice(bytes);
                return Verdict::Stored;
            }
            Some(Slot::Shared { frame, hash }) if self.shared[&hash].count == 1 => {
                self.leave(hash);
                (frame, Verdict::Taken)
            }
            Some(Slot::Shared { .. }) if is_full => return Verdict::NoFrame,
            Some(Slot::Shared { frame, hash }) => {
                self.leave(hash);
                let page = self.frames[frame];
                (self.frames.insert(page), Verdict::Copied)
            }
        };
        self.frames[frame][at..at + bytes.len()].copy_from_slice(bytes);
        self.set(guest, ppn, Slot::Private { frame, hint: None });
        verdict
    }

    fn load(&self, guest: usize, ppn: u32, at: usize, len: usize) -> Verdict {
        match self.slot(guest, ppn) {
            None => Verdict::NoPage,
            Some(Slot::Unmapped) => Verdict::Bytes(Bytes::new(&[0; 64][..len])),
            Some(Slot::Private { frame, .. } | Slot::Shared { frame, .. }) => {
                Verdict::Bytes(Bytes::new(&self.frames[frame][at..at + len]))
            }
        }
    }

    // One page less has the shared frame, which goes from the table with the last. The count left.
    fn leave(&mut self, hash: u64) -> u32 {
        self.shared_pages -= 1;
        let entry = self.shared.get_mut(&hash).unwrap();
        entry.count -= 1;
        let left = entry.count;
        if left == 0 {
            self.shared.remove(&hash);
        }
        left
    }

    fn release(&mut self, guest: usize, ppn: u32) -> Verdict {
        let is_freed = match self.slot(guest, ppn) {
            None => return Verdict::NoPage,
            Some(Slot::Unmapped) => return Verdict::Unmapped,
            Some(Slot::Private { frame, hint }) => {
                if let Some(key) = hint {
                    self.hints.remove(&key);
                }
                self.frames.remove(frame);
                true
            }
            Some(Slot::Shared { frame, hash }) => {
                let is_last = self.leave(hash) == 0;
                if is_last {
                    self.frames.remove(frame);
                }
                is_last
            }
        };
        self.mapped_pages -= 1;
        self.set(guest, ppn, Slot::Unmapped);
        Verdict::Released(is_freed)
    }

    fn propose(&mut self, guest: usize, ppn: u32) -> Verdict {
        let (frame, hint) = match self.slot(guest, ppn) {
            None => return Verdict::NoPage,
            Some(Slot::Unmapped) => return Verdict::Unmapped,
            Some(Slot::Shared { .. }) => return Verdict::Already,
            Some(Slot::Private { frame, hint }) => (frame, hint),
        };
        let salt = self.guests[guest].salt;
        let hash = hash_of(salt, &self.frames[frame]);
        let key = hash as u32;
        let hint = match hint {
            Some(own) if own != key => {
                self.hints.remove(&own);
                self.set(guest, ppn, Slot::Private { frame, hint: None });
                None
            }
            kept => kept,
        };
        if let Some(entry) = self.shared.get_mut(&hash) {
            if entry.salt != salt || self.frames[entry.frame] != self.frames[frame] {
                return Verdict::Ineligible;
            }
            entry.count += 1;
            let (count, kept) = (entry.count, entry.frame);
            if let Some(own) = hint {
                self.hints.remove(&own);
            }
            self.shared_pages += 1;
            self.frames.remove(frame);
            self.set(guest, ppn, Slot::Shared { frame: kept, hash });
            return Verdict::Joined(count);
        }
        self.offer(guest, ppn, frame, hash)
    }

    // Under the page's key: no hint, its own, or that of another page.
    fn offer(&mut self, guest: usize, ppn: u32, frame: usize, hash: u64) -> Verdict {
        let key = hash as u32;
        let offered = Slot::Private { frame, hint: Some(key) };
        let Some(&(other_guest, other_ppn)) = self.hints.get(&key) else {
            self.hints.insert(key, (guest, ppn));
            self.set(guest, ppn, offered);
            return Verdict::Hinted;
        };
        if (other_guest, other_ppn) == (guest, ppn) {
            return Verdict::Kept;
        }
        let Some(Slot::Private { frame: other, .. }) = self.slot(other_guest, other_ppn) else {
            unreachable!("a hint page is private");
        };
        let salt = self.guests[guest].salt;
        let other_salt = self.guests[other_guest].salt;
        if other_salt == salt && self.frames[other] == self.frames[frame] {
            self.hints.remove(&key);
            self.shared.insert(hash, SharedFrame { frame: other, salt, count: 2 });
            self.shared_pages += 2;
            self.frames.remove(frame);
            self.set(other_guest, other_ppn, Slot::Shared { frame: other, hash });
            self.set(guest, ppn, Slot::Shared { frame: other, hash });
            return Verdict::Paired;
        }
        if hash_of(other_salt, &self.frames[other]) as u32 == key {
            return Verdict::Ineligible;
        }
        self.hints.insert(key, (guest, ppn));
        self.set(other_guest, other_ppn, Slot::Private { frame: other, hint: None });
        self.set(guest, ppn, offered);
        Verdict::Replaced
    }
}
