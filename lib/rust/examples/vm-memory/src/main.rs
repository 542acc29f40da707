//! Lends the memory of two guests, which `vm_memory::GuestMemoryMmap` describes, to a machine, and takes a page back.
//!
//! It stands for a monitor whose guests are stopped or write-protected while it lends: here nobody else writes to their memory. After a
//! page was lent, its frame is mapped in the page's place for reading alone, so the guest reads on as before and its own memory goes
//! back to the system. At a write the monitor takes the page back into new memory of its own.
use pageshare::{Guest, LendVerdict, Machine, Region, ReturnVerdict, PAGE_BYTES};
use std::error::Error;
use std::fs::File;
use std::io;
use std::os::fd::AsRawFd;
use vm_memory::{Bytes, GuestAddress, GuestMemory, GuestMemoryMmap};

const GUESTS: u32 = 2;
const PAGES: u32 = 256;

type Done<T> = Result<T, Box<dyn Error>>;

fn place(ppn: u32) -> GuestAddress {
    GuestAddress(u64::from(ppn) * PAGE_BYTES as u64)
}

/// A guest whose even pages are the same as the other guest's, and whose odd ones are its own.
fn boot(guest: u32) -> Done<GuestMemoryMmap> {
    let memory = GuestMemoryMmap::from_ranges(&[(place(0), PAGES as usize * PAGE_BYTES)])?;
    for ppn in 0..PAGES {
        let number = if ppn % 2 == 0 {
            ppn
        } else {
            ppn + PAGES * (guest + 1)
        };
        memory.write_slice(&[number.to_le_bytes(); PAGE_BYTES / 4].concat(), place(ppn))?;
    }
    Ok(memory)
}

/// Maps something in a guest's page's place: a frame for reading alone, or new memory for reading and writing.
fn map_over(memory: &GuestMemoryMmap, ppn: u32, frame: Option<(&File, u32)>) -> Done<()> {
    let at = memory.get_host_address(place(ppn))?.cast();
    let (rights, flags, file, offset) = match frame {
        Some((file, frame)) => (
            libc::PROT_READ,
            libc::MAP_SHARED,
            file.as_raw_fd(),
            i64::from(frame) * PAGE_BYTES as i64,
        ),
        None => (
            libc::PROT_READ | libc::PROT_WRITE,
            libc::MAP_PRIVATE | libc::MAP_ANONYMOUS,
            -1,
            0,
        ),
    };
    // SAFETY: the page is the guest's, within its mapping, and no reference to it lives.
    let mapped = unsafe {
        libc::mmap(
            at,
            PAGE_BYTES,
            rights,
            flags | libc::MAP_FIXED,
            file,
            offset,
        )
    };
    if mapped == libc::MAP_FAILED {
        return Err(io::Error::last_os_error().into());
    }
    Ok(())
}

/// Lends all pages of a guest.
fn lend(machine: &mut Machine, frames: &File, guest: u32, memory: &GuestMemoryMmap) -> Done<()> {
    for ppn in 0..PAGES {
        let at = memory.get_host_address(place(ppn))?;
        // SAFETY: the page is mapped, and nobody writes to it meanwhile.
        match unsafe { machine.lend_at(guest, ppn, at) }? {
            LendVerdict::Lent(lent) => map_over(memory, ppn, Some((frames, lent.frame)))?,
            refused => return Err(format!("page {ppn} of guest {guest}: {refused}").into()),
        }
    }
    Ok(())
}

/// What a monitor does at a guest's write to a lent page: the page gets memory of its own, with the bytes that it had.
fn take_back(machine: &mut Machine, guest: u32, memory: &GuestMemoryMmap, ppn: u32) -> Done<()> {
    let mut page = [0; PAGE_BYTES];
    let ReturnVerdict::Released { freed } = machine.take_back(guest, ppn, &mut page)? else {
        return Err("the page was not lent".into());
    };
    map_over(memory, ppn, None)?;
    memory.write_slice(&page, place(ppn))?;
    if let Some(frame) = freed {
        machine.give_back(frame)?;
    }
    Ok(())
}

fn main() -> Done<()> {
    let guests = [Guest {
        pages: PAGES,
        salt: 0,
    }; GUESTS as usize];
    let frames = GUESTS * PAGES;
    let mut machine = Machine::builder(frames, &guests)
        .region(Region::new(frames)?)
        .build()?;
    let file = machine.region().ok_or("no region")?.open_read_only()?;
    let memories = (0..GUESTS).map(boot).collect::<Done<Vec<_>>>()?;
    for (guest, memory) in (0..).zip(&memories) {
        lend(&mut machine, &file, guest, memory)?;
    }
    let report = machine.report();
    println!(
        "{} pages in {} frames: {} reclaimed",
        report.mapped, report.frames, report.reclaimed
    );
    take_back(&mut machine, 1, &memories[1], 4)?;
    memories[1].write_slice(b"its own", place(4))?;
    let words = [0, 1].map(|guest: usize| memories[guest].read_obj::<u32>(place(4)));
    println!(
        "guest 0 reads {:x?} at page 4, guest 1 reads {:x?}",
        words[0].as_ref().ok(),
        words[1].as_ref().ok()
    );
    let report = machine.report();
    println!(
        "{} pages in {} frames: {} reclaimed",
        report.mapped, report.frames, report.reclaimed
    );
    Ok(())
}
