//! Memory for frames that can be mapped.
use crate::machine::PAGE_BYTES;
use std::ffi::{c_char, c_int, c_uint, c_void};
use std::fmt;
use std::fs::File;
use std::io;
use std::os::fd::{AsRawFd, FromRawFd};

/// Memory for the frames of one machine, in a memory file of its own (Linux). Frame n is the 4,096 bytes at 4096 n of the file.
///
/// A machine that was made with a region ([`Builder::region`](crate::Builder::region)) keeps it, and frees it when it is dropped.
///
/// It is `Send` and `Sync`: what a shared reference allows is to open the file.
pub struct Region {
    file: File,
    at: *mut c_void,
    frames: u32,
}

// SAFETY: the mapping is this region's alone, and may be used and undone by any thread.
unsafe impl Send for Region {}

// SAFETY: no call with a shared reference reads or writes the mapped memory.
unsafe impl Sync for Region {}

const MFD_CLOEXEC: c_uint = 1;
const PROT_READ_WRITE: c_int = 3;
const MAP_SHARED: c_int = 1;
const MADV_REMOVE: c_int = 9;

extern "C" {
    fn memfd_create(name: *const c_char, flags: c_uint) -> c_int;
    fn mmap(
        at: *mut c_void,
        bytes: usize,
        rights: c_int,
        flags: c_int,
        file: c_int,
        from: i64,
    ) -> *mut c_void;
    fn munmap(at: *mut c_void, bytes: usize) -> c_int;
    fn madvise(at: *mut c_void, bytes: usize, advice: c_int) -> c_int;
}

impl Region {
    /// Makes a region for so many frames. The system gives memory for a frame when it is first written.
    ///
    /// ```
    /// # fn main() -> std::io::Result<()> {
    /// let region = pageshare::Region::new(512)?;
    /// assert_eq!(region.frames(), 512);
    /// # Ok(())
    /// # }
    /// ```
    ///
    /// # Errors
    ///
    /// What the system says, and [`io::ErrorKind::InvalidInput`] for no frame.
    pub fn new(frames: u32) -> io::Result<Region> {
        if frames == 0 {
            return Err(io::Error::new(
                io::ErrorKind::InvalidInput,
                "a region has room for a frame",
            ));
        }
        // SAFETY: the name ends with a zero byte.
        let number = unsafe { memfd_create(c"frames".as_ptr(), MFD_CLOEXEC) };
        if number < 0 {
            return Err(io::Error::last_os_error());
        }
        // SAFETY: the number is of a file that was opened just now, and nobody else has it.
        let file = unsafe { File::from_raw_fd(number) };
        let bytes = frames as usize * PAGE_BYTES;
        file.set_len(bytes as u64)?;
        // SAFETY: a new mapping, at a place that the system chooses.
        let at = unsafe {
            mmap(
                std::ptr::null_mut(),
                bytes,
                PROT_READ_WRITE,
                MAP_SHARED,
                file.as_raw_fd(),
                0,
            )
        };
        if at as isize == -1 {
            return Err(io::Error::last_os_error());
        }
        Ok(Region { file, at, frames })
    }

    /// How many frames there is room for.
    pub fn frames(&self) -> u32 {
        self.frames
    }

    /// Opens the file for reading alone, so that frames can be read, or mapped for guests to read.
    ///
    /// ```
    /// # fn main() -> Result<(), Box<dyn std::error::Error>> {
    /// use pageshare::{Guest, LendVerdict, Machine, Region, PAGE_BYTES};
    /// use std::os::unix::fs::FileExt;
    ///
    /// let guests = [Guest { pages: 1, salt: 0 }];
    /// let mut machine = Machine::builder(1, &guests).region(Region::new(1)?).build()?;
    /// let LendVerdict::Lent(lent) = machine.lend(0, 0, &[7; PAGE_BYTES])? else {
    ///     return Err("not lent".into());
    /// };
    /// let file = machine.region().ok_or("no region")?.open_read_only()?;
    /// let mut frame = [0; PAGE_BYTES];
    /// file.read_exact_at(&mut frame, u64::from(lent.frame) * 4096)?;
    /// assert_eq!(frame, [7; PAGE_BYTES]);
    /// # Ok(())
    /// # }
    /// ```
    ///
    /// # Errors
    ///
    /// What the system says.
    pub fn open_read_only(&self) -> io::Result<File> {
        File::open(format!("/proc/self/fd/{}", self.file.as_raw_fd()))
    }

    /// Gives the memory of a frame that no page has back to the system. It reads as zeros until it is written again.
    pub(crate) fn give_back(&self, frame: u32) -> io::Result<()> {
        if frame >= self.frames {
            return Err(io::Error::new(
                io::ErrorKind::InvalidInput,
                "the region has no such frame",
            ));
        }
        // SAFETY: the frame is within the mapping, and no call of the library runs, which alone reads or writes it. No page has the
        // frame, as the caller has looked.
        let done = unsafe {
            madvise(
                self.at.cast::<u8>().add(frame as usize * PAGE_BYTES).cast(),
                PAGE_BYTES,
                MADV_REMOVE,
            )
        };
        if done == 0 {
            Ok(())
        } else {
            Err(io::Error::last_os_error())
        }
    }

    pub(crate) fn address(&self) -> *mut c_void {
        self.at
    }
}

impl Drop for Region {
    fn drop(&mut self) {
        // SAFETY: the mapping is this region's, and no machine uses it any more: a machine frees itself before its region.
        unsafe { munmap(self.at, self.frames as usize * PAGE_BYTES) };
    }
}

impl fmt::Debug for Region {
    fn fmt(&self, f: &mut fmt::Formatter<'_>) -> fmt::Result {
        f.debug_struct("Region")
            .field("frames", &self.frames)
            .finish_non_exhaustive()
    }
}
