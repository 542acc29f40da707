//! The machine.
use crate::error::{MakeError, NoSuchPage, RequestError};
use crate::ffi::{self, Answer, Handle, PageName, Totals};
use crate::frames::FramesInUse;
use crate::region::Region;
use crate::verdict::{
    LendVerdict, LoadVerdict, ProposeVerdict, ReleaseVerdict, Report, ReturnVerdict, StoreVerdict,
};
use std::cell::UnsafeCell;
use std::fmt;
use std::io;
use std::marker::PhantomData;

/// The bytes of a page.
pub const PAGE_BYTES: usize = 4096;

/// The most bytes that one store or load names.
pub const MAX_ACCESS: usize = 64;

/// The bytes of one page.
pub type Page = [u8; PAGE_BYTES];

/// The most guests of a machine, and one more, which the library refuses.
const TOO_MANY_GUESTS: usize = 65;

/// How many pages are handed to the library together to be hashed.
const HASHED_TOGETHER: usize = 64;

/// A guest of a new machine.
#[derive(Clone, Copy, Debug, PartialEq, Eq, Hash)]
pub struct Guest {
    /// How many pages it has.
    pub pages: u32,
    /// Pages of guests with different salts are never shared.
    pub salt: u32,
}

/// A page that is to be lent ([`Machine::lend_many`]), and where its bytes are.
///
/// It holds a pointer and not a reference, so it may also name memory that a guest writes to between calls ([`Lending::at`]).
///
/// ```
/// use pageshare::{Lending, PAGE_BYTES};
///
/// let page = [7; PAGE_BYTES];
/// let lending = Lending::new(0, 17, &page);
/// assert_eq!((lending.guest(), lending.ppn()), (0, 17));
/// ```
#[repr(C)]
#[derive(Clone, Copy, Debug)]
pub struct Lending<'a> {
    guest: u32,
    ppn: u32,
    page: *const u8,
    bytes: PhantomData<&'a Page>,
}

impl<'a> Lending<'a> {
    /// A page of this guest and number, with these bytes.
    pub fn new(guest: u32, ppn: u32, page: &'a Page) -> Lending<'a> {
        Lending {
            guest,
            ppn,
            page: page.as_ptr(),
            bytes: PhantomData,
        }
    }

    /// The same, with the 4,096 bytes at this address, such as memory that is mapped for a guest.
    ///
    /// # Safety
    ///
    /// For `'a` the bytes can be read. While a call runs that gets this value, nobody writes to them: not the guest, whose right to
    /// write is taken before, nor a device, nor another thread.
    ///
    /// ```
    /// use pageshare::{Guest, Lending, Machine, PAGE_BYTES};
    ///
    /// # fn main() -> Result<(), Box<dyn std::error::Error>> {
    /// let mut memory = vec![7_u8; 2 * PAGE_BYTES];
    /// let start = memory.as_mut_ptr();
    /// let mut machine = Machine::new(2, &[Guest { pages: 2, salt: 0 }])?;
    /// // SAFETY: both pages are in the vector, which nobody writes to until they are lent.
    /// let pages = [0, 1].map(|ppn| unsafe { Lending::at(0, ppn, start.add(ppn as usize * PAGE_BYTES)) });
    /// assert!(machine.lend_many(&pages).iter().all(Result::is_ok));
    /// assert_eq!(machine.report().reclaimed, 1);
    /// # Ok(())
    /// # }
    /// ```
    pub const unsafe fn at(guest: u32, ppn: u32, page: *const u8) -> Lending<'a> {
        Lending {
            guest,
            ppn,
            page,
            bytes: PhantomData,
        }
    }

    /// The page's guest.
    pub const fn guest(&self) -> u32 {
        self.guest
    }

    /// The page's number.
    pub const fn ppn(&self) -> u32 {
        self.ppn
    }
}

/// The hash by which a machine finds equal pages. They are compared in full before they share a frame, whatever the hash.
#[derive(Clone, Copy, Debug, Default, PartialEq, Eq, Hash)]
#[non_exhaustive]
pub enum HashKind {
    /// The first eight bytes of SHA-256.
    #[default]
    Sha256,
    /// Some 20 times as fast. Who knows the salt can make a page of any hash, so draw salts at random and keep them secret.
    Fold,
    /// The same as `Sha256`, computed for eight pages at once: for a library that is built for x86-64-v3.
    WideSha256,
}

impl HashKind {
    pub(crate) fn number(self) -> u32 {
        match self {
            HashKind::Sha256 => 0,
            HashKind::Fold => 1,
            HashKind::WideSha256 => 2,
        }
    }
}

/// A machine: guests with pages of 4,096 bytes, in frames that equal pages share.
///
/// Guests are numbered from 0 in the order in which the machine was given them, and so are a guest's pages, whose numbers are
/// its physical page numbers (PPN). All memory is taken when the machine is made.
///
/// A machine may go to another thread, and is used by one at a time: it is `Send` and not `Sync`.
///
/// ```
/// # use pageshare::{Guest, Machine};
/// # fn main() -> Result<(), Box<dyn std::error::Error>> {
/// let machine = Machine::new(1, &[Guest { pages: 1, salt: 0 }])?;
/// let there = std::thread::spawn(move || machine.report().mapped);
/// assert_eq!(there.join().ok(), Some(0));
/// # Ok(())
/// # }
/// ```
///
/// ```compile_fail
/// # use pageshare::{Guest, Machine};
/// # let Ok(machine) = Machine::new(1, &[Guest { pages: 1, salt: 0 }]) else { return };
/// std::thread::scope(|scope| {
///     scope.spawn(|| machine.report());
/// });
/// ```
pub struct Machine {
    /// It holds a machine from `new` to `drop`, and is never copied.
    ///
    /// In a cell, since calls that only read write it too, and leave it as it was. No reference to it outlives a call, and no
    /// other thread has one.
    handle: UnsafeCell<Handle>,
    /// The frames' memory, if the caller chose it, and which of them are in use. It is dropped after the machine was freed.
    region: Option<(Region, FramesInUse)>,
}

/// A machine that is to be made, from [`Machine::builder`].
///
/// ```
/// # fn main() -> Result<(), Box<dyn std::error::Error>> {
/// use pageshare::{Guest, HashKind, Machine, Region};
///
/// let guests = [Guest { pages: 512, salt: 0x51ed_270b }];
/// let machine = Machine::builder(512, &guests)
///     .hash(HashKind::Fold)
///     .region(Region::new(512)?)
///     .build()?;
/// assert_eq!(machine.region().map(Region::frames), Some(512));
/// # Ok(())
/// # }
/// ```
#[derive(Debug)]
#[must_use = "a builder makes a machine by `build`"]
pub struct Builder<'a> {
    frames: u32,
    guests: &'a [Guest],
    hash: HashKind,
    region: Option<Region>,
}

impl Builder<'_> {
    /// Finds equal pages by this hash.
    pub fn hash(mut self, hash: HashKind) -> Self {
        self.hash = hash;
        self
    }

    /// Puts the frames into this region.
    pub fn region(mut self, region: Region) -> Self {
        self.region = Some(region);
        self
    }

    /// Makes the machine.
    ///
    /// # Errors
    ///
    /// The first of the causes of [`MakeError`], in their order.
    pub fn build(self) -> Result<Machine, MakeError> {
        let mut pages = [0; TOO_MANY_GUESTS];
        let mut salts = [0; TOO_MANY_GUESTS];
        let count = self.guests.len().min(TOO_MANY_GUESTS);
        for (guest, (pages, salt)) in self.guests.iter().zip(pages.iter_mut().zip(&mut salts)) {
            *pages = guest.pages;
            *salt = guest.salt;
        }
        let machine = Machine {
            handle: UnsafeCell::new(Handle::NONE),
            region: self.region.map(|region| {
                let in_use = FramesInUse::new(region.frames());
                (region, in_use)
            }),
        };
        let (handle, hash) = (machine.handle.get(), self.hash.number());
        let (pages, salts) = (pages.as_ptr(), salts.as_ptr());
        // SAFETY: the handle holds no machine, and both lists have at least `count` numbers. A region is mapped for as many frames
        // as it says, nobody else writes to it, and it outlives the machine.
        let status = unsafe {
            match &machine.region {
                None => ffi::pageshare_make_hashed(
                    handle,
                    self.frames,
                    pages,
                    count,
                    salts,
                    count,
                    hash,
                ),
                Some((region, _)) => {
                    let rooms = ffi::Region {
                        at: region.address(),
                        pages: region.frames().min(self.frames) as usize,
                    };
                    ffi::pageshare_make_in(
                        handle,
                        self.frames,
                        pages,
                        count,
                        salts,
                        count,
                        hash,
                        rooms,
                    )
                }
            }
        };
        match status {
            0 => Ok(machine),
            _ => Err(MakeError::of(status)),
        }
    }
}

// SAFETY: the library's handle may go to another thread, with the machine that it holds, which nobody else has.
unsafe impl Send for Machine {}

impl Machine {
    /// Makes a machine with so many frames for the pages of these guests, which finds equal pages by SHA-256.
    ///
    /// ```
    /// # fn main() -> Result<(), Box<dyn std::error::Error>> {
    /// use pageshare::{Guest, Machine};
    ///
    /// let machine = Machine::new(1024, &[Guest { pages: 512, salt: 0 }; 2])?;
    /// assert_eq!(machine.report().frames, 0);
    /// # Ok(())
    /// # }
    /// ```
    ///
    /// # Errors
    ///
    /// The first of the causes of [`MakeError`], in their order.
    pub fn new(frames: u32, guests: &[Guest]) -> Result<Machine, MakeError> {
        Machine::builder(frames, guests).build()
    }

    /// The same with a hash of the caller's choice.
    ///
    /// ```
    /// # fn main() -> Result<(), Box<dyn std::error::Error>> {
    /// use pageshare::{Guest, HashKind, Machine};
    ///
    /// let machine = Machine::with_hash(8, &[Guest { pages: 8, salt: 7 }], HashKind::Fold)?;
    /// assert_eq!(machine.report().mapped, 0);
    /// # Ok(())
    /// # }
    /// ```
    ///
    /// # Errors
    ///
    /// The first of the causes of [`MakeError`], in their order.
    pub fn with_hash(frames: u32, guests: &[Guest], hash: HashKind) -> Result<Machine, MakeError> {
        Machine::builder(frames, guests).hash(hash).build()
    }

    /// Begins a machine with so many frames for the pages of these guests. By default it finds equal pages by SHA-256, and its
    /// frames are in memory of the library's. [`Builder`] has an example.
    pub fn builder(frames: u32, guests: &[Guest]) -> Builder<'_> {
        Builder {
            frames,
            guests,
            hash: HashKind::default(),
            region: None,
        }
    }

    /// The region that the machine's frames are in, if it was made with one.
    pub fn region(&self) -> Option<&Region> {
        self.region.as_ref().map(|(region, _)| region)
    }

    /// Gives the memory of a frame in the machine's region back to the system. It is for frames that no page has, such as those
    /// that verdicts call freed.
    ///
    /// ```
    /// # fn main() -> Result<(), Box<dyn std::error::Error>> {
    /// use pageshare::{Guest, LendVerdict, Machine, Region, ReturnVerdict, PAGE_BYTES};
    ///
    /// let mut machine = Machine::builder(1, &[Guest { pages: 1, salt: 0 }])
    ///     .region(Region::new(1)?)
    ///     .build()?;
    /// let LendVerdict::Lent(lent) = machine.lend(0, 0, &[7; PAGE_BYTES])? else {
    ///     return Err("not lent".into());
    /// };
    /// assert!(machine.give_back(lent.frame).is_err());
    /// let mut page = [0; PAGE_BYTES];
    /// let returned = machine.take_back(0, 0, &mut page)?;
    /// assert_eq!(returned, ReturnVerdict::Released { freed: Some(lent.frame) });
    /// machine.give_back(lent.frame)?;
    /// # Ok(())
    /// # }
    /// ```
    ///
    /// # Errors
    ///
    /// What the system says, and [`io::ErrorKind::InvalidInput`] for a machine with no region, a frame that is not in it, or one that
    /// a page has.
    pub fn give_back(&mut self, frame: u32) -> io::Result<()> {
        match &self.region {
            Some((_, in_use)) if in_use.contains(frame) => Err(io::Error::new(
                io::ErrorKind::InvalidInput,
                "a page has this frame",
            )),
            Some((region, _)) => region.give_back(frame),
            None => Err(io::Error::new(
                io::ErrorKind::InvalidInput,
                "the machine has no region",
            )),
        }
    }

    /// Notes what an answer says of frames, if they are in a region.
    fn noted(&mut self, answer: Answer) -> Answer {
        if let Some((_, in_use)) = &mut self.region {
            in_use.note(&answer);
        }
        answer
    }

    /// Proposes a page for sharing.
    ///
    /// ```
    /// # fn main() -> Result<(), Box<dyn std::error::Error>> {
    /// use pageshare::{Guest, Machine, ProposeVerdict};
    ///
    /// let mut machine = Machine::new(2, &[Guest { pages: 2, salt: 0 }])?;
    /// for ppn in [0, 1] {
    ///     let _mapped = machine.store(0, ppn, 0, b"A")?;
    /// }
    /// assert_eq!(machine.propose(0, 0)?, ProposeVerdict::Hinted);
    /// assert_eq!(machine.propose(0, 1)?, ProposeVerdict::Paired);
    /// # Ok(())
    /// # }
    /// ```
    ///
    /// # Errors
    ///
    /// [`RequestError::NoGuest`] and [`RequestError::Full`].
    pub fn propose(&mut self, guest: u32, ppn: u32) -> Result<ProposeVerdict, RequestError> {
        // SAFETY: the handle is this machine's, and nobody else has it during the call. So in each call below.
        let answer = unsafe { ffi::pageshare_propose(self.handle.get(), guest, ppn) };
        ProposeVerdict::of(self.noted(answer))
    }

    /// Stores 1 to [`MAX_ACCESS`] bytes in a page, from place `at` on.
    ///
    /// ```
    /// # fn main() -> Result<(), Box<dyn std::error::Error>> {
    /// use pageshare::{Guest, Machine, StoreVerdict};
    ///
    /// let mut machine = Machine::new(1, &[Guest { pages: 2, salt: 0 }])?;
    /// assert_eq!(machine.store(0, 0, 4090, b"hello")?, StoreVerdict::Mapped);
    /// assert_eq!(machine.store(0, 1, 0, b"hello")?, StoreVerdict::NoFrame);
    /// # Ok(())
    /// # }
    /// ```
    ///
    /// # Errors
    ///
    /// The first of the causes of [`RequestError`], in their order.
    pub fn store(
        &mut self,
        guest: u32,
        ppn: u32,
        at: u32,
        bytes: &[u8],
    ) -> Result<StoreVerdict, RequestError> {
        // SAFETY: the bytes are lent for the call.
        let answer = unsafe {
            ffi::pageshare_store(
                self.handle.get(),
                guest,
                ppn,
                at,
                bytes.as_ptr(),
                bytes.len(),
            )
        };
        StoreVerdict::of(self.noted(answer))
    }

    /// Fills the room, of 1 to [`MAX_ACCESS`] bytes, with bytes of a page from place `at` on. An unmapped page holds zeros.
    ///
    /// It is a request, which is counted. [`Machine::read`] is none.
    ///
    /// ```
    /// # fn main() -> Result<(), Box<dyn std::error::Error>> {
    /// use pageshare::{Guest, LoadVerdict, Machine};
    ///
    /// let mut machine = Machine::new(1, &[Guest { pages: 1, salt: 0 }])?;
    /// let _mapped = machine.store(0, 0, 0, b"AB")?;
    /// let mut bytes = [0; 3];
    /// assert_eq!(machine.load(0, 0, 0, &mut bytes)?, LoadVerdict::Bytes);
    /// assert_eq!(&bytes, b"AB\0");
    /// # Ok(())
    /// # }
    /// ```
    ///
    /// # Errors
    ///
    /// The first of the causes of [`RequestError`], in their order.
    pub fn load(
        &mut self,
        guest: u32,
        ppn: u32,
        at: u32,
        room: &mut [u8],
    ) -> Result<LoadVerdict, RequestError> {
        // SAFETY: the room is lent for the call.
        LoadVerdict::of(unsafe {
            ffi::pageshare_load(
                self.handle.get(),
                guest,
                ppn,
                at,
                room.as_mut_ptr(),
                room.len(),
            )
        })
    }

    /// Releases a page: it has no frame then, and reads as zeros.
    ///
    /// ```
    /// # fn main() -> Result<(), Box<dyn std::error::Error>> {
    /// use pageshare::{Guest, Machine, ReleaseVerdict};
    ///
    /// let mut machine = Machine::new(1, &[Guest { pages: 1, salt: 0 }])?;
    /// let _mapped = machine.store(0, 0, 0, b"A")?;
    /// assert_eq!(machine.release(0, 0)?, ReleaseVerdict::Released { freed: true });
    /// assert_eq!(machine.release(0, 0)?, ReleaseVerdict::Unmapped);
    /// # Ok(())
    /// # }
    /// ```
    ///
    /// # Errors
    ///
    /// [`RequestError::NoGuest`] and [`RequestError::Full`].
    pub fn release(&mut self, guest: u32, ppn: u32) -> Result<ReleaseVerdict, RequestError> {
        // SAFETY: as above.
        let answer = unsafe { ffi::pageshare_release(self.handle.get(), guest, ppn) };
        ReleaseVerdict::of(self.noted(answer))
    }

    /// Stores a whole page, which counts as the 64 stores of 64 bytes that write it. The verdict is that of the first.
    ///
    /// ```
    /// # fn main() -> Result<(), Box<dyn std::error::Error>> {
    /// use pageshare::{Guest, Machine, StoreVerdict, PAGE_BYTES};
    ///
    /// let mut machine = Machine::new(1, &[Guest { pages: 1, salt: 0 }])?;
    /// assert_eq!(machine.store_page(0, 0, &[7; PAGE_BYTES])?, StoreVerdict::Mapped);
    /// assert_eq!(machine.report().entries, 64);
    /// # Ok(())
    /// # }
    /// ```
    ///
    /// # Errors
    ///
    /// [`RequestError::NoGuest`], and [`RequestError::Full`] where fewer than 64 requests are left to count.
    pub fn store_page(
        &mut self,
        guest: u32,
        ppn: u32,
        page: &Page,
    ) -> Result<StoreVerdict, RequestError> {
        // SAFETY: the page is lent for the call.
        let answer =
            unsafe { ffi::pageshare_store_page(self.handle.get(), guest, ppn, page.as_ptr()) };
        StoreVerdict::of(self.noted(answer))
    }

    /// Lends a page: stores it whole and then proposes it, which counts as 65 requests. A monitor maps the frame that is
    /// returned for the guest to read, and takes the page back at the guest's write.
    ///
    /// Memory that a guest writes to is no `&Page`, not even with the guest's right to write taken for the call if the reference
    /// lives on. Copy the page, or use [`Machine::lend_at`].
    ///
    /// ```
    /// # fn main() -> Result<(), Box<dyn std::error::Error>> {
    /// use pageshare::{Guest, LendVerdict, Machine, ProposeVerdict, PAGE_BYTES};
    ///
    /// let mut machine = Machine::new(2, &[Guest { pages: 1, salt: 0 }; 2])?;
    /// let _first = machine.lend(0, 0, &[7; PAGE_BYTES])?;
    /// let LendVerdict::Lent(second) = machine.lend(1, 0, &[7; PAGE_BYTES])? else {
    ///     return Err("not lent".into());
    /// };
    /// assert_eq!(second.proposal, ProposeVerdict::Paired);
    /// assert_eq!(machine.frame(0, 0)?, Some(second.frame));
    /// # Ok(())
    /// # }
    /// ```
    ///
    /// # Errors
    ///
    /// [`RequestError::NoGuest`], and [`RequestError::Full`] where fewer than 65 requests are left to count.
    pub fn lend(&mut self, guest: u32, ppn: u32, page: &Page) -> Result<LendVerdict, RequestError> {
        // SAFETY: nobody writes to the page while it is lent here.
        unsafe { self.lend_at(guest, ppn, page.as_ptr()) }
    }

    /// Lends a page as [`Machine::lend`] does, from the 4,096 bytes at this address, such as memory that is mapped for a guest.
    ///
    /// # Safety
    ///
    /// The bytes can be read, and nobody writes to them while the call runs: not the guest, whose right to write is taken before,
    /// nor a device, nor another thread. They aren't in the machine's region.
    ///
    /// ```
    /// # fn main() -> Result<(), Box<dyn std::error::Error>> {
    /// use pageshare::{Guest, LendVerdict, Machine, PAGE_BYTES};
    ///
    /// let mut memory = vec![7_u8; PAGE_BYTES];
    /// let mut machine = Machine::new(1, &[Guest { pages: 1, salt: 0 }])?;
    /// // SAFETY: the page is in the vector, which nobody writes to during the call.
    /// let lent = unsafe { machine.lend_at(0, 0, memory.as_mut_ptr()) }?;
    /// assert!(matches!(lent, LendVerdict::Lent(_)));
    /// # Ok(())
    /// # }
    /// ```
    ///
    /// # Errors
    ///
    /// Those of [`Machine::lend`].
    pub unsafe fn lend_at(
        &mut self,
        guest: u32,
        ppn: u32,
        page: *const u8,
    ) -> Result<LendVerdict, RequestError> {
        // SAFETY: as in `propose`; the caller says so of the page.
        let answer = unsafe { ffi::pageshare_lend(self.handle.get(), guest, ppn, page) };
        LendVerdict::of(self.noted(answer))
    }

    /// Lends these pages, one after the other as [`Machine::lend`] does, and returns the verdict of each. With SHA-256 the hashes of
    /// four are computed together, and with the wide one of eight, which takes less than half the time.
    ///
    /// ```
    /// # fn main() -> Result<(), Box<dyn std::error::Error>> {
    /// use pageshare::{Guest, Lending, Machine, PAGE_BYTES};
    ///
    /// let pages = [[7; PAGE_BYTES], [8; PAGE_BYTES], [7; PAGE_BYTES]];
    /// let mut machine = Machine::new(3, &[Guest { pages: 3, salt: 0 }])?;
    /// let lendings: Vec<_> = (0..).zip(&pages).map(|(ppn, page)| Lending::new(0, ppn, page)).collect();
    /// let words: Vec<_> = machine.lend_many(&lendings).into_iter().flatten().map(|it| it.to_string()).collect();
    /// assert_eq!(words, ["hinted", "hinted", "paired"]);
    /// # Ok(())
    /// # }
    /// ```
    pub fn lend_many(&mut self, pages: &[Lending<'_>]) -> Vec<Result<LendVerdict, RequestError>> {
        let mut verdicts = Vec::with_capacity(pages.len());
        let eights = pages.chunks_exact(8);
        let fours = eights.remainder().chunks_exact(4);
        let singles = fours.remainder();
        for group in eights {
            let mut answers = [Answer::default(); 8];
            // SAFETY: the pages and the answers' room are lent for the call, and are eight each. The status is 0, since the handle
            // holds a machine.
            let _status = unsafe {
                ffi::pageshare_lend_eight(self.handle.get(), group.as_ptr(), answers.as_mut_ptr())
            };
            verdicts.extend(answers.map(|answer| LendVerdict::of(self.noted(answer))));
        }
        for group in fours {
            let mut answers = [Answer::default(); 4];
            // SAFETY: as above, but four each.
            let _status = unsafe {
                ffi::pageshare_lend_four(self.handle.get(), group.as_ptr(), answers.as_mut_ptr())
            };
            verdicts.extend(answers.map(|answer| LendVerdict::of(self.noted(answer))));
        }
        for lending in singles {
            // SAFETY: its maker promised so of its page.
            verdicts.push(unsafe { self.lend_at(lending.guest, lending.ppn, lending.page) });
        }
        verdicts
    }

    /// Takes a page back: copies it to the room and releases it, which counts as the release alone. The room stays as it is
    /// unless the verdict is `Released`.
    ///
    /// ```
    /// # fn main() -> Result<(), Box<dyn std::error::Error>> {
    /// use pageshare::{Guest, Machine, ReturnVerdict, PAGE_BYTES};
    ///
    /// let mut machine = Machine::new(1, &[Guest { pages: 1, salt: 0 }])?;
    /// let _lent = machine.lend(0, 0, &[7; PAGE_BYTES])?;
    /// let mut page = [0; PAGE_BYTES];
    /// assert!(matches!(machine.take_back(0, 0, &mut page)?, ReturnVerdict::Released { .. }));
    /// assert_eq!(page, [7; PAGE_BYTES]);
    /// # Ok(())
    /// # }
    /// ```
    ///
    /// # Errors
    ///
    /// [`RequestError::NoGuest`] and [`RequestError::Full`].
    pub fn take_back(
        &mut self,
        guest: u32,
        ppn: u32,
        room: &mut Page,
    ) -> Result<ReturnVerdict, RequestError> {
        // SAFETY: the room is lent for the call.
        let answer = unsafe { ffi::pageshare_take_back(self.handle.get(), guest, ppn, room) };
        ReturnVerdict::of(self.noted(answer))
    }

    /// What the machine counts, this request among the entries. [`Machine::report`] is no request.
    ///
    /// ```
    /// # fn main() -> Result<(), Box<dyn std::error::Error>> {
    /// use pageshare::{Guest, Machine};
    ///
    /// let mut machine = Machine::new(1, &[Guest { pages: 1, salt: 0 }])?;
    /// assert_eq!(machine.count(0)?.entries, 1);
    /// # Ok(())
    /// # }
    /// ```
    ///
    /// # Errors
    ///
    /// [`RequestError::NoGuest`] and [`RequestError::Full`].
    pub fn count(&mut self, guest: u32) -> Result<Report, RequestError> {
        let mut totals = Totals::default();
        // SAFETY: the totals are lent for the call.
        let answer = unsafe { ffi::pageshare_count(self.handle.get(), guest, &mut totals) };
        Report::counted(answer, totals)
    }

    /// Begins the count of requests anew, for a machine that serves more than 4,294,967,295. All else stays.
    ///
    /// ```
    /// # fn main() -> Result<(), Box<dyn std::error::Error>> {
    /// use pageshare::{Guest, Machine};
    ///
    /// let mut machine = Machine::new(1, &[Guest { pages: 1, salt: 0 }])?;
    /// let _mapped = machine.store(0, 0, 0, b"A")?;
    /// machine.restart_count();
    /// assert_eq!((machine.report().entries, machine.report().mapped), (0, 1));
    /// # Ok(())
    /// # }
    /// ```
    pub fn restart_count(&mut self) {
        // SAFETY: as above. The status is 0, since the handle holds a machine.
        let _status = unsafe { ffi::pageshare_restart_count(self.handle.get()) };
    }

    /// Computes the hashes of these pages, each given by its guest and number, ahead of their proposals: of SHA-256 four at
    /// a time, which takes less than half the time. It changes no answer. Pages that there aren't are passed over, and a store to a page
    /// makes its hash unknown again.
    ///
    /// ```
    /// # fn main() -> Result<(), Box<dyn std::error::Error>> {
    /// use pageshare::{Guest, Machine, ProposeVerdict};
    ///
    /// let mut machine = Machine::new(4, &[Guest { pages: 4, salt: 0 }])?;
    /// for ppn in 0..4 {
    ///     let _mapped = machine.store(0, ppn, 0, b"A")?;
    /// }
    /// machine.hash_ahead(&[(0, 0), (0, 1), (0, 2), (0, 3)]);
    /// assert_eq!(machine.propose(0, 0)?, ProposeVerdict::Hinted);
    /// # Ok(())
    /// # }
    /// ```
    pub fn hash_ahead(&mut self, pages: &[(u32, u32)]) {
        let mut names = [PageName { guest: 0, ppn: 0 }; HASHED_TOGETHER];
        for window in pages.chunks(HASHED_TOGETHER) {
            for (name, &(guest, ppn)) in names.iter_mut().zip(window) {
                *name = PageName { guest, ppn };
            }
            // SAFETY: as above; the names are read during the call alone. The status is 0, since the handle holds a machine.
            let _status =
                unsafe { ffi::pageshare_hash(self.handle.get(), names.as_ptr(), window.len()) };
        }
    }

    /// What the machine counts.
    ///
    /// ```
    /// # fn main() -> Result<(), Box<dyn std::error::Error>> {
    /// use pageshare::{Guest, Machine, Report};
    ///
    /// let machine = Machine::new(1, &[Guest { pages: 1, salt: 0 }])?;
    /// assert_eq!(machine.report(), Report::default());
    /// # Ok(())
    /// # }
    /// ```
    pub fn report(&self) -> Report {
        let mut totals = Totals::default();
        // SAFETY: as above. The status is 0, since the handle holds a machine.
        let _status = unsafe { ffi::pageshare_report(self.handle.get(), &mut totals) };
        Report::of(totals)
    }

    /// Copies a page to the room. An unmapped page reads as zeros.
    ///
    /// ```
    /// # fn main() -> Result<(), Box<dyn std::error::Error>> {
    /// use pageshare::{Guest, Machine, PAGE_BYTES};
    ///
    /// let mut machine = Machine::new(1, &[Guest { pages: 1, salt: 0 }])?;
    /// let _mapped = machine.store(0, 0, 4095, b"A")?;
    /// let mut page = [0xff; PAGE_BYTES];
    /// machine.read(0, 0, &mut page)?;
    /// assert_eq!((page[0], page[4095]), (0, b'A'));
    /// # Ok(())
    /// # }
    /// ```
    ///
    /// # Errors
    ///
    /// [`NoSuchPage`]; the room is then as it was.
    pub fn read(&self, guest: u32, ppn: u32, room: &mut Page) -> Result<(), NoSuchPage> {
        // SAFETY: the room is lent for the call.
        match unsafe { ffi::pageshare_read(self.handle.get(), guest, ppn, room) } {
            0 => Ok(()),
            _ => Err(NoSuchPage),
        }
    }

    /// The number of a page's frame (its machine page number, MPN), `None` where the page is unmapped.
    ///
    /// A page keeps its frame but at the verdicts `Mapped`, `Copied`, `Joined`, `Paired` and `Released` of a request that names
    /// it.
    ///
    /// ```
    /// # fn main() -> Result<(), Box<dyn std::error::Error>> {
    /// use pageshare::{Guest, Machine};
    ///
    /// let mut machine = Machine::new(1, &[Guest { pages: 2, salt: 0 }])?;
    /// let _mapped = machine.store(0, 0, 0, b"A")?;
    /// assert!(machine.frame(0, 0)?.is_some());
    /// assert_eq!(machine.frame(0, 1)?, None);
    /// assert!(machine.frame(0, 2).is_err());
    /// # Ok(())
    /// # }
    /// ```
    ///
    /// # Errors
    ///
    /// [`NoSuchPage`].
    pub fn frame(&self, guest: u32, ppn: u32) -> Result<Option<u32>, NoSuchPage> {
        let mut mpn = 0;
        // SAFETY: the number is lent for the call.
        match unsafe { ffi::pageshare_frame(self.handle.get(), guest, ppn, &mut mpn) } {
            0 => Ok(Some(mpn)),
            12 => Ok(None),
            _ => Err(NoSuchPage),
        }
    }

    /// The bytes of a page where they stand, `None` where the page is unmapped. The machine is lent as long as they are.
    ///
    /// No proof says what stands there: it is tested alone. [`Machine::read`] copies the bytes.
    ///
    /// ```
    /// # fn main() -> Result<(), Box<dyn std::error::Error>> {
    /// use pageshare::{Guest, Machine};
    ///
    /// let mut machine = Machine::new(1, &[Guest { pages: 1, salt: 0 }])?;
    /// assert_eq!(machine.page(0, 0)?, None);
    /// let _mapped = machine.store(0, 0, 0, b"A")?;
    /// assert_eq!(machine.page(0, 0)?.map(|page| page[0]), Some(b'A'));
    /// # Ok(())
    /// # }
    /// ```
    ///
    /// # Errors
    ///
    /// [`NoSuchPage`].
    pub fn page(&mut self, guest: u32, ppn: u32) -> Result<Option<&Page>, NoSuchPage> {
        let mut at = std::ptr::null();
        // SAFETY: the address is lent for the call.
        match unsafe { ffi::pageshare_page(self.handle.get(), guest, ppn, &mut at) } {
            // SAFETY: 4,096 bytes stand there until the next call, which the borrow of the machine puts off.
            0 => Ok(Some(unsafe { &*at.cast::<Page>() })),
            12 => Ok(None),
            _ => Err(NoSuchPage),
        }
    }
}

impl fmt::Debug for Machine {
    fn fmt(&self, f: &mut fmt::Formatter<'_>) -> fmt::Result {
        f.debug_struct("Machine")
            .field("report", &self.report())
            .finish_non_exhaustive()
    }
}

impl Drop for Machine {
    fn drop(&mut self) {
        // SAFETY: as above. A handle that holds no machine, as where `new` was refused, stays as it is.
        let _status = unsafe { ffi::pageshare_free(self.handle.get()) };
    }
}
