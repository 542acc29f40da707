//! Domains: pages of many clients, which share frames.
use crate::error::{DomainError, LendError, NoRoom};
use crate::ffi::{self, DomainShape, DomainTotals, Handle};
use crate::frames::FramesInUse;
use crate::machine::{HashKind, Page};
use crate::region::Region;
use std::cell::{RefCell, UnsafeCell};
use std::fmt;
use std::io;

/// How many slots are released by one call as a client leaves.
const LEFT_TOGETHER: usize = 256;

/// The number that stands for no frame.
const NO_FRAME: u32 = u32::MAX;

/// What a domain is made of. Of each number but frames the least is 1; a [`DomainError`](crate::DomainError) displays the greatest.
#[derive(Clone, Copy, Debug, PartialEq, Eq, Hash)]
pub struct DomainConfig {
    /// How many machines there are. A page's hash says which one it goes to, so equal pages meet.
    pub machines: u32,
    /// How many pages may be lent at a time, of each machine.
    pub slots: u32,
    /// How many frames each machine has, at least 2. One of them is spare: it is in use only within a call.
    pub frames: u32,
    /// How many clients may be in at a time.
    pub clients: u32,
    /// How many questions are remembered ([`Client::seen`]).
    pub recent: u32,
    /// The hash by which equal pages are found.
    pub hash: HashKind,
    /// The salt of that hash. Draw it at random and keep it secret, from clients too.
    pub salt: u32,
    /// The same of the questions.
    pub seed: u64,
}

impl DomainConfig {
    fn shape(&self) -> DomainShape {
        DomainShape {
            machines: self.machines,
            slots: self.slots,
            frames: self.frames,
            clients: self.clients,
            recent: self.recent,
            salt: self.salt,
            seed: self.seed,
        }
    }
}

/// What a domain counts.
#[derive(Clone, Copy, Debug, Default, PartialEq, Eq, Hash)]
pub struct DomainReport {
    /// The machines.
    pub machines: u32,
    /// The clients that are in.
    pub clients: u32,
    /// The slots that clients have: the pages that are lent.
    pub slots: u32,
    /// The frames in use.
    pub frames: u32,
    /// The slots whose frame another slot has, too.
    pub shared: u32,
    /// Slots less frames: what sharing saves.
    pub reclaimed: u32,
}

/// A question about a page.
#[derive(Clone, Copy, Debug, PartialEq, Eq, Hash)]
pub struct Question {
    /// The page's number, of the client's choice, another for each of its pages.
    pub page: u64,
    /// The fingerprint of its content.
    pub fingerprint: u64,
}

/// A page that was lent: its slot is the client's until the client releases it or leaves.
#[derive(Debug, PartialEq, Eq, Hash)]
#[must_use = "a loan is released by its client, or when the client leaves"]
pub struct Loan {
    slot: u64,
    /// The frame that holds the page's bytes: its place in the region.
    pub frame: u32,
    /// How many slots had this frame when the page was lent, with its own.
    pub sharers: u32,
}

/// A page's fingerprint under a salt: a guess whether pages are equal. Clients compute it, so its salt isn't the domain's.
pub fn fingerprint(salt: u32, page: &Page) -> u64 {
    // SAFETY: the page is lent for the call.
    unsafe { ffi::pageshare_domain_fingerprint(salt, page) }
}

/// Pages of many clients, in frames that equal pages share.
///
/// ```
/// use pageshare::{Domain, DomainConfig, HashKind};
///
/// # fn main() -> Result<(), Box<dyn std::error::Error>> {
/// let config = DomainConfig {
///     machines: 1,
///     slots: 8,
///     frames: 4,
///     clients: 2,
///     recent: 8,
///     hash: HashKind::Fold,
///     salt: 7,
///     seed: 9,
/// };
/// let domain = Domain::new(&config)?;
/// let (mut web, mut mail) = (domain.enter()?, domain.enter()?);
/// let page = [1; 4096];
/// let first = web.lend(&page)?;
/// let second = mail.lend(&page)?;
/// assert_eq!((second.frame, second.sharers), (first.frame, 2));
/// assert_eq!(domain.report().reclaimed, 1);
/// assert_eq!(web.release(first), Ok(None));
/// drop(mail);
/// assert_eq!(domain.report().frames, 0);
/// # Ok(())
/// # }
/// ```
///
/// A domain may go to another thread while no client is in, and is used by one at a time: it is `Send` and not `Sync`.
///
/// ```compile_fail
/// # use pageshare::Domain;
/// fn used_by_two(domain: &Domain) {
///     std::thread::scope(|scope| {
///         scope.spawn(|| domain.report());
///     });
/// }
/// ```
pub struct Domain {
    /// It holds a domain from `new` to `drop`, and is never copied. No reference to it outlives a call.
    handle: UnsafeCell<Handle>,
    /// The frames' memory, if the caller chose it, and which of them slots have. It is dropped after the domain was freed.
    region: Option<(Region, RefCell<FramesInUse>)>,
}

// SAFETY: the library's handle may go to another thread, with the domain that it holds, which nobody else has.
unsafe impl Send for Domain {}

impl Domain {
    /// Makes a domain with no client in, whose frames are in memory of the library's. All memory is taken here.
    ///
    /// # Errors
    ///
    /// The first of the causes of [`DomainError`], in their order.
    pub fn new(config: &DomainConfig) -> Result<Domain, DomainError> {
        Domain::made(config, None)
    }

    /// The same with frames in this region: machine m's frames are those from m times the frames of one machine on.
    ///
    /// # Errors
    ///
    /// The first of the causes of [`DomainError`], in their order.
    pub fn in_region(config: &DomainConfig, region: Region) -> Result<Domain, DomainError> {
        Domain::made(config, Some(region))
    }

    fn made(config: &DomainConfig, region: Option<Region>) -> Result<Domain, DomainError> {
        let domain = Domain {
            handle: UnsafeCell::new(Handle::NONE),
            region: region.map(|region| {
                let in_use = FramesInUse::new(region.frames());
                (region, RefCell::new(in_use))
            }),
        };
        let (handle, shape, hash) = (domain.handle.get(), config.shape(), config.hash.number());
        let status = match domain.region() {
            // SAFETY: the handle holds no domain, and the shape is lent for the call. So below.
            None => unsafe { ffi::pageshare_domain_make_shaped(handle, &shape, hash) },
            Some(region) => {
                let frames = u64::from(config.machines) * u64::from(config.frames);
                let pages = u64::from(region.frames()).min(frames) as usize;
                // SAFETY: as above.
                match unsafe { ffi::pageshare_domain_begin(handle, &shape, hash, pages) } {
                    0 => domain.add_machines(config, region),
                    status => status,
                }
            }
        };
        match status {
            0 => Ok(domain),
            _ => Err(DomainError::of(status)),
        }
    }

    /// Gives each machine of a domain that was begun its part of the region, which has room for all of them.
    fn add_machines(&self, config: &DomainConfig, region: &Region) -> u32 {
        let pages = config.frames as usize;
        for machine in 0..config.machines as usize {
            let at = region.address().cast::<Page>();
            // SAFETY: the part is within the region, which is mapped for as many frames as it says. Nobody else writes to it, and
            // it outlives the domain.
            let status = unsafe {
                let at = at.add(machine * pages).cast();
                ffi::pageshare_domain_add(self.handle.get(), ffi::Region { at, pages })
            };
            if status != 0 {
                return status;
            }
        }
        0
    }

    /// The region that the frames are in, if the domain was made with one.
    pub fn region(&self) -> Option<&Region> {
        self.region.as_ref().map(|(region, _)| region)
    }

    /// Gives the memory of a frame in the domain's region back to the system. It is for frames that were called freed: a frame that a
    /// slot has is refused, since its pages would read as zeros from then on.
    ///
    /// # Errors
    ///
    /// What the system says, and [`io::ErrorKind::InvalidInput`] for a domain with no region, a frame that is not in it, or one that a
    /// slot has.
    pub fn give_back(&self, frame: u32) -> io::Result<()> {
        match &self.region {
            Some((_, in_use)) if in_use.borrow().contains(frame) => Err(io::Error::new(
                io::ErrorKind::InvalidInput,
                "a slot has this frame",
            )),
            Some((region, _)) => region.give_back(frame),
            None => Err(io::Error::new(
                io::ErrorKind::InvalidInput,
                "the domain has no region",
            )),
        }
    }

    /// Notes that a slot has this frame, if the frames are in a region.
    fn note_used(&self, frame: u32) {
        if let Some((_, in_use)) = &self.region {
            in_use.borrow_mut().note_used(frame);
        }
    }

    /// Notes that no slot has this frame any more. (The number for no frame is none of the region's.)
    fn note_free(&self, frame: u32) {
        if let Some((_, in_use)) = &self.region {
            in_use.borrow_mut().note_free(frame);
        }
    }

    /// Lets a client in.
    ///
    /// # Errors
    ///
    /// [`NoRoom`].
    pub fn enter(&self) -> Result<Client<'_>, NoRoom> {
        let mut number = 0;
        // SAFETY: the handle is this domain's, and nobody else has it during the call; the number is lent for it. So in each call
        // below.
        match unsafe { ffi::pageshare_domain_enter(self.handle.get(), &mut number) } {
            0 => Ok(Client {
                domain: self,
                number,
            }),
            _ => Err(NoRoom),
        }
    }

    /// What the domain counts. It looks at each slot.
    pub fn report(&self) -> DomainReport {
        let mut totals = DomainTotals::default();
        // SAFETY: as above. The status is 0, since the handle holds a domain.
        let _status = unsafe { ffi::pageshare_domain_report(self.handle.get(), &mut totals) };
        DomainReport {
            machines: totals.machines,
            clients: totals.clients,
            slots: totals.slots,
            frames: totals.frames,
            shared: totals.shared,
            reclaimed: totals.reclaimed,
        }
    }
}

impl fmt::Debug for Domain {
    fn fmt(&self, f: &mut fmt::Formatter<'_>) -> fmt::Result {
        f.debug_struct("Domain")
            .field("report", &self.report())
            .finish_non_exhaustive()
    }
}

impl Drop for Domain {
    fn drop(&mut self) {
        // SAFETY: as above. A handle that holds no domain, as where `new` was refused, stays as it is.
        let _status = unsafe { ffi::pageshare_domain_free(self.handle.get()) };
    }
}

/// A client of a domain. It leaves when it is dropped: its slots are released then, whatever became of its loans.
pub struct Client<'a> {
    domain: &'a Domain,
    number: u32,
}

impl Client<'_> {
    /// Its number in the domain. A later client may have it again.
    pub fn number(&self) -> u32 {
        self.number
    }

    /// Lends a page: it gets a slot, and the frame of the pages that are equal to it or one of its own.
    ///
    /// # Errors
    ///
    /// [`LendError::NoSlot`] and [`LendError::NoFrame`].
    pub fn lend(&mut self, page: &Page) -> Result<Loan, LendError> {
        // SAFETY: as in `enter`; the page is lent for the call.
        let loan =
            unsafe { ffi::pageshare_domain_lend(self.domain.handle.get(), self.number, page) };
        match loan.status {
            0 => {
                self.domain.note_used(loan.frame);
                Ok(Loan {
                    slot: loan.slot,
                    frame: loan.frame,
                    sharers: loan.sharers,
                })
            }
            status => Err(LendError::of(status)),
        }
    }

    /// Releases a page that was lent, and returns the frame that is free since, if no other slot has it. Nothing may show the frame
    /// for this page any more. A loan is known by its slot's number alone, so it has to be of this domain.
    ///
    /// # Errors
    ///
    /// The loan itself, if it isn't this client's. Nothing has changed.
    pub fn release(&mut self, loan: Loan) -> Result<Option<u32>, Loan> {
        let mut freed = NO_FRAME;
        let handle = self.domain.handle.get();
        // SAFETY: as in `enter`; the number is lent for the call.
        match unsafe { ffi::pageshare_domain_release(handle, self.number, loan.slot, &mut freed) } {
            0 => {
                self.domain.note_free(freed);
                Ok((freed != NO_FRAME).then_some(freed))
            }
            _ => Err(loan),
        }
    }

    /// Asks about these pages, one after the other: whether another page was asked about with the fingerprint lately.
    pub fn seen(&mut self, questions: &[Question]) -> Vec<bool> {
        let ask = |question: &Question| {
            let mut seen = 0;
            let handle = self.domain.handle.get();
            // SAFETY: as in `enter`; the answer is lent for the call. The status is 0, since the handle holds a domain.
            let _status = unsafe {
                ffi::pageshare_domain_ask(
                    handle,
                    self.number,
                    question.page,
                    question.fingerprint,
                    &mut seen,
                )
            };
            seen == 1
        };
        questions.iter().map(ask).collect()
    }

    /// Lets the client leave, and hands over each frame that is free since. Nothing may show a frame for its pages any more.
    pub fn leave(self, mut freed: impl FnMut(u32)) {
        while self.leave_some(&mut freed) > 0 {}
        // It is out: its number may be another's from now on.
        std::mem::forget(self);
    }

    /// Releases some slots, and returns how many: at 0 the client is out.
    fn leave_some(&self, freed: &mut impl FnMut(u32)) -> usize {
        let mut frames = [NO_FRAME; LEFT_TOGETHER];
        let mut count = 0;
        let handle = self.domain.handle.get();
        // SAFETY: as in `enter`; the frames and the count are lent for the call. The status is 0, since the client is in.
        let _status = unsafe {
            ffi::pageshare_domain_leave(
                handle,
                self.number,
                frames.as_mut_ptr(),
                frames.len(),
                &mut count,
            )
        };
        for &frame in frames.iter().take(count) {
            if frame != NO_FRAME {
                self.domain.note_free(frame);
                freed(frame);
            }
        }
        count
    }
}

impl fmt::Debug for Client<'_> {
    fn fmt(&self, f: &mut fmt::Formatter<'_>) -> fmt::Result {
        f.debug_struct("Client")
            .field("number", &self.number)
            .finish_non_exhaustive()
    }
}

impl Drop for Client<'_> {
    fn drop(&mut self) {
        while self.leave_some(&mut |_frame| {}) > 0 {}
    }
}
