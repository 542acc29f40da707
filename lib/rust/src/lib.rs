//! Content-based page sharing for virtual machine monitors.
//!
//! A [`Machine`] has guests with pages of 4,096 bytes, and frames that these pages are kept in. Pages that are proposed and hold
//! the same bytes come to share one frame; a store to a shared page gives the writer a copy.
//!
//! ```
//! use pageshare::{Guest, Machine, ProposeVerdict};
//!
//! # fn main() -> Result<(), Box<dyn std::error::Error>> {
//! // Two guests with 2 pages and 1, which may share with each other since their salts are equal, and 3 frames.
//! let guests = [Guest { pages: 2, salt: 0 }, Guest { pages: 1, salt: 0 }];
//! let mut machine = Machine::new(3, &guests)?;
//! for (guest, ppn) in [(0, 0), (0, 1), (1, 0)] {
//!     let _stored = machine.store(guest, ppn, 0, b"A")?;
//! }
//! assert_eq!(machine.propose(0, 0)?, ProposeVerdict::Hinted);
//! assert_eq!(machine.propose(0, 1)?, ProposeVerdict::Paired);
//! assert_eq!(machine.propose(1, 0)?, ProposeVerdict::Joined { pages: 3 });
//! assert_eq!(machine.report().reclaimed, 2);
//! # Ok(())
//! # }
//! ```
//!
//! A [`Domain`] has clients, which lend pages to it; pages that hold the same bytes come to share a frame. It is for a host that
//! shares memory between the processes of monitors.
//!
//! The library below is proved to do what the machine's model says (`docs/EMBEDDING.md` of its repository). This wrapper is plain
//! Rust, which is tested and not proved: it keeps what the library asks of its callers.
//!
//! # How a page comes to be shared
//!
//! A guest asks, and each request has a verdict. A page that gets its first bytes is *mapped* to a frame of its own. A proposal of a
//! page for which no equal one is known makes it a *hint*, under a key of its content. A later proposal of an equal page *pairs* the
//! two: both have one frame then, and further ones *join* them. Pages are compared byte by byte before they share a frame. A store to
//! a shared page gives the writer a *copy*. The frames that this saves are those [`Report::reclaimed`] counts.
//!
//! Monitors whose guests write to their memory unasked *lend* a page that wasn't written lately ([`Machine::lend`]) and *take it back*
//! at the guest's next write ([`Machine::take_back`]). In between the guest reads the frame, which is mapped from the machine's
//! [`Region`] for reading alone. `examples/vm-memory` does so with the memory of the crate `vm-memory`.
//!
//! # What to link
//!
//! The build script takes the first library that it finds: in the folder `PAGESHARE_LIB_DIR`, or the installed one that `pkg-config`
//! knows (the shared one; with `PAGESHARE_STATIC=1` the static one), or in `out/` of the library's repository. [`library_level`] says
//! for which processors it was built.
#![warn(missing_docs)]

mod domain;
mod error;
mod ffi;
mod frames;
mod machine;
mod region;
mod verdict;

pub use domain::{fingerprint, Client, Domain, DomainConfig, DomainReport, Loan, Question};
pub use error::{DomainError, LendError, MakeError, NoRoom, NoSuchPage, RequestError};
pub use machine::{Builder, Guest, HashKind, Lending, Machine, Page, MAX_ACCESS, PAGE_BYTES};
pub use region::Region;
pub use verdict::{
    LendVerdict, Lent, LoadVerdict, ProposeVerdict, ReleaseVerdict, Report, ReturnVerdict,
    StoreVerdict,
};

/// The version of the library that is linked, such as `0.1.0`.
///
/// ```
/// assert_eq!(pageshare::library_version(), env!("CARGO_PKG_VERSION"));
/// ```
pub fn library_version() -> &'static str {
    // SAFETY: the library returns the address of a text that ends with a zero byte, and that nobody changes or frees.
    let text = unsafe { std::ffi::CStr::from_ptr(ffi::pageshare_version()) };
    text.to_str().unwrap_or_default()
}

/// The level of x86-64 that the library is built for: 2 (x86-64-v2), or 3 (x86-64-v3, with AVX2).
///
/// ```
/// assert!(matches!(pageshare::library_level(), 2 | 3));
/// ```
pub fn library_level() -> u32 {
    // SAFETY: the call has no conditions. So below.
    unsafe { ffi::pageshare_level() }
}

/// Whether this processor has that level. Where it hasn't, [`Machine::new`] returns [`MakeError::Processor`].
///
/// ```
/// use pageshare::{Guest, Machine, MakeError};
///
/// let made = Machine::new(1, &[Guest { pages: 1, salt: 0 }]);
/// assert_eq!(matches!(made, Err(MakeError::Processor)), !pageshare::is_processor_supported());
/// ```
pub fn is_processor_supported() -> bool {
    // SAFETY: as above.
    unsafe { ffi::pageshare_check_processor() == 0 }
}

/// The examples of README.md.
#[cfg(doctest)]
#[doc = include_str!("../README.md")]
struct Readme;
