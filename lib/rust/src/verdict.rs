//! What a served request is answered. Each verdict displays as in the machine's texts.
//!
//! The enums have each verdict that there is, so that a `match` names all of them. The structs may get further members.
use crate::error::RequestError;
use crate::ffi::{Answer, Totals};
use std::fmt;

/// The verdict's number and its own number, where the request was served.
fn served(answer: Answer) -> Result<(u32, u32), RequestError> {
    if answer.status == 0 {
        Ok((answer.verdict, answer.count))
    } else {
        Err(RequestError::of(answer.status))
    }
}

/// The number that stands for no frame.
const NO_FRAME: u32 = u32::MAX;

/// The frame of this number, if it is one.
fn frame_in(number: u32) -> Option<u32> {
    (number != NO_FRAME).then_some(number)
}

/// What became of a proposal.
#[derive(Clone, Copy, Debug, PartialEq, Eq, Hash)]
#[must_use = "Joined and Paired give the page another frame, which a monitor has to map"]
pub enum ProposeVerdict {
    /// The guest has no such page.
    NoPage,
    /// The page has no frame: there was nothing to propose.
    Unmapped,
    /// The page is shared already.
    Already,
    /// The page now shares the frame of equal shared pages.
    Joined {
        /// How many pages share the frame, this one among them.
        pages: u32,
    },
    /// The page and the hint page, which was equal, now share one frame.
    Paired,
    /// No equal page is known, so this page is the hint under its key.
    Hinted,
    /// The page was the hint under its key already.
    Kept,
    /// The hint under the key was stale, and this page took its place.
    Replaced,
    /// Another content has the same hash or key: the page stays as it is.
    Ineligible,
}

impl ProposeVerdict {
    pub(crate) fn of(answer: Answer) -> Result<ProposeVerdict, RequestError> {
        Ok(match served(answer)? {
            (1, _) => ProposeVerdict::NoPage,
            (2, _) => ProposeVerdict::Unmapped,
            (3, _) => ProposeVerdict::Already,
            (4, pages) => ProposeVerdict::Joined { pages },
            (5, _) => ProposeVerdict::Paired,
            (6, _) => ProposeVerdict::Hinted,
            (7, _) => ProposeVerdict::Kept,
            (8, _) => ProposeVerdict::Replaced,
            (9, _) => ProposeVerdict::Ineligible,
            (verdict, _) => return Err(RequestError::Unknown(verdict)),
        })
    }
}

impl fmt::Display for ProposeVerdict {
    fn fmt(&self, f: &mut fmt::Formatter<'_>) -> fmt::Result {
        match self {
            ProposeVerdict::NoPage => f.write_str("no-page"),
            ProposeVerdict::Unmapped => f.write_str("unmapped"),
            ProposeVerdict::Already => f.write_str("already"),
            ProposeVerdict::Joined { pages } => write!(f, "joined {pages}"),
            ProposeVerdict::Paired => f.write_str("paired"),
            ProposeVerdict::Hinted => f.write_str("hinted"),
            ProposeVerdict::Kept => f.write_str("kept"),
            ProposeVerdict::Replaced => f.write_str("replaced"),
            ProposeVerdict::Ineligible => f.write_str("ineligible"),
        }
    }
}

/// What became of a store.
#[derive(Clone, Copy, Debug, PartialEq, Eq, Hash)]
#[must_use = "the store may have found no frame, and Mapped and Copied give the page another frame"]
pub enum StoreVerdict {
    /// The guest has no such page.
    NoPage,
    /// The page got a frame, which held zeros.
    Mapped,
    /// The bytes went to the page's own frame.
    Stored,
    /// The page got a copy of the shared frame; the other pages keep theirs.
    Copied,
    /// The page was the last of its shared frame, which is its own again.
    Taken,
    /// The page needed a frame and none was free: nothing changed.
    NoFrame,
}

impl StoreVerdict {
    pub(crate) fn of(answer: Answer) -> Result<StoreVerdict, RequestError> {
        Ok(match served(answer)?.0 {
            1 => StoreVerdict::NoPage,
            10 => StoreVerdict::Mapped,
            11 => StoreVerdict::Stored,
            12 => StoreVerdict::Copied,
            13 => StoreVerdict::Taken,
            14 => StoreVerdict::NoFrame,
            verdict => return Err(RequestError::Unknown(verdict)),
        })
    }
}

impl fmt::Display for StoreVerdict {
    fn fmt(&self, f: &mut fmt::Formatter<'_>) -> fmt::Result {
        f.write_str(match self {
            StoreVerdict::NoPage => "no-page",
            StoreVerdict::Mapped => "mapped",
            StoreVerdict::Stored => "stored",
            StoreVerdict::Copied => "copied",
            StoreVerdict::Taken => "taken",
            StoreVerdict::NoFrame => "no-frame",
        })
    }
}

/// What became of a load.
#[derive(Clone, Copy, Debug, PartialEq, Eq, Hash)]
#[must_use = "where the guest has no such page, nothing was loaded"]
pub enum LoadVerdict {
    /// The guest has no such page: the room is as it was.
    NoPage,
    /// The room is filled.
    Bytes,
}

impl LoadVerdict {
    pub(crate) fn of(answer: Answer) -> Result<LoadVerdict, RequestError> {
        Ok(match served(answer)?.0 {
            1 => LoadVerdict::NoPage,
            15 => LoadVerdict::Bytes,
            verdict => return Err(RequestError::Unknown(verdict)),
        })
    }
}

impl fmt::Display for LoadVerdict {
    fn fmt(&self, f: &mut fmt::Formatter<'_>) -> fmt::Result {
        f.write_str(match self {
            LoadVerdict::NoPage => "no-page",
            LoadVerdict::Bytes => "bytes",
        })
    }
}

/// What became of a release.
#[derive(Clone, Copy, Debug, PartialEq, Eq, Hash)]
#[must_use = "Released leaves the page without a frame, which a monitor has to unmap"]
pub enum ReleaseVerdict {
    /// The guest has no such page.
    NoPage,
    /// The page had no frame.
    Unmapped,
    /// The page has no frame any more, and reads as zeros.
    Released {
        /// Whether the frame is free now: no other page has it.
        freed: bool,
    },
}

impl ReleaseVerdict {
    pub(crate) fn of(answer: Answer) -> Result<ReleaseVerdict, RequestError> {
        Ok(match served(answer)? {
            (1, _) => ReleaseVerdict::NoPage,
            (2, _) => ReleaseVerdict::Unmapped,
            (16, count) => ReleaseVerdict::Released { freed: count == 1 },
            (verdict, _) => return Err(RequestError::Unknown(verdict)),
        })
    }
}

impl fmt::Display for ReleaseVerdict {
    fn fmt(&self, f: &mut fmt::Formatter<'_>) -> fmt::Result {
        f.write_str(match self {
            ReleaseVerdict::NoPage => "no-page",
            ReleaseVerdict::Unmapped => "unmapped",
            ReleaseVerdict::Released { freed: true } => "released freed",
            ReleaseVerdict::Released { freed: false } => "released held",
        })
    }
}

/// What became of a page that was to be lent.
#[derive(Clone, Copy, Debug, PartialEq, Eq, Hash)]
#[must_use = "a page that was lent is mapped to its frame, for reading alone"]
pub enum LendVerdict {
    /// The guest has no such page.
    NoPage,
    /// The page needed a frame and none was free: nothing changed.
    NoFrame,
    /// The page is in the machine.
    Lent(Lent),
}

/// A page that was lent.
#[derive(Clone, Copy, Debug, PartialEq, Eq, Hash)]
#[non_exhaustive]
pub struct Lent {
    /// What became of its proposal.
    pub proposal: ProposeVerdict,
    /// The page's frame.
    pub frame: u32,
    /// A frame that is free since: the one that the page had for itself, if it now shares another's.
    pub freed: Option<u32>,
}

impl LendVerdict {
    pub(crate) fn of(answer: Answer) -> Result<LendVerdict, RequestError> {
        Ok(match served(answer)?.0 {
            1 => LendVerdict::NoPage,
            14 => LendVerdict::NoFrame,
            _ => LendVerdict::Lent(Lent {
                proposal: ProposeVerdict::of(answer)?,
                frame: answer.frame,
                freed: frame_in(answer.freed),
            }),
        })
    }
}

impl fmt::Display for LendVerdict {
    fn fmt(&self, f: &mut fmt::Formatter<'_>) -> fmt::Result {
        match self {
            LendVerdict::NoPage => f.write_str("no-page"),
            LendVerdict::NoFrame => f.write_str("no-frame"),
            LendVerdict::Lent(lent) => lent.proposal.fmt(f),
        }
    }
}

/// What became of a page that was to be taken back.
#[derive(Clone, Copy, Debug, PartialEq, Eq, Hash)]
#[must_use = "Released leaves the page without a frame, which a monitor has to unmap"]
pub enum ReturnVerdict {
    /// The guest has no such page: the room is as it was.
    NoPage,
    /// The page had no frame: the room is as it was.
    Unmapped,
    /// The room holds the page's bytes, and the page has no frame any more.
    Released {
        /// A frame that is free since: the page's, unless others share it.
        freed: Option<u32>,
    },
}

impl ReturnVerdict {
    pub(crate) fn of(answer: Answer) -> Result<ReturnVerdict, RequestError> {
        Ok(match served(answer)?.0 {
            1 => ReturnVerdict::NoPage,
            2 => ReturnVerdict::Unmapped,
            16 => ReturnVerdict::Released {
                freed: frame_in(answer.freed),
            },
            verdict => return Err(RequestError::Unknown(verdict)),
        })
    }
}

impl fmt::Display for ReturnVerdict {
    fn fmt(&self, f: &mut fmt::Formatter<'_>) -> fmt::Result {
        f.write_str(match self {
            ReturnVerdict::NoPage => "no-page",
            ReturnVerdict::Unmapped => "unmapped",
            ReturnVerdict::Released { freed: Some(_) } => "released freed",
            ReturnVerdict::Released { freed: None } => "released held",
        })
    }
}

/// What a machine counts.
#[derive(Clone, Copy, Debug, Default, PartialEq, Eq, Hash)]
#[non_exhaustive]
pub struct Report {
    /// The requests served since the count began.
    pub entries: u32,
    /// The pages that have a frame, their own or a shared one.
    pub mapped: u32,
    /// The pages that have a shared frame.
    pub shared: u32,
    /// The frames in use.
    pub frames: u32,
    /// The frames that sharing saves: mapped pages less frames in use.
    pub reclaimed: u32,
    /// The pages that are hints.
    pub hints: u32,
}

impl Report {
    pub(crate) fn of(totals: Totals) -> Report {
        let Totals {
            entries,
            mapped,
            shared,
            frames,
            reclaimed,
            hints,
        } = totals;
        Report {
            entries,
            mapped,
            shared,
            frames,
            reclaimed,
            hints,
        }
    }

    pub(crate) fn counted(answer: Answer, totals: Totals) -> Result<Report, RequestError> {
        match served(answer)?.0 {
            17 => Ok(Report::of(totals)),
            verdict => Err(RequestError::Unknown(verdict)),
        }
    }
}

impl fmt::Display for Report {
    fn fmt(&self, f: &mut fmt::Formatter<'_>) -> fmt::Result {
        let Report {
            entries,
            mapped,
            shared,
            frames,
            reclaimed,
            hints,
        } = self;
        write!(
            f,
            "entries {entries} mapped {mapped} shared {shared} frames {frames} reclaimed {reclaimed} hints {hints}"
        )
    }
}
