//! Why a call was refused. A refused call has changed nothing.
use std::error::Error;
use std::fmt;

/// Why no machine was made. What is displayed of it has the limit.
#[derive(Clone, Copy, Debug, PartialEq, Eq, Hash)]
#[non_exhaustive]
pub enum MakeError {
    /// No frame, or too many.
    Frames,
    /// No guest, or too many.
    Guests,
    /// A guest with no page, or too many pages in total.
    Pages,
    /// The region has room for fewer frames.
    Region,
    /// The memory was refused.
    OutOfMemory,
    /// The library is built for a newer processor. It is checked before all others.
    Processor,
    /// A status that this wrapper does not know: it is of another version than the library.
    Unknown(u32),
}

impl MakeError {
    pub(crate) fn of(status: u32) -> MakeError {
        match status {
            1 => MakeError::Frames,
            2 => MakeError::Guests,
            3 => MakeError::Pages,
            4 => MakeError::OutOfMemory,
            13 => MakeError::Region,
            25 => MakeError::Processor,
            _ => MakeError::Unknown(status),
        }
    }
}

impl fmt::Display for MakeError {
    fn fmt(&self, f: &mut fmt::Formatter<'_>) -> fmt::Result {
        match self {
            MakeError::Frames => f.write_str("a machine has 1 to 1,048,576 frames"),
            MakeError::Guests => f.write_str("a machine has 1 to 64 guests"),
            MakeError::Pages => {
                f.write_str("each guest has a page, and all together at most 1,048,576")
            }
            MakeError::Region => f.write_str("the region has room for each frame"),
            MakeError::OutOfMemory => f.write_str("out of memory"),
            MakeError::Processor => f.write_str("the library is built for a newer processor"),
            MakeError::Unknown(status) => write!(f, "unknown status {status}"),
        }
    }
}

impl Error for MakeError {}

/// Why a request was not served.
#[derive(Clone, Copy, Debug, PartialEq, Eq, Hash)]
#[non_exhaustive]
pub enum RequestError {
    /// There is no such guest.
    NoGuest,
    /// 4,294,967,295 requests are counted: see [`Machine::restart_count`](crate::Machine::restart_count).
    Full,
    /// A store or load of no byte, or of more than [`MAX_ACCESS`](crate::MAX_ACCESS).
    Length,
    /// A store or load whose last byte would stand past the page's end.
    Crosses,
    /// A status or verdict that this wrapper does not know: it is of another version than the library.
    Unknown(u32),
}

impl RequestError {
    pub(crate) fn of(status: u32) -> RequestError {
        match status {
            7 => RequestError::NoGuest,
            8 => RequestError::Full,
            9 => RequestError::Length,
            10 => RequestError::Crosses,
            _ => RequestError::Unknown(status),
        }
    }
}

impl fmt::Display for RequestError {
    fn fmt(&self, f: &mut fmt::Formatter<'_>) -> fmt::Result {
        match self {
            RequestError::NoGuest => f.write_str("no such guest"),
            RequestError::Full => f.write_str("as many requests are counted as there can be"),
            RequestError::Length => f.write_str("a store or load has 1 to 64 bytes"),
            RequestError::Crosses => f.write_str("a store or load stays within one page"),
            RequestError::Unknown(number) => write!(f, "unknown answer {number}"),
        }
    }
}

impl Error for RequestError {}

/// There is no such guest, or it has no such page.
#[derive(Clone, Copy, Debug, PartialEq, Eq, Hash)]
pub struct NoSuchPage;

impl fmt::Display for NoSuchPage {
    fn fmt(&self, f: &mut fmt::Formatter<'_>) -> fmt::Result {
        f.write_str("no such page")
    }
}

impl Error for NoSuchPage {}

/// Why no domain was made. What is displayed of it has the limit.
#[derive(Clone, Copy, Debug, PartialEq, Eq, Hash)]
#[non_exhaustive]
pub enum DomainError {
    /// No machine, or too many.
    Machines,
    /// No slot, or too many for each machine.
    Slots,
    /// Fewer than 2 frames for each machine, or too many.
    Frames,
    /// Room for no client, or for too many.
    Clients,
    /// Room for no question, or for too many.
    Recent,
    /// The region has room for fewer frames.
    Region,
    /// The memory was refused.
    OutOfMemory,
    /// The library is built for a newer processor. It is checked before all others.
    Processor,
    /// A status that this wrapper does not know: it is of another version than the library.
    Unknown(u32),
}

impl DomainError {
    pub(crate) fn of(status: u32) -> DomainError {
        match status {
            16 => DomainError::Machines,
            17 => DomainError::Slots,
            1 => DomainError::Frames,
            18 => DomainError::Clients,
            19 => DomainError::Recent,
            13 => DomainError::Region,
            4 => DomainError::OutOfMemory,
            25 => DomainError::Processor,
            _ => DomainError::Unknown(status),
        }
    }
}

impl fmt::Display for DomainError {
    fn fmt(&self, f: &mut fmt::Formatter<'_>) -> fmt::Result {
        match self {
            DomainError::Machines => f.write_str("a domain has 1 to 64 machines"),
            DomainError::Slots => f.write_str("each machine has 1 to 1,048,576 slots"),
            DomainError::Frames => f.write_str("each machine has 2 to 1,048,576 frames"),
            DomainError::Clients => f.write_str("a domain has room for 1 to 65,536 clients"),
            DomainError::Recent => f.write_str("a domain remembers 1 to 16,777,216 questions"),
            DomainError::Region => {
                f.write_str("the region has room for each frame of each machine")
            }
            DomainError::OutOfMemory => f.write_str("out of memory"),
            DomainError::Processor => f.write_str("the library is built for a newer processor"),
            DomainError::Unknown(status) => write!(f, "unknown status {status}"),
        }
    }
}

impl Error for DomainError {}

/// As many clients are in as there may be.
#[derive(Clone, Copy, Debug, PartialEq, Eq, Hash)]
pub struct NoRoom;

impl fmt::Display for NoRoom {
    fn fmt(&self, f: &mut fmt::Formatter<'_>) -> fmt::Result {
        f.write_str("as many clients are in as there may be")
    }
}

impl Error for NoRoom {}

/// Why a page wasn't lent. Nothing has changed.
#[derive(Clone, Copy, Debug, PartialEq, Eq, Hash)]
#[non_exhaustive]
pub enum LendError {
    /// The page's machine has no free slot.
    NoSlot,
    /// The page is equal to none that is lent, and its machine has no free frame but the spare one.
    NoFrame,
    /// A status that this wrapper does not know: it is of another version than the library.
    Unknown(u32),
}

impl LendError {
    pub(crate) fn of(status: u32) -> LendError {
        match status {
            22 => LendError::NoSlot,
            23 => LendError::NoFrame,
            _ => LendError::Unknown(status),
        }
    }
}

impl fmt::Display for LendError {
    fn fmt(&self, f: &mut fmt::Formatter<'_>) -> fmt::Result {
        match self {
            LendError::NoSlot => f.write_str("no slot is free"),
            LendError::NoFrame => f.write_str("no frame is free"),
            LendError::Unknown(status) => write!(f, "unknown status {status}"),
        }
    }
}

impl Error for LendError {}
