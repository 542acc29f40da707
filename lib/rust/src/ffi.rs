//! The functions of `libpageshare`, as `lib/include/pageshare.h` declares them. Nothing compares the two.
use crate::machine::Lending;
use std::ffi::{c_char, c_void};

#[repr(C)]
pub(crate) struct Handle {
    at: *mut c_void,
    live: bool,
}

impl Handle {
    /// A handle that holds no machine.
    pub(crate) const NONE: Handle = Handle {
        at: std::ptr::null_mut(),
        live: false,
    };
}

#[repr(C)]
#[derive(Clone, Copy, Default)]
pub(crate) struct Answer {
    pub(crate) status: u32,
    pub(crate) verdict: u32,
    pub(crate) count: u32,
    pub(crate) frame: u32,
    pub(crate) freed: u32,
}

#[repr(C)]
#[derive(Clone, Copy, Default)]
pub(crate) struct Totals {
    pub(crate) entries: u32,
    pub(crate) mapped: u32,
    pub(crate) shared: u32,
    pub(crate) frames: u32,
    pub(crate) reclaimed: u32,
    pub(crate) hints: u32,
}

/// A page, by its guest and its number.
#[repr(C)]
#[derive(Clone, Copy, Debug)]
pub(crate) struct PageName {
    pub(crate) guest: u32,
    pub(crate) ppn: u32,
}

/// Memory for frames: where it begins, and how many fit.
#[repr(C)]
pub(crate) struct Region {
    pub(crate) at: *mut c_void,
    pub(crate) pages: usize,
}

/// The numbers that a domain is made of.
#[repr(C)]
pub(crate) struct DomainShape {
    pub(crate) machines: u32,
    pub(crate) slots: u32,
    pub(crate) frames: u32,
    pub(crate) clients: u32,
    pub(crate) recent: u32,
    pub(crate) salt: u32,
    pub(crate) seed: u64,
}

#[repr(C)]
pub(crate) struct DomainLoan {
    pub(crate) status: u32,
    pub(crate) frame: u32,
    pub(crate) slot: u64,
    pub(crate) sharers: u32,
}

#[repr(C)]
#[derive(Clone, Copy, Default)]
pub(crate) struct DomainTotals {
    pub(crate) machines: u32,
    pub(crate) clients: u32,
    pub(crate) slots: u32,
    pub(crate) frames: u32,
    pub(crate) shared: u32,
    pub(crate) reclaimed: u32,
}

extern "C" {
    pub(crate) fn pageshare_domain_make_shaped(
        domain: *mut Handle,
        shape: *const DomainShape,
        hash: u32,
    ) -> u32;
    pub(crate) fn pageshare_domain_begin(
        domain: *mut Handle,
        shape: *const DomainShape,
        hash: u32,
        pages: usize,
    ) -> u32;
    pub(crate) fn pageshare_domain_add(domain: *mut Handle, region: Region) -> u32;
    pub(crate) fn pageshare_domain_free(domain: *mut Handle) -> u32;
    pub(crate) fn pageshare_domain_enter(domain: *mut Handle, client: *mut u32) -> u32;
    pub(crate) fn pageshare_domain_lend(
        domain: *mut Handle,
        client: u32,
        page: *const [u8; 4096],
    ) -> DomainLoan;
    pub(crate) fn pageshare_domain_release(
        domain: *mut Handle,
        client: u32,
        slot: u64,
        freed: *mut u32,
    ) -> u32;
    pub(crate) fn pageshare_domain_leave(
        domain: *mut Handle,
        client: u32,
        freed: *mut u32,
        most: usize,
        count: *mut usize,
    ) -> u32;
    pub(crate) fn pageshare_domain_fingerprint(salt: u32, page: *const [u8; 4096]) -> u64;
    pub(crate) fn pageshare_domain_ask(
        domain: *mut Handle,
        client: u32,
        page: u64,
        fingerprint: u64,
        seen: *mut u8,
    ) -> u32;
    pub(crate) fn pageshare_domain_report(domain: *mut Handle, totals: *mut DomainTotals) -> u32;
    pub(crate) fn pageshare_make_in(
        machine: *mut Handle,
        frames: u32,
        pages: *const u32,
        guests: usize,
        salts: *const u32,
        salts_count: usize,
        hash: u32,
        region: Region,
    ) -> u32;
    pub(crate) fn pageshare_make_hashed(
        machine: *mut Handle,
        frames: u32,
        pages: *const u32,
        guests: usize,
        salts: *const u32,
        salts_count: usize,
        hash: u32,
    ) -> u32;
    pub(crate) fn pageshare_free(machine: *mut Handle) -> u32;
    pub(crate) fn pageshare_propose(machine: *mut Handle, guest: u32, ppn: u32) -> Answer;
    pub(crate) fn pageshare_store(
        machine: *mut Handle,
        guest: u32,
        ppn: u32,
        at: u32,
        bytes: *const u8,
        length: usize,
    ) -> Answer;
    pub(crate) fn pageshare_load(
        machine: *mut Handle,
        guest: u32,
        ppn: u32,
        at: u32,
        room: *mut u8,
        length: usize,
    ) -> Answer;
    pub(crate) fn pageshare_release(machine: *mut Handle, guest: u32, ppn: u32) -> Answer;
    pub(crate) fn pageshare_store_page(
        machine: *mut Handle,
        guest: u32,
        ppn: u32,
        page: *const u8,
    ) -> Answer;
    pub(crate) fn pageshare_lend(
        machine: *mut Handle,
        guest: u32,
        ppn: u32,
        page: *const u8,
    ) -> Answer;
    pub(crate) fn pageshare_lend_four(
        machine: *mut Handle,
        pages: *const Lending<'_>,
        answers: *mut Answer,
    ) -> u32;
    pub(crate) fn pageshare_lend_eight(
        machine: *mut Handle,
        pages: *const Lending<'_>,
        answers: *mut Answer,
    ) -> u32;
    pub(crate) fn pageshare_take_back(
        machine: *mut Handle,
        guest: u32,
        ppn: u32,
        room: *mut [u8; 4096],
    ) -> Answer;
    pub(crate) fn pageshare_count(machine: *mut Handle, guest: u32, totals: *mut Totals) -> Answer;
    pub(crate) fn pageshare_restart_count(machine: *mut Handle) -> u32;
    pub(crate) fn pageshare_hash(machine: *mut Handle, pages: *const PageName, count: usize)
        -> u32;
    pub(crate) fn pageshare_report(machine: *mut Handle, totals: *mut Totals) -> u32;
    pub(crate) fn pageshare_read(
        machine: *mut Handle,
        guest: u32,
        ppn: u32,
        room: *mut [u8; 4096],
    ) -> u32;
    pub(crate) fn pageshare_frame(machine: *mut Handle, guest: u32, ppn: u32, mpn: *mut u32)
        -> u32;
    pub(crate) fn pageshare_page(
        machine: *mut Handle,
        guest: u32,
        ppn: u32,
        at: *mut *const u8,
    ) -> u32;
    pub(crate) fn pageshare_version() -> *const c_char;
    pub(crate) fn pageshare_level() -> u32;
    pub(crate) fn pageshare_check_processor() -> u32;
}
