//! The archive's functions over slices. Nothing else here is unsafe, and nothing unsafe is elsewhere.
//!
//! What include/lugwormpin.h wants of a caller, a slice of Rust has: its pointer is not null, also where it is empty, and is aligned; its length
//! is true, in elements; and no `&mut` slice overlaps another or is written by another thread. The functions keep no pointer, and use
//! little stack (the header has the figures).
#![allow(unsafe_code)]

#[cfg(not(all(target_arch = "x86_64", target_os = "linux")))]
compile_error!("the archive is one for x86-64 Linux");

#[rustfmt::skip]
extern "C" {
    fn lugwormpin_types(types: *mut u32, types_len: usize);
    fn lugwormpin_bind(sheet: *const u32, sheet_len: usize, bytes: *const u8, bytes_len: usize, arena: *mut u8, arena_len: usize,
                       address: u64, strict: u32, types: *const u32, types_len: usize, report: *mut u32, report_len: usize) -> u64;
    fn lugwormpin_bind_ordered(sheet: *const u32, sheet_len: usize, bytes: *const u8, bytes_len: usize, arena: *mut u8, arena_len: usize,
                               address: u64, strict: u32, types: *const u32, types_len: usize, report: *mut u32, report_len: usize,
                               order: *const u32, order_len: usize) -> u64;
    fn lugwormpin_start_stop(sheet: *const u32, sheet_len: usize, bytes: *const u8, bytes_len: usize, arena: *mut u8, arena_len: usize,
                             address: u64, strict: u32, types: *const u32, types_len: usize, report: *mut u32, report_len: usize,
                             start: *mut u64, start_len: usize, stop: *mut u64, stop_len: usize, counts: *mut u64, counts_len: usize) -> u64;
    fn lugwormpin_query(sheet: *const u32, sheet_len: usize, bytes: *const u8, bytes_len: usize, arena: *mut u8, arena_len: usize,
                        address: u64, requester: u32, name: *const u8, name_len: usize, answer: *mut u64, answer_len: usize) -> u64;
    fn lugwormpin_query_all(sheet: *const u32, sheet_len: usize, bytes: *const u8, bytes_len: usize, arena: *mut u8, arena_len: usize,
                            address: u64, requester: u32, names: *const u8, names_len: usize, addresses: *mut u64, addresses_len: usize) -> u64;
}

/// What every call takes.
pub struct Slices<'a> {
    pub sheet: &'a [u32],
    pub bytes: &'a [u8],
    pub arena: &'a mut [u8],
    pub address: u64,
}

pub fn types(types: &mut [u32]) {
    // SAFETY: the head of this file.
    unsafe { lugwormpin_types(types.as_mut_ptr(), types.len()) }
}

#[rustfmt::skip]
pub fn bind(s: Slices, strict: bool, types: &[u32], report: &mut [u32]) -> u64 {
    // SAFETY: the head of this file.
    unsafe {
        lugwormpin_bind(s.sheet.as_ptr(), s.sheet.len(), s.bytes.as_ptr(), s.bytes.len(), s.arena.as_mut_ptr(), s.arena.len(), s.address,
                        strict.into(), types.as_ptr(), types.len(), report.as_mut_ptr(), report.len())
    }
}

#[rustfmt::skip]
pub fn bind_ordered(s: Slices, strict: bool, types: &[u32], report: &mut [u32], order: &[u32]) -> u64 {
    // SAFETY: the head of this file.
    unsafe {
        lugwormpin_bind_ordered(s.sheet.as_ptr(), s.sheet.len(), s.bytes.as_ptr(), s.bytes.len(), s.arena.as_mut_ptr(), s.arena.len(), s.address,
                                strict.into(), types.as_ptr(), types.len(), report.as_mut_ptr(), report.len(), order.as_ptr(), order.len())
    }
}

/// The lists that `start_stop` writes: what to call, and how many of each there are.
pub struct Lists<'a> {
    pub start: &'a mut [u64],
    pub stop: &'a mut [u64],
    pub counts: &'a mut [u64; 2],
}

#[rustfmt::skip]
pub fn start_stop(s: Slices, strict: bool, types: &[u32], report: &mut [u32], l: Lists) -> u64 {
    // SAFETY: the head of this file.
    unsafe {
        lugwormpin_start_stop(s.sheet.as_ptr(), s.sheet.len(), s.bytes.as_ptr(), s.bytes.len(), s.arena.as_mut_ptr(), s.arena.len(), s.address,
                              strict.into(), types.as_ptr(), types.len(), report.as_mut_ptr(), report.len(),
                              l.start.as_mut_ptr(), l.start.len(), l.stop.as_mut_ptr(), l.stop.len(), l.counts.as_mut_ptr(), l.counts.len())
    }
}

#[rustfmt::skip]
pub fn query(s: Slices, requester: u32, name: &[u8], answer: &mut [u64]) -> u64 {
    // SAFETY: the head of this file.
    unsafe {
        lugwormpin_query(s.sheet.as_ptr(), s.sheet.len(), s.bytes.as_ptr(), s.bytes.len(), s.arena.as_mut_ptr(), s.arena.len(), s.address,
                         requester, name.as_ptr(), name.len(), answer.as_mut_ptr(), answer.len())
    }
}

#[rustfmt::skip]
pub fn query_all(s: Slices, requester: u32, names: &[u8], addresses: &mut [u64]) -> u64 {
    // SAFETY: the head of this file.
    unsafe {
        lugwormpin_query_all(s.sheet.as_ptr(), s.sheet.len(), s.bytes.as_ptr(), s.bytes.len(), s.arena.as_mut_ptr(), s.arena.len(), s.address,
                             requester, names.as_ptr(), names.len(), addresses.as_mut_ptr(), addresses.len())
    }
}
