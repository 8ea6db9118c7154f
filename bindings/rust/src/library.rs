//! The functions of libnbft.a, as include/nbft.h declares them, and over each a safe one, which lends it slices.
//! Nothing else in this crate is unsafe.
#![allow(unsafe_code)]

use crate::{Discovery, Entry, Hfi, HfiExtended, Host, Security, Ssns};

/// An object: as many bytes as the length behind it says.
type Object = *const u8;

extern "C" {
    fn nbft_check(table: *const u8, length: usize) -> u32;
    fn nbft_check_looks(table: *const u8, length: usize) -> u64;
    fn nbft_field(table: *const u8, length: usize, kind: u8, position: u16, offset: u32, value: *mut [u8; 16]) -> u64;
    fn nbft_object(table: *const u8, length: usize, kind: u8, position: u16, offset: u32) -> u64;
    fn nbft_object_start(table: *const u8, length: usize, kind: u8, position: u16, offset: u32) -> u32;
    fn nbft_object_place(table: *const u8, length: usize, kind: u8, position: u16, offset: u32) -> u64;
    fn nbft_record(table: *const u8, length: usize, kind: u8, position: u16, entry: *mut [u8; Entry::BYTES]) -> u32;
    fn nbft_records(
        table: *const u8,
        length: usize,
        kind: u8,
        position: u16,
        last: u8,
        entries: *mut Entry,
        room: usize,
    ) -> u64;
    fn nbft_rewrite(table: *const u8, length: usize, out: *mut u8, room: usize) -> u64;
    fn nbft_compact(table: *mut u8, length: usize, map: *mut u8, room: usize) -> u64;
    fn nbft_begin(
        state: *mut [u8; 16],
        out: *mut u8,
        room: usize,
        header: *const [u8; 26],
        counts: *const [u8; 4],
        signature: Object,
        signature_length: usize,
    ) -> u32;
    fn nbft_host(
        state: *mut [u8; 16],
        out: *mut u8,
        room: usize,
        record: *const [u8; 32],
        nqn: Object,
        nqn_length: usize,
    ) -> u32;
    fn nbft_hfi(
        state: *mut [u8; 16],
        out: *mut u8,
        room: usize,
        record: *const [u8; 32],
        info: *const [u8; 128],
        name: Object,
        name_length: usize,
        extended_told: u8,
        extended: *const [u8; 20],
        iaid: Object,
        iaid_length: usize,
        duid: Object,
        duid_length: usize,
    ) -> u32;
    fn nbft_ssns(
        state: *mut [u8; 16],
        out: *mut u8,
        room: usize,
        record: *const [u8; 128],
        address: Object,
        address_length: usize,
        service: Object,
        service_length: usize,
        others: Object,
        others_length: usize,
        nqn: Object,
        nqn_length: usize,
        extended: *const [u8; 18],
        path: Object,
        path_length: usize,
    ) -> u32;
    fn nbft_security(
        state: *mut [u8; 16],
        out: *mut u8,
        room: usize,
        record: *const [u8; 64],
        algorithms: Object,
        algorithms_length: usize,
        protocols: Object,
        protocols_length: usize,
        ciphers: Object,
        ciphers_length: usize,
        groups: Object,
        groups_length: usize,
        hashes: Object,
        hashes_length: usize,
        keypath: Object,
        keypath_length: usize,
    ) -> u32;
    fn nbft_discovery(
        state: *mut [u8; 16],
        out: *mut u8,
        room: usize,
        record: *const [u8; 32],
        address: Object,
        address_length: usize,
        nqn: Object,
        nqn_length: usize,
    ) -> u32;
    fn nbft_leave(state: *mut [u8; 16], out: *mut u8, room: usize) -> u32;
    fn nbft_finish(state: *mut [u8; 16], out: *mut u8, room: usize) -> u32;
}

// SAFETY, of all that follows: a pointer and its length are those of a slice, or it leads to an array of as many bytes
// as the function takes. It reads no more than these, and writes none but those that are lent to it as mutable, of
// which nothing else has a byte while it runs.

pub fn check(table: &[u8]) -> u32 {
    // SAFETY: as above; it only reads.
    unsafe { nbft_check(table.as_ptr(), table.len()) }
}

pub fn check_looks(table: &[u8]) -> u64 {
    // SAFETY: as above; it only reads.
    unsafe { nbft_check_looks(table.as_ptr(), table.len()) }
}

pub fn field(table: &[u8], kind: u8, position: u16, offset: u32, value: &mut [u8; 16]) -> u64 {
    // SAFETY: as above; it writes `value`.
    unsafe { nbft_field(table.as_ptr(), table.len(), kind, position, offset, value) }
}

pub fn object(table: &[u8], kind: u8, position: u16, offset: u32) -> u64 {
    // SAFETY: as above; it only reads.
    unsafe { nbft_object(table.as_ptr(), table.len(), kind, position, offset) }
}

pub fn object_start(table: &[u8], kind: u8, position: u16, offset: u32) -> u32 {
    // SAFETY: as above; it only reads.
    unsafe { nbft_object_start(table.as_ptr(), table.len(), kind, position, offset) }
}

pub fn object_place(table: &[u8], kind: u8, position: u16, offset: u32) -> u64 {
    // SAFETY: as above; it only reads.
    unsafe { nbft_object_place(table.as_ptr(), table.len(), kind, position, offset) }
}

pub fn record(table: &[u8], kind: u8, position: u16, entry: &mut [u8; Entry::BYTES]) -> u32 {
    // SAFETY: as above; it writes `entry`.
    unsafe { nbft_record(table.as_ptr(), table.len(), kind, position, entry) }
}

pub fn records(table: &[u8], kind: u8, position: u16, last: u8, entries: &mut [Entry]) -> u64 {
    let room = size_of_val(entries);
    // SAFETY: as above; it writes `entries`, each of which is nothing but its bytes, and these may be any.
    unsafe { nbft_records(table.as_ptr(), table.len(), kind, position, last, entries.as_mut_ptr(), room) }
}

pub fn rewrite(table: &[u8], out: &mut [u8]) -> u64 {
    // SAFETY: as above; it writes `out`.
    unsafe { nbft_rewrite(table.as_ptr(), table.len(), out.as_mut_ptr(), out.len()) }
}

pub fn compact(table: &mut [u8], map: &mut [u8]) -> u64 {
    // SAFETY: as above; it writes both.
    unsafe { nbft_compact(table.as_mut_ptr(), table.len(), map.as_mut_ptr(), map.len()) }
}

pub fn begin(state: &mut [u8; 16], out: &mut [u8], header: &[u8; 26], counts: &[u8; 4], signature: &[u8]) -> u32 {
    let (signature, length) = (signature.as_ptr(), signature.len());
    // SAFETY: as above; it writes `state` and `out`.
    unsafe { nbft_begin(state, out.as_mut_ptr(), out.len(), header, counts, signature, length) }
}

pub fn host(state: &mut [u8; 16], out: &mut [u8], told: &Host) -> u32 {
    let (nqn, length) = (told.nqn.as_ptr(), told.nqn.len());
    // SAFETY: as above; it writes `state` and `out`.
    unsafe { nbft_host(state, out.as_mut_ptr(), out.len(), told.record, nqn, length) }
}

/// The bytes of the extended info are lent also where it is not told.
pub fn hfi(state: &mut [u8; 16], out: &mut [u8], told: &Hfi) -> u32 {
    let extended = told.extended.unwrap_or(HfiExtended { record: &[0; 20], iaid: &[], duid: &[] });
    // SAFETY: as above; it writes `state` and `out`.
    unsafe {
        nbft_hfi(
            state,
            out.as_mut_ptr(),
            out.len(),
            told.record,
            told.info,
            told.name.as_ptr(),
            told.name.len(),
            u8::from(told.extended.is_some()),
            extended.record,
            extended.iaid.as_ptr(),
            extended.iaid.len(),
            extended.duid.as_ptr(),
            extended.duid.len(),
        )
    }
}

pub fn ssns(state: &mut [u8; 16], out: &mut [u8], told: &Ssns) -> u32 {
    // SAFETY: as above; it writes `state` and `out`.
    unsafe {
        nbft_ssns(
            state,
            out.as_mut_ptr(),
            out.len(),
            told.record,
            told.address.as_ptr(),
            told.address.len(),
            told.service.as_ptr(),
            told.service.len(),
            told.others.as_ptr(),
            told.others.len(),
            told.nqn.as_ptr(),
            told.nqn.len(),
            told.extended,
            told.path.as_ptr(),
            told.path.len(),
        )
    }
}

pub fn security(state: &mut [u8; 16], out: &mut [u8], told: &Security) -> u32 {
    // SAFETY: as above; it writes `state` and `out`.
    unsafe {
        nbft_security(
            state,
            out.as_mut_ptr(),
            out.len(),
            told.record,
            told.algorithms.as_ptr(),
            told.algorithms.len(),
            told.protocols.as_ptr(),
            told.protocols.len(),
            told.ciphers.as_ptr(),
            told.ciphers.len(),
            told.groups.as_ptr(),
            told.groups.len(),
            told.hashes.as_ptr(),
            told.hashes.len(),
            told.keypath.as_ptr(),
            told.keypath.len(),
        )
    }
}

pub fn discovery(state: &mut [u8; 16], out: &mut [u8], told: &Discovery) -> u32 {
    let (address, nqn) = (told.address, told.nqn);
    let (out, room) = (out.as_mut_ptr(), out.len());
    // SAFETY: as above; it writes `state` and `out`.
    unsafe { nbft_discovery(state, out, room, told.record, address.as_ptr(), address.len(), nqn.as_ptr(), nqn.len()) }
}

pub fn leave(state: &mut [u8; 16], out: &mut [u8]) -> u32 {
    // SAFETY: as above; it writes `state` and `out`.
    unsafe { nbft_leave(state, out.as_mut_ptr(), out.len()) }
}

pub fn finish(state: &mut [u8; 16], out: &mut [u8]) -> u32 {
    // SAFETY: as above; it writes `state` and `out`.
    unsafe { nbft_finish(state, out.as_mut_ptr(), out.len()) }
}
