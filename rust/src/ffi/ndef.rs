//! The calls for the records of a message.

use crate::ndef::{Place, RECORDS_MAX};

/// The numbers of a record.
const RECORD: usize = 7;
/// The numbers of as many records as a message has at most.
const TABLE: usize = RECORDS_MAX * RECORD;

// The casts below rest on this: a Place is its seven numbers and nothing else.
const _: () = assert!(size_of::<Place>() == RECORD * size_of::<u64>());

mod c {
    unsafe extern "C" {
        pub fn zan_ndef_read(message: *const u8, message_len: usize, records: *mut u64) -> u64;
        pub fn zan_ndef_write(
            records: *const u64,
            records_len: usize,
            bytes: *const u8,
            bytes_len: usize,
            message: *mut u8,
            message_len: usize,
        ) -> u64;
    }
}

#[inline]
pub fn ndef_read(message: &[u8], records: &mut [u64; TABLE]) -> u64 {
    // SAFETY: pointers and lengths come from slices and references that live through the call.
    unsafe { c::zan_ndef_read(message.as_ptr(), message.len(), records.as_mut_ptr()) }
}

#[inline]
pub fn ndef_write(records: &[u64], bytes: &[u8], message: &mut [u8]) -> u64 {
    // SAFETY: pointers and lengths come from slices and references that live through the call.
    unsafe {
        c::zan_ndef_write(
            records.as_ptr(),
            records.len(),
            bytes.as_ptr(),
            bytes.len(),
            message.as_mut_ptr(),
            message.len(),
        )
    }
}

/// Places as the numbers of the C interface.
#[inline]
pub fn ndef_numbers(places: &[Place]) -> &[u64] {
    // SAFETY: a Place is seven u64 in a row (repr(C)), so the slice is this many of them.
    unsafe { core::slice::from_raw_parts(places.as_ptr().cast(), RECORD * places.len()) }
}

/// Places as a table of the C interface, to be filled in.
#[inline]
pub fn ndef_table(places: &mut [Place; RECORDS_MAX]) -> &mut [u64; TABLE] {
    // SAFETY: a Place is seven u64 in a row (repr(C)), so both arrays are this many u64, and any
    // u64 may stand in either.
    unsafe { &mut *places.as_mut_ptr().cast() }
}
