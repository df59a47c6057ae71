//! The verified library against the reference, on the same seeded cases.
//!
//! Every buffer passed to a call lies between guard bytes and is compared whole, also after a
//! refusal; a table of records, or a single number, lies between guard numbers. Each test prints how
//! often each answer came and fails if an expected one is rare.

#[cfg(not(zanfirotta_archive))]
compile_error!("libzanfirotta.a is missing: run `rt lib` in crates/zanfirotta");

#[path = "differential/areas.rs"]
mod areas;
#[path = "differential/capacity.rs"]
mod capacity;
mod common;
#[path = "differential/ndef.rs"]
mod ndef;
#[path = "differential/ndef_limits.rs"]
mod ndef_limits;
mod reference;
#[path = "differential/rewrites.rs"]
mod rewrites;
#[path = "differential/type2.rs"]
mod type2;
#[path = "differential/type3.rs"]
mod type3;
#[path = "differential/type6.rs"]
mod type6;
#[path = "differential/uri.rs"]
mod uri;
#[path = "differential/uri_limits.rs"]
mod uri_limits;
#[path = "differential/uri_posters.rs"]
mod uri_posters;

use std::fmt::Debug;

use common::{hex, Guarded, Rng};
use reference::ReadAnswer;
use zanfirotta::{Refusal, Report};

/// Cases of each operation in the normal run, and in the long one (`-- --ignored`).
const SUBSET: u64 = 20_000;
const WHOLE: u64 = 200_000;

/// Two tests for each operation of a type, for the tags that are rewritten, for records and for URIs.
macro_rules! operations {
    ($($tests:ident: $type:ident::$operation:ident,)*) => {$(
        mod $tests {
            #[test]
            fn subset() {
                crate::$type::$operation(crate::SUBSET);
            }

            #[test]
            #[ignore = "long"]
            fn whole() {
                crate::$type::$operation(crate::WHOLE);
            }
        }
    )*};
}

operations! {
    type2_read: type2::read,
    type2_write: type2::write,
    type2_judge: type2::judge,
    type2_model: type2::model,
    type2_encode: type2::encode,
    type2_decode: type2::decode,
    type3_read: type3::read,
    type3_write: type3::write,
    type3_judge: type3::judge,
    type3_model: type3::model,
    type3_encode: type3::encode,
    type3_decode: type3::decode,
    type6_read: type6::read,
    type6_write: type6::write,
    type6_judge: type6::judge,
    type6_model: type6::model,
    type6_encode: type6::encode,
    type6_decode: type6::decode,
    type2_rewrites: rewrites::type2,
    type3_rewrites: rewrites::type3,
    type6_rewrites: rewrites::type6,
    ndef_read: ndef::read,
    ndef_write: ndef::write,
    ndef_builder: ndef::builder,
    uri_expand: uri::expand,
    uri_shorten: uri::shorten,
    uri_first: uri::first,
}

#[test]
fn type2_every_length() {
    type2::every_length();
}

#[test]
fn type3_every_length() {
    type3::every_length();
}

#[test]
fn type6_every_length() {
    type6::every_length();
}

#[test]
fn type2_every_capacity() {
    capacity::every_type2();
}

#[test]
fn type3_every_capacity() {
    capacity::every_type3();
}

#[test]
fn type6_every_capacity() {
    capacity::every_type6();
}

#[test]
fn type2_every_two_areas() {
    areas::every_two();
}

#[test]
fn type2_every_stack_of_areas() {
    areas::every_stack();
}

#[test]
fn type2_every_version() {
    type2::every_version();
}

#[test]
fn type3_every_version() {
    type3::every_version();
}

#[test]
fn type6_every_version() {
    type6::every_version();
}

#[test]
fn type6_every_block_size() {
    type6::every_block_size();
}

#[test]
fn type6_every_stated_size() {
    type6::every_stated_size();
}

#[test]
fn ndef_every_header() {
    ndef_limits::every_header();
}

#[test]
fn ndef_every_cut() {
    ndef_limits::every_cut();
}

#[test]
fn ndef_every_length() {
    ndef_limits::every_length();
}

#[test]
fn ndef_every_stated_length() {
    ndef_limits::every_stated_length();
}

#[test]
fn ndef_every_count() {
    ndef_limits::every_count();
}

#[test]
fn ndef_every_tnf() {
    ndef_limits::every_tnf();
}

#[test]
fn ndef_every_place() {
    ndef_limits::every_place();
}

/// An answer of the library in the terms of the reference.
fn plain<T>(answer: Result<T, Refusal>) -> Result<T, reference::Refusal> {
    answer.map_err(|refusal| {
        let number = refusal.number as u8;
        assert_eq!(refusal.position.is_some(), (20..=23).contains(&number));
        let position = refusal.position.unwrap_or_default() as u64;
        reference::Refusal { number, position }
    })
}

fn read_answer(report: Report) -> ReadAnswer {
    ReadAnswer {
        content: match report.content {
            zanfirotta::Content::Message => reference::Content::Message,
            zanfirotta::Content::Empty => reference::Content::Empty,
            zanfirotta::Content::BeingWritten => reference::Content::BeingWritten,
        },
        address: report.address as u64,
        length: report.length as u64,
        interrupted: report.interrupted,
        writable: report.writable,
        capacity: report.capacity as u64,
    }
}

/// The number that the C interface gives for an answer.
fn number(answer: &Result<usize, reference::Refusal>) -> u64 {
    match answer {
        Ok(count) => 256 * *count as u64,
        Err(refusal) => refusal.number as u64 + 256 * refusal.position,
    }
}

fn same<T: PartialEq + Debug>(index: u64, got: &T, expected: &T, inputs: &[&[u8]]) {
    if got != expected {
        for input in inputs {
            println!("{}", hex(input));
        }
        panic!("case {index}: the library gives {got:?}, the reference {expected:?}");
    }
}

/// Tests that the buffers hold the same, guard bytes included.
fn same_buffers(index: u64, got: &Guarded, expected: &Guarded, inputs: &[&[u8]]) {
    if got != expected {
        same(index, &hex(got.slice()), &hex(expected.slice()), inputs);
        panic!("case {index}: a guard byte changed");
    }
}

/// Compares the six numbers of reading: they are the reference's after success, and unchanged
/// after a refusal. The numbers next to them are unchanged.
fn same_out(
    index: u64,
    rng: &mut Rng,
    expected: &Result<ReadAnswer, reference::Refusal>,
    call: impl FnOnce(&mut [u64; 6]) -> u64,
) {
    let before: [u64; 8] = std::array::from_fn(|_| rng.next());
    let mut out = before;
    let answer = call((&mut out[1..7]).try_into().unwrap());
    let mut wanted = before;
    if let Ok(read) = expected {
        let (content, interrupted) = (read.content as u64, read.interrupted as u64);
        wanted[1..7].copy_from_slice(&[
            content,
            read.address,
            read.length,
            interrupted,
            read.writable as u64,
            read.capacity,
        ]);
    }
    same(index, &answer, &number(&expected.map(|_| 0)), &[]);
    same(index, &out, &wanted, &[]);
}
