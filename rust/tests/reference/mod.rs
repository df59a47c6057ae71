//! The rules of `docs/01-scope.md` in ordinary Rust, with what `docs/02-change-requests.md` has
//! changed and added: E1, E2, E3, E4, E5, E6.
//!
//! This reference was written from these pages alone (Type 6 also from source document 003, records
//! from the NFC Forum's NDEF 1.0, the prefixes of URIs from its record type document), without a
//! look at the verified code, so the two can be tested against each other. It is also the baseline
//! of the speed measurements.
//!
//! Every function takes what the verified one takes: slices in, an answer out, and `&mut [u8]` for
//! the caller's buffer (`&mut [u64]` for a table of records). A refusal changes nothing in it.

#![allow(dead_code, unused_imports)]

pub mod ndef;
pub mod type2;
pub mod type3;
pub mod type6;
pub mod uri;

/// Why an operation was refused: a number of the page's table and, for 20 to 23, the position of
/// the command at fault (0 for all other numbers).
#[derive(Clone, Copy, Debug, PartialEq, Eq)]
pub struct Refusal {
    pub number: u8,
    pub position: u64,
}

impl Refusal {
    pub fn new(number: u8) -> Self {
        Refusal {
            number,
            position: 0,
        }
    }

    pub fn at(number: u8, position: usize) -> Self {
        Refusal {
            number,
            position: position as u64,
        }
    }
}

/// Whether a Type 2 or Type 3 tag with this version byte is read: its major version is 1.
pub fn known_version(version: u8) -> bool {
    version >> 4 == 1
}

/// What a tag reads as. The discriminants are the numbers of the C interface.
#[derive(Clone, Copy, Debug, PartialEq, Eq)]
pub enum Content {
    Message = 1,
    Empty = 2,
    BeingWritten = 3,
}

/// The answer of reading. Address and length are 0 without a message.
#[derive(Clone, Copy, Debug, PartialEq, Eq)]
pub struct ReadAnswer {
    pub content: Content,
    pub address: u64,
    pub length: u64,
    pub interrupted: bool,
    pub writable: bool,
    /// The greatest length that fits, writable or not.
    pub capacity: u64,
}

impl ReadAnswer {
    /// The message as a part of the image or, if interrupted, of the gathered copy.
    pub fn message<'a>(&self, image: &'a [u8], gathered: &'a [u8]) -> &'a [u8] {
        let (from, start) = match (self.content, self.interrupted) {
            (Content::Message, false) => (image, self.address as usize),
            (Content::Message, true) => (gathered, 0),
            _ => (image, 0),
        };
        &from[start..start + self.length as usize]
    }
}
