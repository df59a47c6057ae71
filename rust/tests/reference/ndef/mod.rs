//! The records of a message (E5), after the NFC Forum's NDEF 1.0. A record is a header byte, the
//! lengths of type, payload and ID, and then type, ID and payload.

mod read;
mod write;

pub use read::read;
pub use write::write;

/// The most records that a message has.
const MOST: usize = 16;
/// The numbers of a record: TNF, then place and length of type, ID and payload.
pub const NUMBERS: usize = 7;
/// The numbers of as many records as a message has at most.
pub const TABLE: usize = MOST * NUMBERS;

/// The parts of the header byte: the message begins and ends, the record is a chunk, the payload's
/// length takes one byte, there is an ID length, the TNF.
const MB: u8 = 0x80;
const ME: u8 = 0x40;
const CF: u8 = 0x20;
const SR: u8 = 0x10;
const IL: u8 = 0x08;
const TNF: u8 = 0x07;

/// The TNFs about which something is said.
const EMPTY: u8 = 0;
const UNKNOWN: u8 = 5;
const UNCHANGED: u8 = 6;
const RESERVED: u8 = 7;
