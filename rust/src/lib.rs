//! Reading and writing NFC Type 2, Type 3 and Type 6 tag images so that a write that breaks off
//! leaves the old message, none, or the new one; the records of a message ([`ndef`]), and the web
//! addresses in them ([`uri`]).
//!
//! These are safe wrappers over the verified library (`libzanfirotta.a`); the rules are in
//! `docs/01-scope.md` and `docs/02-change-requests.md`. Nothing here allocates: an image, a message
//! and a list are slices, and a result that needs room goes into a buffer that the caller passes
//! in. A refusal changes no byte of that buffer.
//!
//! ```
//! use zanfirotta::type2;
//!
//! // A tag of 64 bytes as it leaves the factory.
//! let mut image = [0; 64];
//! image[12..19].copy_from_slice(&[0xE1, 0x10, 0x06, 0x00, 0x03, 0x00, 0xFE]);
//!
//! // The commands that write a message, each of six bytes.
//! let message = [0xD0, 0x00, 0x00];
//! let mut list = [0; type2::LIST_MAX];
//! let count = type2::write(&image, &message, &mut list)?;
//! let list = &list[..count * type2::COMMAND];
//! assert_eq!(count, 2);
//! assert_eq!(list[..6], [0xA2, 0x05, 0x00, 0xFE, 0x00, 0x00]);
//!
//! // The tag takes them one after the other and then reads as the message.
//! for command in type2::commands(list) {
//!     type2::model(&mut image, command)?;
//! }
//! let mut gathered = [0; 64];
//! let report = type2::read(&image, &mut gathered)?;
//! assert_eq!(report.message(&image, &gathered), message);
//! # Ok::<(), zanfirotta::Refusal>(())
//! ```

#![no_std]
#![deny(unsafe_code)]
#![warn(missing_docs, clippy::undocumented_unsafe_blocks)]

#[allow(unsafe_code, missing_docs)]
mod ffi;
pub mod ndef;
pub mod type2;
pub mod type3;
pub mod type6;
pub mod uri;

/// The calls in the shape of the C interface, with its answers as numbers. For the tests.
#[doc(hidden)]
pub mod raw {
    pub use crate::ffi::{
        ndef_read, ndef_write, type2_decode, type2_encode, type2_judge, type2_model, type2_read,
        type2_write, type3_command_len, type3_decode, type3_encode, type3_judge, type3_model,
        type3_read, type3_write, type6_decode, type6_encode, type6_judge, type6_model, type6_read,
        type6_write, uri_expand, uri_first, uri_shorten,
    };
}

// What README.md shows of this crate runs as a doc test.
#[cfg(doctest)]
#[doc = include_str!("../../README.md")]
mod readme {}

use core::error::Error;
use core::fmt;

/// Why a call was refused.
///
/// ```
/// use zanfirotta::{type2, RefusalNumber};
///
/// let refusal = type2::read(&[0; 65], &mut []).unwrap_err();
/// assert_eq!(refusal.number, RefusalNumber::ImageSize);
/// assert_eq!(refusal.number as u8, 1);
/// assert_eq!(refusal.position, None);
/// assert_eq!(refusal.to_string(), "refused 1: wrong size of the image");
/// ```
#[derive(Clone, Copy, Debug, PartialEq, Eq)]
#[non_exhaustive]
pub struct Refusal {
    /// Which of the refusals it is.
    pub number: RefusalNumber,
    /// For 20 to 23 the index of the command at fault, counted from 0; for 23 the number of
    /// commands. The model and the codec take one command, so there it is 0. None for all other
    /// refusals.
    pub position: Option<usize>,
}

/// The refusals; the discriminants are the numbers of `docs/01-scope.md` and of
/// `docs/02-change-requests.md`.
#[derive(Clone, Copy, Debug, PartialEq, Eq, PartialOrd, Ord, Hash)]
#[non_exhaustive]
#[repr(u8)]
pub enum RefusalNumber {
    /// The image is too small or too large; Type 2 and Type 3: or not a whole number of blocks.
    ImageSize = 1,
    /// Type 2: byte 12 is not E1h. Type 3: the checksum is wrong. Type 6: bytes 0 to 2 are not the
    /// letters NDE.
    NotNdef = 2,
    /// The major version, the high nibble of the version byte, is not 1. Type 6: the version byte
    /// is not 10h.
    UnknownVersion = 3,
    /// Type 2: byte 15 is neither 00h nor 0Fh. Type 3: a flag is unknown, or Nbr is 0. Type 6: byte
    /// 6 is neither 00h nor FFh.
    BadAccess = 4,
    /// The data area reaches past the image. Type 6: the image is not as long as its blocks, or
    /// MAX_LEN is over the number of blocks after the container.
    BadDataArea = 5,
    /// A control TLV has a length other than 3 or a reserved nibble.
    BadControlTlv = 6,
    /// A TLV runs past the data area or has a bad length form; Type 3: Ln over 16·Nmaxb,
    /// whatever WriteFlag says; Type 6: no room for NLEN in MAX_LEN blocks, or NLEN over the room
    /// left for a message.
    BadLength = 7,
    /// Type 2: no message TLV.
    NoMessageTlv = 8,
    /// The message to write has length 0.
    EmptyMessage = 9,
    /// The tag is not writable.
    NotWritable = 10,
    /// The message is longer than the tag's capacity.
    MessageTooLong = 11,
    /// The buffer is shorter than the list, than the bytes of the command, than the message of the
    /// records, or than the URI or its payload; for [`ndef::Builder::push`], than the parts of the
    /// records.
    ShortBuffer = 12,
    /// The gathering buffer is shorter than an interrupted message.
    ShortGatheringBuffer = 13,
    /// Type 6: writing and judging need a block size of 2 or more.
    BlockTooSmall = 14,
    /// A command is not well formed.
    MalformedCommand = 20,
    /// A command changes a protected byte.
    ProtectedByte = 21,
    /// After a command the tag is refused, or reads neither as the old message, nor as holding
    /// none, nor as the new one.
    Misread = 22,
    /// The list ends and the tag does not read as the message.
    Unfinished = 23,
    /// Bytes of the message remain after sixteen records.
    TooManyRecords = 30,
    /// A record has a chunk flag or TNF 6.
    ChunkedRecord = 31,
    /// A record is cut short, or has TNF 7, TNF 5 with a type or TNF 0 with a length not 0; MB is
    /// not exactly on the first record, or ME not exactly on the one that ends the message; the
    /// message is empty.
    MalformedRecord = 32,
    /// No message reads as these records.
    UnwritableRecords = 33,
    /// The payload of a URI record is empty, or its code is over 23h.
    BadUri = 34,
    /// A poster is inside four others.
    NestedTooDeep = 35,
}

/// A number that no refusal has.
#[derive(Clone, Copy, Debug, PartialEq, Eq)]
pub struct UnknownRefusal(pub u8);

impl fmt::Display for UnknownRefusal {
    fn fmt(&self, f: &mut fmt::Formatter) -> fmt::Result {
        write!(f, "there is no refusal {}", self.0)
    }
}

impl Error for UnknownRefusal {}

/// The refusal with a given number.
///
/// ```
/// use zanfirotta::{RefusalNumber, UnknownRefusal};
///
/// assert_eq!(RefusalNumber::try_from(11), Ok(RefusalNumber::MessageTooLong));
/// assert_eq!(RefusalNumber::try_from(0), Err(UnknownRefusal(0)));
/// ```
impl TryFrom<u8> for RefusalNumber {
    type Error = UnknownRefusal;

    fn try_from(number: u8) -> Result<Self, UnknownRefusal> {
        use RefusalNumber::*;
        Ok(match number {
            1 => ImageSize,
            2 => NotNdef,
            3 => UnknownVersion,
            4 => BadAccess,
            5 => BadDataArea,
            6 => BadControlTlv,
            7 => BadLength,
            8 => NoMessageTlv,
            9 => EmptyMessage,
            10 => NotWritable,
            11 => MessageTooLong,
            12 => ShortBuffer,
            13 => ShortGatheringBuffer,
            14 => BlockTooSmall,
            20 => MalformedCommand,
            21 => ProtectedByte,
            22 => Misread,
            23 => Unfinished,
            30 => TooManyRecords,
            31 => ChunkedRecord,
            32 => MalformedRecord,
            33 => UnwritableRecords,
            34 => BadUri,
            35 => NestedTooDeep,
            _ => return Err(UnknownRefusal(number)),
        })
    }
}

impl RefusalNumber {
    fn text(self) -> &'static str {
        use RefusalNumber::*;
        match self {
            ImageSize => "wrong size of the image",
            NotNdef => "not an NDEF tag, or a wrong checksum",
            UnknownVersion => "unknown version",
            BadAccess => "unknown access byte or flags",
            BadDataArea => "data area does not fit the image",
            BadControlTlv => "bad control TLV",
            BadLength => "bad length",
            NoMessageTlv => "no message TLV",
            EmptyMessage => "empty message",
            NotWritable => "tag not writable",
            MessageTooLong => "message too long",
            ShortBuffer => "buffer too short",
            ShortGatheringBuffer => "gathering buffer too short",
            BlockTooSmall => "block size under 2",
            MalformedCommand => "command not well formed",
            ProtectedByte => "command changes a protected byte",
            Misread => "tag misreads after the command",
            Unfinished => "the list ends and the tag does not read as the message",
            TooManyRecords => "more than sixteen records",
            ChunkedRecord => "chunked record",
            MalformedRecord => "malformed record, or an empty message",
            UnwritableRecords => "no message reads as these records",
            BadUri => "URI record without a known code",
            NestedTooDeep => "poster inside four others",
        }
    }

    /// Whether the refusal comes with a position.
    fn has_position(self) -> bool {
        (RefusalNumber::MalformedCommand..=RefusalNumber::Unfinished).contains(&self)
    }
}

impl fmt::Display for Refusal {
    fn fmt(&self, f: &mut fmt::Formatter) -> fmt::Result {
        write!(f, "refused {}: {}", self.number as u8, self.number.text())?;
        match (self.number, self.position) {
            (RefusalNumber::Unfinished, Some(count)) => write!(f, ", after {count} commands"),
            (_, Some(position)) => write!(f, ", at command {position}"),
            (_, None) => Ok(()),
        }
    }
}

impl Error for Refusal {}

/// What a tag holds.
#[derive(Clone, Copy, Debug, PartialEq, Eq)]
pub enum Content {
    /// A message.
    Message,
    /// No message.
    Empty,
    /// Type 3: a write has begun and not ended; the tag holds no message.
    BeingWritten,
}

/// What a tag that reads says of itself.
#[derive(Clone, Copy, Debug, PartialEq, Eq)]
#[non_exhaustive]
pub struct Report {
    /// What the tag holds.
    pub content: Content,
    /// The address of the message's first byte in the image; 0 without a message.
    pub address: usize,
    /// The message's length; 0 without a message.
    pub length: usize,
    /// Whether skipped addresses lie between the message's first and last byte; the message is then
    /// in the gathering buffer.
    pub interrupted: bool,
    /// Whether the tag may be written.
    pub writable: bool,
    /// The greatest length of a message that fits, whether the tag may be written or not.
    ///
    /// ```
    /// use zanfirotta::{type2, RefusalNumber};
    ///
    /// let mut image = [0; 64];
    /// image[12..19].copy_from_slice(&[0xE1, 0x10, 0x06, 0x00, 0x03, 0x00, 0xFE]);
    ///
    /// let capacity = type2::read(&image, &mut [])?.capacity;
    /// assert_eq!(capacity, 46);
    ///
    /// let mut list = [0; type2::LIST_MAX];
    /// assert!(type2::write(&image, &vec![0xD0; capacity], &mut list).is_ok());
    /// let refusal = type2::write(&image, &vec![0xD0; capacity + 1], &mut list).unwrap_err();
    /// assert_eq!(refusal.number, RefusalNumber::MessageTooLong);
    /// # Ok::<(), zanfirotta::Refusal>(())
    /// ```
    pub capacity: usize,
}

impl Report {
    /// The message: a part of the image or, if interrupted, of the gathered copy. Pass the slices
    /// that were read. Empty without a message, and if the slice is too short to hold it.
    ///
    /// ```
    /// use zanfirotta::type2;
    ///
    /// // A memory area of four bytes at 24 cuts through the message.
    /// let mut image = [0; 64];
    /// image[12..16].copy_from_slice(&[0xE1, 0x10, 0x06, 0x00]);
    /// image[16..24].copy_from_slice(&[0x02, 0x03, 0x18, 0x04, 0x04, 0x03, 0x03, 0xD0]);
    /// image[28..31].copy_from_slice(&[0x00, 0x00, 0xFE]);
    ///
    /// let mut gathered = [0; 16];
    /// let report = type2::read(&image, &mut gathered)?;
    /// assert!(report.interrupted);
    /// assert_eq!(report.message(&image, &gathered), [0xD0, 0x00, 0x00]);
    /// # Ok::<(), zanfirotta::Refusal>(())
    /// ```
    pub fn message<'a>(&self, image: &'a [u8], gathered: &'a [u8]) -> &'a [u8] {
        let part = match (self.content, self.interrupted) {
            (Content::Message, false) => image
                .get(self.address..)
                .and_then(|image| image.get(..self.length)),
            (Content::Message, true) => gathered.get(..self.length),
            _ => None,
        };
        part.unwrap_or_default()
    }
}

/// An answer of the C interface: the count, or the refusal.
#[inline]
fn answer(answer: u64) -> Result<usize, Refusal> {
    if answer.is_multiple_of(256) {
        return Ok((answer / 256) as usize);
    }
    Err(refused(answer))
}

/// The refusal that an answer gives. It is a separate function to keep `answer` short, for calls
/// that are not refused.
#[cold]
fn refused(answer: u64) -> Refusal {
    let number = (answer % 256) as u8;
    match RefusalNumber::try_from(number) {
        Ok(number) => Refusal {
            number,
            position: number.has_position().then_some((answer / 256) as usize),
        },
        Err(unknown) => panic!("libzanfirotta.a: {unknown}"),
    }
}

/// What the C interface reports about a tag.
#[inline]
fn report(out: &[u64; 6]) -> Report {
    let [content, address, length, interrupted, writable, capacity] = ffi::fetched(out);
    Report {
        content: match content {
            1 => Content::Message,
            2 => Content::Empty,
            3 => Content::BeingWritten,
            other => panic!("libzanfirotta.a: {other} is no content"),
        },
        address: address as usize,
        length: length as usize,
        interrupted: interrupted != 0,
        writable: writable != 0,
        capacity: capacity as usize,
    }
}
