//! The records of a message, after the NFC Forum's NDEF 1.0.
//!
//! [`read`] takes a message apart into at most sixteen records. [`write()`] and [`Builder`] make a
//! message of a list of records, in the shortest form. A list written and read is the same list.
//! The records need no tag; they are a view of the message's bytes, wherever these come from.
//!
//! ```
//! use zanfirotta::{ndef, type6};
//!
//! // A tag of 32 blocks of 4 bytes with a web address.
//! let mut image = [0; 128];
//! image[..8].copy_from_slice(b"NDE\x10\x1F\x03\x00\x1E");
//! image[8..28].copy_from_slice(b"\x12\x00\xD1\x01\x0EU\x01nfc-forum.org");
//!
//! let report = type6::read(&image)?;
//! let records = ndef::read(report.message(&image, &[]))?;
//! assert_eq!(records.len(), 1);
//! for record in &records {
//!     assert_eq!((record.tnf, record.record_type), (1, &b"U"[..]));
//!     assert_eq!(record.payload, b"\x01nfc-forum.org");
//! }
//! # Ok::<(), zanfirotta::Refusal>(())
//! ```

mod builder;
mod records;

pub use builder::Builder;
pub use records::{Iter, Records};

use crate::{answer, ffi, Refusal};

/// The most records that a message has.
///
/// ```
/// use zanfirotta::{ndef, RefusalNumber};
///
/// // Seventeen empty records.
/// let mut message = [[0x10, 0x00, 0x00]; ndef::RECORDS_MAX + 1];
/// message[0][0] = 0x90;
/// message[16][0] = 0x50;
/// let refusal = ndef::read(&message.concat()).unwrap_err();
/// assert_eq!(refusal.number, RefusalNumber::TooManyRecords);
/// ```
pub const RECORDS_MAX: usize = 16;

/// A record. The default is the empty record: TNF 0 and no parts.
///
/// ```
/// use zanfirotta::ndef::{self, Record};
///
/// let records = ndef::read(&[0xD0, 0x00, 0x00])?;
/// assert_eq!(records.get(0), Some(Record::default()));
/// # Ok::<(), zanfirotta::Refusal>(())
/// ```
#[derive(Clone, Copy, Debug, Default, PartialEq, Eq)]
pub struct Record<'a> {
    /// The type name format, from 0 to 5: how to understand the type.
    pub tnf: u8,
    /// The type, of at most 255 bytes.
    pub record_type: &'a [u8],
    /// The ID, of at most 255 bytes. An empty ID is no ID.
    pub id: &'a [u8],
    /// The payload.
    pub payload: &'a [u8],
}

/// The numbers of a record: its TNF, and where its parts are in some bytes.
///
/// ```
/// use zanfirotta::ndef::{self, Place};
///
/// // Flags and TNF, three lengths, type `T`, ID `a`, payload `hi`.
/// let records = ndef::read(b"\xD9\x01\x02\x01Tahi")?;
/// let place = Place {
///     tnf: 1,
///     type_at: 4,
///     type_len: 1,
///     id_at: 5,
///     id_len: 1,
///     payload_at: 6,
///     payload_len: 2,
/// };
/// assert_eq!(records.places(), [place]);
/// # Ok::<(), zanfirotta::Refusal>(())
/// ```
#[derive(Clone, Copy, Debug, Default, PartialEq, Eq)]
#[repr(C)]
pub struct Place {
    /// The type name format.
    pub tnf: u64,
    /// Where the type begins.
    pub type_at: u64,
    /// The length of the type.
    pub type_len: u64,
    /// Where the ID begins.
    pub id_at: u64,
    /// The length of the ID; 0 without an ID.
    pub id_len: u64,
    /// Where the payload begins.
    pub payload_at: u64,
    /// The length of the payload.
    pub payload_len: u64,
}

impl Place {
    /// The record that reading has found here. Its parts lie in the message.
    fn record<'a>(&self, message: &'a [u8]) -> Record<'a> {
        let part = |at: u64, len: u64| &message[at as usize..][..len as usize];
        Record {
            tnf: self.tnf as u8,
            record_type: part(self.type_at, self.type_len),
            id: part(self.id_at, self.id_len),
            payload: part(self.payload_at, self.payload_len),
        }
    }
}

/// Reads the records of a message.
///
/// # Errors
///
/// Refusals 30 to 32, for the first record at fault; they are tested in this order.
///
/// ```
/// use zanfirotta::{ndef, RefusalNumber};
///
/// let message = b"\x91\x01\x02Thi\x51\x01\x03Tbye";
/// let payloads = [&b"hi"[..], b"bye"];
/// for (record, payload) in ndef::read(message)?.iter().zip(payloads) {
///     assert_eq!(record.record_type, b"T");
///     assert_eq!(record.payload, payload);
/// }
///
/// // The second record is cut short.
/// let refusal = ndef::read(&message[..12]).unwrap_err();
/// assert_eq!(refusal.number, RefusalNumber::MalformedRecord);
/// // The first has ME, and the message goes on.
/// let refusal = ndef::read(b"\xD1\x01\x02Thi\x51\x01\x03Tbye").unwrap_err();
/// assert_eq!(refusal.number, RefusalNumber::MalformedRecord);
/// # Ok::<(), zanfirotta::Refusal>(())
/// ```
#[inline]
pub fn read(message: &[u8]) -> Result<Records<'_>, Refusal> {
    let mut places = [Place::default(); RECORDS_MAX];
    let count = answer(ffi::ndef_read(message, ffi::ndef_table(&mut places)))?;
    Ok(Records::new(message, places, count))
}

/// Writes the message of a list of records, in the shortest form, to the front of `message`;
/// returns how many bytes it has. The parts of the records are in `bytes`, in any order, and may
/// overlap. [`Builder`] takes parts from anywhere.
///
/// # Errors
///
/// Refusals 33 and 12; they are tested in this order. Refusal 33 is also given if a part does not
/// lie in `bytes`, an empty one too.
///
/// ```
/// use zanfirotta::ndef::{self, Place};
/// use zanfirotta::RefusalNumber;
///
/// // The type is `T`; the payload is all of the bytes.
/// let mut place = Place { tnf: 1, type_len: 1, payload_len: 4, ..Place::default() };
/// let mut message = [0; 8];
/// assert_eq!(ndef::write(&[place], b"This", &mut message), Ok(8));
/// assert_eq!(&message, b"\xD1\x01\x04TThis");
///
/// let refusal = ndef::write(&[place], b"This", &mut message[..7]).unwrap_err();
/// assert_eq!(refusal.number, RefusalNumber::ShortBuffer);
/// place.payload_at = 1;
/// let refusal = ndef::write(&[place], b"This", &mut message).unwrap_err();
/// assert_eq!(refusal.number, RefusalNumber::UnwritableRecords);
/// assert_eq!(&message, b"\xD1\x01\x04TThis");
/// ```
#[inline]
pub fn write(places: &[Place], bytes: &[u8], message: &mut [u8]) -> Result<usize, Refusal> {
    answer(ffi::ndef_write(ffi::ndef_numbers(places), bytes, message))
}
