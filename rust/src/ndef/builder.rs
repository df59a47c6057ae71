//! Makes a message of records whose parts come from anywhere.

use super::{write, Place, Record, RECORDS_MAX};
use crate::{Refusal, RefusalNumber};

/// A list of records that grows. The library wants all parts in one slice, so the builder copies
/// them to a buffer of the caller's, one after the other.
///
/// ```
/// use zanfirotta::ndef::{self, Builder, Record};
///
/// let address = String::from("nfc-forum.org");
/// let uri = [b"\x01", address.as_bytes()].concat();
/// let link = Record { tnf: 1, record_type: b"U", id: b"", payload: &uri };
/// let title = Record { tnf: 1, record_type: b"T", id: b"title", payload: b"\x02enNFC" };
///
/// let mut buffer = [0; 64];
/// let mut builder = Builder::new(&mut buffer);
/// builder.push(link)?.push(title)?;
///
/// let mut message = [0; 64];
/// let len = builder.write(&mut message)?;
/// let records = ndef::read(&message[..len])?;
/// assert!(records.iter().eq([link, title]));
/// # Ok::<(), zanfirotta::Refusal>(())
/// ```
#[derive(Debug)]
pub struct Builder<'b> {
    buffer: &'b mut [u8],
    /// How many bytes of the buffer are taken.
    used: usize,
    places: [Place; RECORDS_MAX],
    count: usize,
}

impl<'b> Builder<'b> {
    /// A list without records. The buffer needs room for the types, IDs and payloads of the records
    /// to come.
    ///
    /// ```
    /// use zanfirotta::ndef::Builder;
    /// use zanfirotta::RefusalNumber;
    ///
    /// // There is no message without records.
    /// let refusal = Builder::new(&mut []).write(&mut [0; 8]).unwrap_err();
    /// assert_eq!(refusal.number, RefusalNumber::UnwritableRecords);
    /// ```
    pub fn new(buffer: &'b mut [u8]) -> Self {
        Builder {
            buffer,
            used: 0,
            places: [Place::default(); RECORDS_MAX],
            count: 0,
        }
    }

    /// Adds a record to the end. What it says is judged by [`Builder::write`].
    ///
    /// # Errors
    ///
    /// Refusal 33 for a seventeenth record, and 12 if its parts do not fit in what is left of the
    /// buffer; they are tested in this order. The list is then as it was.
    ///
    /// ```
    /// use zanfirotta::ndef::{Builder, Record};
    /// use zanfirotta::RefusalNumber;
    ///
    /// let record = Record { tnf: 1, record_type: b"T", id: b"", payload: b"hi" };
    /// let mut buffer = [0; 5];
    /// let mut builder = Builder::new(&mut buffer);
    /// builder.push(record)?;
    /// let refusal = builder.push(record).unwrap_err();
    /// assert_eq!(refusal.number, RefusalNumber::ShortBuffer);
    ///
    /// let mut message = [0; 16];
    /// let len = builder.write(&mut message)?;
    /// assert_eq!(&message[..len], b"\xD1\x01\x02Thi");
    /// # Ok::<(), zanfirotta::Refusal>(())
    /// ```
    pub fn push(&mut self, record: Record) -> Result<&mut Self, Refusal> {
        let refused = |number| Refusal {
            number,
            position: None,
        };
        if self.count == RECORDS_MAX {
            return Err(refused(RefusalNumber::UnwritableRecords));
        }
        let parts = [record.record_type, record.id, record.payload];
        let needed = parts
            .iter()
            .fold(0, |sum: usize, part| sum.saturating_add(part.len()));
        if needed > self.buffer.len() - self.used {
            return Err(refused(RefusalNumber::ShortBuffer));
        }
        let [(type_at, type_len), (id_at, id_len), (payload_at, payload_len)] =
            parts.map(|part| self.lay(part));
        self.places[self.count] = Place {
            tnf: record.tnf.into(),
            type_at,
            type_len,
            id_at,
            id_len,
            payload_at,
            payload_len,
        };
        self.count += 1;
        Ok(self)
    }

    /// Copies a part to the buffer; returns its place and its length.
    fn lay(&mut self, part: &[u8]) -> (u64, u64) {
        let at = self.used;
        self.used += part.len();
        self.buffer[at..self.used].copy_from_slice(part);
        (at as u64, part.len() as u64)
    }

    /// How many records the list has.
    ///
    /// ```
    /// use zanfirotta::ndef::{Builder, Record};
    ///
    /// let mut builder = Builder::new(&mut []);
    /// assert_eq!(builder.push(Record::default())?.len(), 1);
    /// # Ok::<(), zanfirotta::Refusal>(())
    /// ```
    pub fn len(&self) -> usize {
        self.count
    }

    /// Whether the list has no records.
    ///
    /// ```
    /// assert!(zanfirotta::ndef::Builder::new(&mut []).is_empty());
    /// ```
    pub fn is_empty(&self) -> bool {
        self.count == 0
    }

    /// Writes the message of the records, in the shortest form, to the front of `message`; returns
    /// how many bytes it has. The list stays as it is.
    ///
    /// # Errors
    ///
    /// Refusals 33 and 12; they are tested in this order.
    ///
    /// ```
    /// use zanfirotta::ndef::{Builder, Record};
    /// use zanfirotta::RefusalNumber;
    ///
    /// let mut builder = Builder::new(&mut []);
    /// builder.push(Record::default())?;
    /// let mut message = [0; 3];
    /// assert_eq!(builder.write(&mut message), Ok(3));
    /// assert_eq!(message, [0xD0, 0x00, 0x00]);
    ///
    /// // There is no TNF 7.
    /// builder.push(Record { tnf: 7, ..Record::default() })?;
    /// let refusal = builder.write(&mut message).unwrap_err();
    /// assert_eq!(refusal.number, RefusalNumber::UnwritableRecords);
    /// # Ok::<(), zanfirotta::Refusal>(())
    /// ```
    pub fn write(&self, message: &mut [u8]) -> Result<usize, Refusal> {
        write(
            &self.places[..self.count],
            &self.buffer[..self.used],
            message,
        )
    }
}
