//! What reading a message gives: its records, and where they are.

use core::fmt;
use core::iter::FusedIterator;
use core::slice;

use super::{Place, Record, RECORDS_MAX};

/// The records of a message; see [`read`](super::read). They are equal to those of a message that
/// has the same records in another form.
///
/// ```
/// use zanfirotta::ndef;
///
/// // The payload's length takes one byte or four.
/// let short = ndef::read(b"\xD1\x01\x02Thi")?;
/// let long = ndef::read(b"\xC1\x01\x00\x00\x00\x02Thi")?;
/// assert_eq!(short, long);
/// assert_ne!(short.places(), long.places());
/// # Ok::<(), zanfirotta::Refusal>(())
/// ```
#[derive(Clone)]
pub struct Records<'a> {
    message: &'a [u8],
    places: [Place; RECORDS_MAX],
    count: usize,
}

impl<'a> Records<'a> {
    #[inline]
    pub(super) fn new(message: &'a [u8], places: [Place; RECORDS_MAX], count: usize) -> Self {
        Records {
            message,
            places,
            count,
        }
    }

    /// How many records there are: from 1 to [`RECORDS_MAX`].
    ///
    /// ```
    /// assert_eq!(zanfirotta::ndef::read(&[0xD0, 0x00, 0x00])?.len(), 1);
    /// # Ok::<(), zanfirotta::Refusal>(())
    /// ```
    pub fn len(&self) -> usize {
        self.count
    }

    /// Whether there are no records; an empty message is refused, so this is false.
    ///
    /// ```
    /// use zanfirotta::{ndef, RefusalNumber};
    ///
    /// assert!(!ndef::read(&[0xD0, 0x00, 0x00])?.is_empty());
    /// let refusal = ndef::read(&[]).unwrap_err();
    /// assert_eq!(refusal.number, RefusalNumber::MalformedRecord);
    /// # Ok::<(), zanfirotta::Refusal>(())
    /// ```
    pub fn is_empty(&self) -> bool {
        self.count == 0
    }

    /// The record with this index, counted from 0.
    ///
    /// ```
    /// use zanfirotta::ndef;
    ///
    /// let records = ndef::read(b"\xD1\x01\x02Thi")?;
    /// assert_eq!(records.get(0).unwrap().payload, b"hi");
    /// assert_eq!(records.get(1), None);
    /// # Ok::<(), zanfirotta::Refusal>(())
    /// ```
    pub fn get(&self, index: usize) -> Option<Record<'a>> {
        let place = self.places().get(index)?;
        Some(place.record(self.message))
    }

    /// The records, in order. Their parts are parts of the message.
    ///
    /// ```
    /// use zanfirotta::ndef;
    ///
    /// let message = b"\x91\x01\x02Thi\x51\x01\x03Tbye";
    /// let records = ndef::read(message)?;
    /// let lengths = records.iter().map(|record| record.payload.len());
    /// assert!(lengths.eq([2, 3]));
    /// assert_eq!(records.iter().last().unwrap().payload, &message[10..]);
    /// # Ok::<(), zanfirotta::Refusal>(())
    /// ```
    pub fn iter(&self) -> Iter<'_, 'a> {
        Iter {
            message: self.message,
            places: self.places().iter(),
        }
    }

    /// Where the records are in the message. The parts of a record follow each other: the ID begins
    /// where the type ends, even if there is none, and the payload where the ID ends.
    ///
    /// ```
    /// use zanfirotta::ndef;
    ///
    /// // What was read is written again. The bytes are the same, as the form is the shortest.
    /// let message = b"\x91\x01\x02Thi\x51\x01\x03Tbye";
    /// let records = ndef::read(message)?;
    /// let mut again = [0; 13];
    /// assert_eq!(ndef::write(records.places(), message, &mut again), Ok(13));
    /// assert_eq!(&again, message);
    /// # Ok::<(), zanfirotta::Refusal>(())
    /// ```
    pub fn places(&self) -> &[Place] {
        &self.places[..self.count]
    }
}

impl fmt::Debug for Records<'_> {
    fn fmt(&self, f: &mut fmt::Formatter) -> fmt::Result {
        f.debug_list().entries(self).finish()
    }
}

impl PartialEq for Records<'_> {
    fn eq(&self, other: &Self) -> bool {
        self.iter().eq(other)
    }
}

impl Eq for Records<'_> {}

impl<'r, 'a> IntoIterator for &'r Records<'a> {
    type Item = Record<'a>;
    type IntoIter = Iter<'r, 'a>;

    fn into_iter(self) -> Iter<'r, 'a> {
        self.iter()
    }
}

/// The records of a message in order; see [`Records::iter`].
///
/// ```
/// use zanfirotta::ndef;
///
/// let records = ndef::read(b"\x91\x01\x02Thi\x51\x01\x03Tbye")?;
/// let mut iter = records.iter();
/// assert_eq!(iter.len(), 2);
/// assert_eq!(iter.next_back().unwrap().payload, b"bye");
/// let rest = iter.clone();
/// assert!(iter.eq(rest));
/// # Ok::<(), zanfirotta::Refusal>(())
/// ```
#[derive(Clone, Debug)]
pub struct Iter<'r, 'a> {
    message: &'a [u8],
    places: slice::Iter<'r, Place>,
}

impl<'a> Iterator for Iter<'_, 'a> {
    type Item = Record<'a>;

    fn next(&mut self) -> Option<Record<'a>> {
        Some(self.places.next()?.record(self.message))
    }

    fn size_hint(&self) -> (usize, Option<usize>) {
        self.places.size_hint()
    }
}

impl DoubleEndedIterator for Iter<'_, '_> {
    fn next_back(&mut self) -> Option<Self::Item> {
        Some(self.places.next_back()?.record(self.message))
    }
}

impl ExactSizeIterator for Iter<'_, '_> {}

impl FusedIterator for Iter<'_, '_> {}
