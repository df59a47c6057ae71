//! Records: writing a list of them in the shortest form.

use super::{EMPTY, IL, MB, ME, MOST, NUMBERS, SR, UNKNOWN};
use crate::reference::Refusal;

/// A record to write: its TNF and its parts.
struct Record<'a> {
    tnf: u8,
    kind: &'a [u8],
    id: &'a [u8],
    payload: &'a [u8],
}

impl<'a> Record<'a> {
    /// The record with these numbers, if they are a record that a message can have.
    fn of(numbers: &[u64], bytes: &'a [u8]) -> Option<Self> {
        let part = |i: usize| {
            let (at, len) = (numbers[i], numbers[i + 1]);
            let end = at.checked_add(len)?;
            (end <= bytes.len() as u64).then(|| &bytes[at as usize..end as usize])
        };
        let record = Record {
            tnf: u8::try_from(numbers[0]).ok()?,
            kind: part(1)?,
            id: part(3)?,
            payload: part(5)?,
        };
        let (kind, id, payload) = (record.kind.len(), record.id.len(), record.payload.len());
        let fits_tnf = match record.tnf {
            EMPTY => (kind, id, payload) == (0, 0, 0),
            UNKNOWN => kind == 0,
            tnf => tnf < UNKNOWN,
        };
        let fits_lengths = kind <= 255 && id <= 255 && payload as u64 <= u32::MAX as u64;
        (fits_tnf && fits_lengths).then_some(record)
    }

    fn is_short(&self) -> bool {
        self.payload.len() <= 255
    }

    /// The bytes that it takes.
    fn len(&self) -> usize {
        let lengths = if self.is_short() { 2 } else { 5 } + usize::from(!self.id.is_empty());
        1 + lengths + self.kind.len() + self.id.len() + self.payload.len()
    }
}

/// Writes the message of a list of records to the front of `message`; returns how many bytes it
/// has. The list is seven numbers for each record, with the places of its parts in `bytes`.
pub fn write(records: &[u64], bytes: &[u8], message: &mut [u8]) -> Result<u64, Refusal> {
    let count = records.len() / NUMBERS;
    if count * NUMBERS != records.len() || !(1..=MOST).contains(&count) {
        return Err(Refusal::new(33));
    }
    let mut size = 0;
    for numbers in records.chunks_exact(NUMBERS) {
        let record = Record::of(numbers, bytes).ok_or(Refusal::new(33))?;
        size += record.len();
    }
    let Some(mut rest) = message.get_mut(..size) else {
        return Err(Refusal::new(12));
    };
    // The records are taken apart again: that is quicker than to keep them.
    for (i, numbers) in records.chunks_exact(NUMBERS).enumerate() {
        let record = Record::of(numbers, bytes).expect("it was one before");
        let (place, after) = rest.split_at_mut(record.len());
        put(&record, i == 0, i == count - 1, place);
        rest = after;
    }
    Ok(size as u64)
}

/// Writes a record to its place in the message.
fn put(record: &Record, is_first: bool, is_last: bool, place: &mut [u8]) {
    let mut header = record.tnf;
    if is_first {
        header |= MB;
    }
    if is_last {
        header |= ME;
    }
    if !record.id.is_empty() {
        header |= IL;
    }
    let payload_len = (record.payload.len() as u32).to_be_bytes();
    place[1] = record.kind.len() as u8;
    let mut at = if record.is_short() {
        header |= SR;
        place[2] = payload_len[3];
        3
    } else {
        place[2..6].copy_from_slice(&payload_len);
        6
    };
    place[0] = header;
    if !record.id.is_empty() {
        place[at] = record.id.len() as u8;
        at += 1;
    }
    for part in [record.kind, record.id, record.payload] {
        place[at..at + part.len()].copy_from_slice(part);
        at += part.len();
    }
}
