//! The naive form of E5 of docs/02-change-requests.md, to check the reference. It is as near to the
//! words as possible and without regard to speed. Reading takes byte after byte. Writing tries
//! every form of a record and keeps the shortest that reads as the record, so it has no rule of its
//! own.

use std::iter::{Copied, Peekable};
use std::slice::Iter;

use crate::common::records::{Record, IL, MB, ME, SR};

type Bytes<'a> = Peekable<Copied<Iter<'a, u8>>>;

/// The next so many bytes; `None` if they are cut short.
fn take(bytes: &mut Bytes, count: u64) -> Option<Vec<u8>> {
    let mut taken = Vec::new();
    for _ in 0..count {
        taken.push(bytes.next()?);
    }
    Some(taken)
}

/// A number of so many bytes, high first.
fn number(bytes: &mut Bytes, count: u64) -> Option<u64> {
    let taken = take(bytes, count)?;
    Some(taken.iter().fold(0, |n, &byte| 256 * n + byte as u64))
}

/// What follows the header byte; `None` if it is cut short.
fn after(header: u8, bytes: &mut Bytes) -> Option<Record> {
    let type_len = number(bytes, 1)?;
    let payload_len = number(bytes, if header & SR != 0 { 1 } else { 4 })?;
    let id_len = number(bytes, if header & IL != 0 { 1 } else { 0 })?;
    Some(Record {
        tnf: header % 8,
        kind: take(bytes, type_len)?,
        id: take(bytes, id_len)?,
        payload: take(bytes, payload_len)?,
    })
}

/// The records of a message, or the refusal's number.
pub fn read(message: &[u8]) -> Result<Vec<Record>, u8> {
    if message.is_empty() {
        return Err(32);
    }
    let mut bytes = message.iter().copied().peekable();
    let mut records = Vec::new();
    while let Some(header) = bytes.next() {
        if records.len() == 16 {
            return Err(30);
        }
        if header & 0x20 != 0 || header % 8 == 6 {
            return Err(31);
        }
        let Some(record) = after(header, &mut bytes) else {
            return Err(32);
        };
        let parts = [&record.kind, &record.id, &record.payload];
        if record.tnf == 0 && parts.iter().any(|part| !part.is_empty()) {
            return Err(32);
        }
        if record.tnf == 5 && !record.kind.is_empty() {
            return Err(32);
        }
        if record.tnf == 7 {
            return Err(32);
        }
        let is_first = records.is_empty();
        if (header & MB != 0) != is_first {
            return Err(32);
        }
        let ends_the_message = bytes.peek().is_none();
        if (header & ME != 0) != ends_the_message {
            return Err(32);
        }
        records.push(record);
    }
    Ok(records)
}

/// Every form of a record: with SR or without, with IL or without. A TNF over 7 spoils the flags,
/// and no form reads as the record.
pub fn forms(record: &Record, flags: u8) -> [Vec<u8>; 4] {
    let header = record.tnf | flags;
    [0, SR, IL, SR | IL].map(|form| record.under(header | form))
}

/// The shortest message that gives a list, or the refusal's number.
pub fn write(list: &[Record]) -> Result<Vec<u8>, u8> {
    let mut message = Vec::new();
    for (i, record) in list.iter().enumerate() {
        let alone = forms(record, MB | ME);
        let reads = |form: &&Vec<u8>| read(form).as_deref() == Ok(&[record.clone()][..]);
        let shortest = alone.iter().filter(reads).min_by_key(|form| form.len());
        let mut form = shortest.ok_or(33)?.clone();
        if i != 0 {
            form[0] &= !MB;
        }
        if i + 1 != list.len() {
            form[0] &= !ME;
        }
        message.extend(form);
    }
    match read(&message) {
        Ok(read) if read == list => Ok(message),
        _ => Err(33),
    }
}

/// The list that a table says; `None` if it is no list.
pub fn list(numbers: &[u64], bytes: &[u8]) -> Option<Vec<Record>> {
    if !numbers.len().is_multiple_of(7) {
        return None;
    }
    let mut list = Vec::new();
    for record in numbers.chunks(7) {
        let part = |at: u64, len: u64| {
            let end = at as u128 + len as u128;
            (end <= bytes.len() as u128).then(|| bytes[at as usize..end as usize].to_vec())
        };
        list.push(Record {
            tnf: u8::try_from(record[0]).ok()?,
            kind: part(record[1], record[2])?,
            id: part(record[3], record[4])?,
            payload: part(record[5], record[6])?,
        });
    }
    Some(list)
}
