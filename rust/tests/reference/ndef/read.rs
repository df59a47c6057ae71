//! Records: reading a message.

use super::{CF, EMPTY, IL, MB, ME, MOST, NUMBERS, RESERVED, SR, TABLE, TNF, UNCHANGED, UNKNOWN};
use crate::reference::Refusal;

/// Reads a message. Writes the numbers of its records to the front of `records`, seven for each;
/// returns how many records there are.
pub fn read(message: &[u8], records: &mut [u64; TABLE]) -> Result<u64, Refusal> {
    let mut read = [0; TABLE];
    let mut count = 0;
    let mut at = 0;
    loop {
        if count == MOST {
            return Err(Refusal::new(30));
        }
        let Some(&header) = message.get(at) else {
            return Err(Refusal::new(32));
        };
        if header & CF != 0 || header & TNF == UNCHANGED {
            return Err(Refusal::new(31));
        }
        let Some((numbers, end)) = record(message, at, header) else {
            return Err(Refusal::new(32));
        };
        let (is_first, is_last) = (count == 0, end == message.len());
        if (header & MB != 0) != is_first || (header & ME != 0) != is_last {
            return Err(Refusal::new(32));
        }
        read[count * NUMBERS..(count + 1) * NUMBERS].copy_from_slice(&numbers);
        count += 1;
        at = end;
        if is_last {
            break;
        }
    }
    records[..count * NUMBERS].copy_from_slice(&read[..count * NUMBERS]);
    Ok(count as u64)
}

/// The numbers of the record at `at`, and where it ends, if its TNF and lengths may be so and it is
/// not cut short.
fn record(message: &[u8], at: usize, header: u8) -> Option<([u64; NUMBERS], usize)> {
    let (&type_len, rest) = message[at + 1..].split_first()?;
    let (payload_len, rest) = if header & SR != 0 {
        let (&len, rest) = rest.split_first()?;
        (len as u32, rest)
    } else {
        let (&len, rest) = rest.split_first_chunk()?;
        (u32::from_be_bytes(len), rest)
    };
    let (id_len, rest) = if header & IL != 0 {
        let (&len, rest) = rest.split_first()?;
        (len, rest)
    } else {
        (0, rest)
    };

    let tnf = header & TNF;
    let fits_tnf = match tnf {
        EMPTY => (type_len, id_len, payload_len) == (0, 0, 0),
        UNKNOWN => type_len == 0,
        RESERVED => false,
        _ => true,
    };
    let type_at = (message.len() - rest.len()) as u64;
    let id_at = type_at + type_len as u64;
    let payload_at = id_at + id_len as u64;
    let end = payload_at + payload_len as u64;
    if !fits_tnf || end > message.len() as u64 {
        return None;
    }
    let numbers = [
        tnf as u64,
        type_at,
        type_len as u64,
        id_at,
        id_len as u64,
        payload_at,
        payload_len as u64,
    ];
    Some((numbers, end as usize))
}
