//! URIs: the first one in a message.

use super::payload::{join, split, Parts};
use crate::reference::ndef::{self, NUMBERS, TABLE};
use crate::reference::Refusal;

/// The TNF of the types that the NFC Forum has given out.
const WELL_KNOWN: u64 = 1;
/// A poster with so many posters around it is refused.
const TOO_DEEP: usize = 4;

/// Writes the first URI of a message to the front of `uri`; returns how many bytes it has, or
/// `None` if the message has no URI.
pub fn first(message: &[u8], uri: &mut [u8]) -> Result<Option<u64>, Refusal> {
    match find(message, 0)? {
        Some((prefix, rest)) => join(prefix, rest, uri).map(Some),
        None => Ok(None),
    }
}

/// The two parts of the first URI of a message with so many posters around it. The records behind
/// it are looked at too: they may be at fault.
fn find(message: &[u8], around: usize) -> Result<Option<Parts<'_>>, Refusal> {
    let mut table = [0; TABLE];
    let count = ndef::read(message, &mut table)? as usize;
    let mut first = None;
    for numbers in table[..count * NUMBERS].chunks_exact(NUMBERS) {
        let part = |i: usize| &message[numbers[i] as usize..][..numbers[i + 1] as usize];
        let (tnf, kind, payload) = (numbers[0], part(1), part(5));
        let found = match (tnf, kind) {
            (WELL_KNOWN, b"U") => Some(split(payload)?),
            (WELL_KNOWN, b"Sp") if around == TOO_DEEP => return Err(Refusal::new(35)),
            (WELL_KNOWN, b"Sp") => find(payload, around + 1)?,
            _ => None,
        };
        first = first.or(found);
    }
    Ok(first)
}
