//! URIs: the payload of a URI record, expanded and shortened.

use super::prefixes::PREFIXES;
use crate::reference::Refusal;

/// The two parts of a URI: its prefix, and the rest.
pub type Parts<'a> = (&'static [u8], &'a [u8]);

/// Writes the URI that a payload stands for to the front of `uri`; returns how many bytes it has.
pub fn expand(payload: &[u8], uri: &mut [u8]) -> Result<u64, Refusal> {
    let (prefix, rest) = split(payload)?;
    join(prefix, rest, uri)
}

/// Writes the payload of a URI to the front of `payload`; returns how many bytes it has. Its code
/// is that of the longest prefix with which the URI begins.
pub fn shorten(uri: &[u8], payload: &mut [u8]) -> Result<u64, Refusal> {
    let (code, prefix) = PREFIXES
        .iter()
        .enumerate()
        .filter(|(_, prefix)| uri.starts_with(prefix.as_bytes()))
        .max_by_key(|(_, prefix)| prefix.len())
        .expect("the empty prefix is one");
    join(&[code as u8], &uri[prefix.len()..], payload)
}

/// The two parts of the URI that a payload stands for.
pub fn split(payload: &[u8]) -> Result<Parts<'_>, Refusal> {
    let Some((&code, rest)) = payload.split_first() else {
        return Err(Refusal::new(34));
    };
    match PREFIXES.get(code as usize) {
        Some(prefix) => Ok((prefix.as_bytes(), rest)),
        None => Err(Refusal::new(34)),
    }
}

/// Writes two parts, one after the other, to the front of a buffer; returns how many bytes they
/// have.
pub fn join(first: &[u8], second: &[u8], buffer: &mut [u8]) -> Result<u64, Refusal> {
    let len = first.len() + second.len();
    let Some(place) = buffer.get_mut(..len) else {
        return Err(Refusal::new(12));
    };
    let (front, back) = place.split_at_mut(first.len());
    front.copy_from_slice(first);
    back.copy_from_slice(second);
    Ok(len as u64)
}
