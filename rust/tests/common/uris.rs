//! URIs to test with, payloads of URI records, and messages in which posters are nested.

use super::records::{self, Message, Record, MB, ME};
use super::Rng;
use crate::reference::uri::PREFIXES;

/// TNFs with types that are not those of a URI record or a poster, but near them.
pub const NEAR: [(u8, &[u8]); 16] = [
    (1, b"u"),
    (1, b"sp"),
    (1, b"SP"),
    (1, b"sP"),
    (1, b"S"),
    (1, b"p"),
    (1, b""),
    (1, b"Spx"),
    (1, b"U "),
    (1, b"UU"),
    (1, b"T"),
    (1, b"act"),
    (2, b"U"),
    (3, b"Sp"),
    (4, b"U"),
    (4, b"Sp"),
];

/// The most posters that are put around a message.
pub const DEEPEST: usize = 6;

/// A record without an ID.
pub fn record(tnf: u8, kind: &[u8], payload: &[u8]) -> Record {
    Record {
        tnf,
        kind: kind.to_vec(),
        id: Vec::new(),
        payload: payload.to_vec(),
    }
}

/// A URI record with this payload.
pub fn link(payload: &[u8]) -> Record {
    record(1, b"U", payload)
}

/// A poster around this message.
pub fn poster(message: &[u8]) -> Record {
    record(1, b"Sp", message)
}

/// The message of a list, in the shortest form.
pub fn message(list: &[Record]) -> Vec<u8> {
    let mut message = Vec::new();
    for (i, record) in list.iter().enumerate() {
        let first = if i == 0 { MB } else { 0 };
        let last = if i + 1 == list.len() { ME } else { 0 };
        message.extend(record.under(record.header() | first | last));
    }
    message
}

/// A message with so many posters around it. With none it is as it was.
pub fn nested(mut inner: Vec<u8>, posters: usize) -> Vec<u8> {
    for _ in 0..posters {
        inner = message(&[poster(&inner)]);
    }
    inner
}

/// What follows a prefix: text, any bytes, or nothing.
fn rest(rng: &mut Rng) -> Vec<u8> {
    let len = match rng.below(30) {
        0 => rng.between(230, 260),
        1 => 1000,
        2..=8 => 0,
        _ => rng.between(1, 30),
    };
    match rng.below(2) {
        0 => rng.bytes(len),
        _ => (0..len).map(|_| rng.pick(b"abchtpw:/.@")).collect(),
    }
}

/// A URI. It often begins with a prefix, or with one that is cut or has a byte changed.
pub fn uri(rng: &mut Rng) -> Vec<u8> {
    let mut uri = rng.pick(&PREFIXES).as_bytes().to_vec();
    match rng.below(10) {
        0 => uri.truncate(uri.len().saturating_sub(1)),
        1 => uri.truncate(rng.below(uri.len() + 1)),
        2 => uri.extend(rng.pick(&PREFIXES).as_bytes()),
        3 if !uri.is_empty() => {
            let at = rng.below(uri.len());
            // One of the bits makes an upper case letter of a lower case one.
            uri[at] ^= 1 << rng.below(8);
        }
        4 => uri.clear(),
        _ => {}
    }
    uri.extend(rest(rng));
    uri
}

/// The payload of a URI record. One in twenty or so is refused.
pub fn payload(rng: &mut Rng) -> Vec<u8> {
    let code = match rng.below(60) {
        0 => return Vec::new(),
        1 => 0x24,
        2 => 0xFF,
        3 => rng.byte(),
        4 => 0x23,
        5..=7 => return vec![0x00],
        _ => rng.below(PREFIXES.len()) as u8,
    };
    let mut payload = vec![code];
    payload.extend(rest(rng));
    payload
}

/// A payload of any kind, for a record in which nobody should look at it.
fn unseen(rng: &mut Rng) -> Vec<u8> {
    match rng.below(4) {
        0 => payload(rng),
        1 => message(&[link(&payload(rng))]),
        2 => vec![0x24],
        _ => Vec::new(),
    }
}

/// A record of a message with so many posters around it.
fn any_record(rng: &mut Rng, around: usize) -> Record {
    let mut record = match rng.below(20) {
        0..=5 => link(&payload(rng)),
        6..=8 if around < DEEPEST => poster(&any_inner(rng, around + 1)),
        9..=12 => {
            let (tnf, kind) = rng.pick(&NEAR);
            record(tnf, kind, &unseen(rng))
        }
        _ => return Record::random(rng),
    };
    if rng.percent(10) {
        record.id = rng.tail(&[1, 3, 9]);
    }
    record
}

/// The message of any records, in any form, with so many posters around it.
fn tree(rng: &mut Rng, around: usize) -> Vec<u8> {
    let count = match rng.below(25) {
        0 => 16,
        1 => 17,
        _ => rng.between(1, 4),
    };
    let list: Vec<Record> = (0..count).map(|_| any_record(rng, around)).collect();
    Message::of(rng, &list).bytes
}

/// The payload of a poster: a message with so many posters around it, or what is no message.
fn any_inner(rng: &mut Rng, around: usize) -> Vec<u8> {
    match rng.below(40) {
        0 => Vec::new(),
        1 => records::any(rng),
        _ => tree(rng, around),
    }
}

/// A message inside posters, one to six deep. Beside each poster there may be other records.
fn deep(rng: &mut Rng) -> Vec<u8> {
    let depth = rng.between(1, DEEPEST);
    let mut message = any_inner(rng, depth);
    for _ in 0..depth {
        let mut list = vec![poster(&message)];
        for _ in 0..rng.pick(&[0, 0, 0, 1, 2]) {
            let at = rng.below(list.len() + 1);
            list.insert(at, any_record(rng, DEEPEST));
        }
        message = Message::of(rng, &list).bytes;
    }
    message
}

/// Changes a byte.
fn damage(rng: &mut Rng, message: &mut [u8]) {
    if message.is_empty() {
        return;
    }
    let at = rng.below(message.len());
    message[at] = match rng.below(5) {
        0 => rng.byte(),
        1 => message[at].wrapping_add(1),
        2 => message[at].wrapping_sub(1),
        3 => message[at] ^ (1 << rng.below(8)),
        _ => rng.pick(b"\x00\x01\x02\x23\x24USpu"),
    };
}

/// A message in which to find a URI: posters in posters, often deep, often with a byte changed.
pub fn any(rng: &mut Rng) -> Vec<u8> {
    let mut message = match rng.below(20) {
        0 => records::any(rng),
        1..=9 => deep(rng),
        _ => tree(rng, 0),
    };
    if rng.percent(25) {
        damage(rng, &mut message);
    }
    message
}
