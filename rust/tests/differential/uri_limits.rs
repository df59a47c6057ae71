//! The library against the reference on URIs at every limit: codes, prefixes, lengths of buffers,
//! types of records.

use zanfirotta::uri::PREFIX_MAX;

use crate::common::uris::{link, message, nested, poster, record};
use crate::common::{Rng, Tally};
use crate::reference::uri::{self, PREFIXES};
use crate::uri::{expand_one, first_one, needed, shorten_one};

/// Expands a payload to every buffer up to two bytes longer than it needs.
fn expand_around(tally: &mut Tally, rng: &mut Rng, payload: &[u8]) {
    let mut uri = vec![0; payload.len() + PREFIX_MAX];
    let needed = uri::expand(payload, &mut uri).unwrap_or(2) as usize;
    for room in 0..=needed + 2 {
        tally.add(&expand_one(0, rng, payload, room));
    }
}

/// Shortens a URI to every buffer up to two bytes longer than it needs.
fn shorten_around(tally: &mut Tally, rng: &mut Rng, uri: &[u8]) {
    let needed = uri::shorten(uri, &mut vec![0; uri.len() + 1]).unwrap() as usize;
    for room in 0..=needed + 2 {
        tally.add(&shorten_one(0, rng, uri, room));
    }
}

/// Every code, with a rest of some lengths.
#[test]
fn every_code() {
    let mut tally = Tally::new("uri codes");
    let mut rng = Rng::case(94, 0);
    for code in 0..=255 {
        for len in [0, 1, 2, 13] {
            let mut payload = vec![code];
            payload.extend(rng.bytes(len));
            expand_around(&mut tally, &mut rng, &payload);
            let message = message(&[link(&payload)]);
            for room in [0, needed(&message), 100] {
                tally.add(&first_one(0, &mut rng, &message, room));
            }
        }
    }
    expand_around(&mut tally, &mut rng, &[]);
    tally.expect(&[0, 12, 34], 100);
}

/// Every prefix as it is, a byte short, a byte long, and with a byte changed in every bit: as a URI
/// to shorten, as a payload to expand, and as what follows every code.
#[test]
fn every_prefix() {
    let mut tally = Tally::new("uri prefixes");
    let mut rng = Rng::case(95, 0);
    let longest = PREFIXES.iter().map(|prefix| prefix.len()).max();
    assert_eq!(longest, Some(PREFIX_MAX));
    for prefix in PREFIXES {
        let prefix = prefix.as_bytes();
        let short = &prefix[..prefix.len().saturating_sub(1)];
        let long = [prefix, &rng.bytes(1)].concat();
        for uri in [prefix, short, &long] {
            shorten_around(&mut tally, &mut rng, uri);
            expand_around(&mut tally, &mut rng, uri);
            for code in 0..PREFIXES.len() as u8 {
                let payload = [&[code], uri].concat();
                expand_around(&mut tally, &mut rng, &payload);
            }
        }
        for bit in 0..8 * prefix.len() {
            let mut uri = long.clone();
            uri[bit / 8] ^= 1 << (bit % 8);
            shorten_around(&mut tally, &mut rng, &uri);
        }
    }
    tally.expect(&[0, 12, 34], 100);
}

/// Every prefix with every prefix behind it, whole and a byte short.
#[test]
fn every_two_prefixes() {
    let mut tally = Tally::new("uri two");
    let mut rng = Rng::case(96, 0);
    for first in PREFIXES {
        for second in PREFIXES {
            let uri = [first, second].concat();
            let room = uri.len() + 1;
            tally.add(&shorten_one(0, &mut rng, uri.as_bytes(), room));
            let cut = &uri[..uri.len().saturating_sub(1)];
            tally.add(&shorten_one(0, &mut rng, cut.as_bytes(), room));
        }
    }
    tally.expect(&[0], 2000);
}

/// Lengths of a URI next to those at which a record has another form, with exact buffers and with
/// buffers that are a byte short.
#[test]
fn every_length() {
    let mut tally = Tally::new("uri lengths");
    let mut rng = Rng::case(97, 0);
    for len in (0..40).chain([253, 254, 255, 256, 257, 1000, 65_534, 65_535, 65_536]) {
        let mut payload = rng.bytes(len + 1);
        payload[0] = 0x02;
        for posters in [0, 1, 4] {
            let message = nested(message(&[link(&payload)]), posters);
            for room in [len + 10, len + 11, len + 12, len + 13] {
                tally.add(&first_one(0, &mut rng, &message, room));
                tally.add(&expand_one(0, &mut rng, &payload, room));
            }
        }
        let uri = [b"urn:epc:", &payload[1..]].concat();
        for room in [len, len + 1, len + 2] {
            tally.add(&shorten_one(0, &mut rng, &uri, room));
        }
    }
    tally.expect(&[0, 12], 100);
}

/// Types of one, two and three bytes that have a byte in common with `U` or `Sp`, under every TNF
/// that may have a type, around payloads that would be a fault or a URI.
#[test]
fn every_type() {
    let mut tally = Tally::new("uri types");
    let mut rng = Rng::case(98, 0);
    let inner = message(&[link(b"\x05+1")]);
    let payloads = [&b""[..], b"\x24", b"\x03a", &inner];
    let mut kinds = vec![vec![], b"U".to_vec(), b"Sp".to_vec()];
    for byte in 0..=255 {
        kinds.extend([vec![byte], vec![b'S', byte], vec![byte, b'p']]);
        kinds.extend([vec![b'U', byte], vec![b'S', b'p', byte]]);
    }
    for kind in &kinds {
        for tnf in 1..=4 {
            for payload in payloads {
                let one = message(&[record(tnf, kind, payload)]);
                tally.add(&first_one(0, &mut rng, &one, 20));
                let second = message(&[poster(&one), link(b"\x00")]);
                tally.add(&first_one(0, &mut rng, &second, 20));
            }
        }
    }
    tally.expect(&[0, 31, 32, 34], 2);
}
