//! The library against the reference on URIs: expanding, shortening, the first one of a message.

use zanfirotta::raw;
use zanfirotta::uri::{Uri, PREFIX_MAX};

use crate::common::{buffer_len, uris, Guarded, Rng, Tally};
use crate::reference::uri::{self, PREFIXES};
use crate::reference::Refusal;
use crate::{number, plain, same, same_buffers};

/// Checks the URI that the crate gives: it is what was written to the buffer, and text if that is
/// UTF-8.
fn same_uri(index: u64, got: Uri, written: &[u8]) {
    same(index, &got.as_bytes(), &written, &[]);
    assert_eq!(got.to_str(), std::str::from_utf8(written).ok());
}

/// Expands a payload by the reference, by the C interface and by the crate.
pub fn expand_one(index: u64, rng: &mut Rng, payload: &[u8], room: usize) -> Result<u64, Refusal> {
    let before = Guarded::random(rng, room);
    let (mut wanted, mut uri) = (before.clone(), before.clone());
    let expected = uri::expand(payload, wanted.lend());
    let answer = raw::uri_expand(payload, uri.lend());
    let len = expected.map(|len| len as usize);
    same(index, &answer, &number(&len), &[payload]);
    same_buffers(index, &uri, &wanted, &[payload]);

    let mut uri = before;
    let got = plain(zanfirotta::uri::expand(payload, uri.lend()));
    let got_len = got.map(|uri| uri.as_bytes().len());
    same(index, &got_len, &len, &[payload]);
    if let (Ok(got), Ok(len)) = (got, len) {
        same_uri(index, got, &wanted.slice()[..len]);
    }
    same_buffers(index, &uri, &wanted, &[payload]);
    expected
}

/// Shortens a URI by the reference, by the C interface and by the crate. The payload expands to the
/// URI.
pub fn shorten_one(index: u64, rng: &mut Rng, uri: &[u8], room: usize) -> Result<u64, Refusal> {
    let before = Guarded::random(rng, room);
    let (mut wanted, mut payload) = (before.clone(), before.clone());
    let expected = uri::shorten(uri, wanted.lend());
    let answer = raw::uri_shorten(uri, payload.lend());
    let len = expected.map(|len| len as usize);
    same(index, &answer, &number(&len), &[uri]);
    same_buffers(index, &payload, &wanted, &[uri]);

    let mut payload = before;
    let got = plain(zanfirotta::uri::shorten(uri, payload.lend()));
    same(index, &got.map(<[u8]>::len), &len, &[uri]);
    if let Ok(got) = got {
        same(index, &got, &&wanted.slice()[..got.len()], &[uri]);
        let mut again = vec![0; uri.len()];
        let again = zanfirotta::uri::expand(got, &mut again).unwrap();
        same_uri(index, again, uri);
        let chosen = PREFIXES[got[0] as usize].len();
        let longer = |prefix: &&str| prefix.len() > chosen && uri.starts_with(prefix.as_bytes());
        assert!(
            !PREFIXES.iter().any(longer),
            "case {index}: a longer prefix"
        );
    }
    same_buffers(index, &payload, &wanted, &[uri]);
    expected
}

/// Finds the first URI of a message by the reference, by the C interface and by the crate.
pub fn first_one(
    index: u64,
    rng: &mut Rng,
    message: &[u8],
    room: usize,
) -> Result<Option<u64>, Refusal> {
    let before = Guarded::random(rng, room);
    let (mut wanted, mut uri) = (before.clone(), before.clone());
    let mut wanted_found = Guarded::numbers(rng, 1);
    let mut found = wanted_found.clone();
    let expected = uri::first(message, wanted.lend());
    if let Ok(uri) = expected {
        wanted_found.lend()[0] = uri.is_some() as u64;
    }
    let answer = raw::uri_first(message, uri.lend(), &mut found.lend()[0]);
    let len = expected.map(|uri| uri.map(|len| len as usize));
    let written = len.map(Option::unwrap_or_default);
    same(index, &answer, &number(&written), &[message]);
    same(index, &found, &wanted_found, &[message]);
    same_buffers(index, &uri, &wanted, &[message]);

    let mut uri = before;
    let got = plain(zanfirotta::uri::first(message, uri.lend()));
    let got_len = got.map(|uri| uri.map(|uri| uri.as_bytes().len()));
    same(index, &got_len, &len, &[message]);
    if let (Ok(Some(got)), Ok(len)) = (got, written) {
        same_uri(index, got, &wanted.slice()[..len]);
    }
    same_buffers(index, &uri, &wanted, &[message]);
    expected
}

/// How many bytes the first URI of a message has; 9 if there is none.
pub fn needed(message: &[u8]) -> usize {
    let mut uri = vec![0; message.len() + PREFIX_MAX];
    let found = uri::first(message, &mut uri).ok().flatten();
    found.unwrap_or(9) as usize
}

pub fn expand(cases: u64) {
    let mut tally = Tally::new("uri expand");
    for index in 0..cases {
        let mut rng = Rng::case(91, index);
        let payload = uris::payload(&mut rng);
        let mut uri = vec![0; payload.len() + PREFIX_MAX];
        let needed = uri::expand(&payload, &mut uri).unwrap_or(9);
        let room = buffer_len(&mut rng, needed as usize);
        let answer = expand_one(index, &mut rng, &payload, room);
        tally.add(&answer);
        tally.note("exact room", answer == Ok(room as u64));
        tally.note("code 00h", answer.is_ok() && payload[0] == 0x00);
        tally.note("code 23h", answer.is_ok() && payload[0] == 0x23);
        let refused = answer == Err(Refusal::new(34));
        tally.note("no code", refused && payload.is_empty());
        tally.note("code 24h", refused && payload.first() == Some(&0x24));
        tally.note("over 255 bytes", answer.is_ok_and(|len| len > 255));
    }
    tally.expect(&[0, 12, 34], cases / 200);
}

pub fn shorten(cases: u64) {
    let mut tally = Tally::new("uri shorten");
    for index in 0..cases {
        let mut rng = Rng::case(92, index);
        let uri = uris::uri(&mut rng);
        let mut payload = vec![0; uri.len() + 1];
        let needed = uri::shorten(&uri, &mut payload).unwrap() as usize;
        let room = buffer_len(&mut rng, needed);
        let answer = shorten_one(index, &mut rng, &uri, room);
        tally.add(&answer);
        let is_shortened = |code: u8| answer.is_ok() && payload[0] == code;
        tally.note("no prefix", is_shortened(0x00));
        tally.note("https://", is_shortened(0x04));
        tally.note("https://www.", is_shortened(0x02));
        tally.note("urn:epc:raw:", is_shortened(0x21));
        tally.note("a prefix alone", answer.is_ok() && needed == 1);
    }
    tally.expect(&[0, 12], cases / 200);
}

pub fn first(cases: u64) {
    let mut tally = Tally::new("uri first");
    for index in 0..cases {
        let mut rng = Rng::case(93, index);
        let message = uris::any(&mut rng);
        let room = buffer_len(&mut rng, needed(&message));
        let answer = first_one(index, &mut rng, &message, room);
        tally.add(&answer);
        let is_found = matches!(answer, Ok(Some(_)));
        tally.note("none", answer == Ok(None));
        tally.note("empty URI", answer == Ok(Some(0)));
        tally.note("exact room", answer == Ok(Some(room as u64)));
        let is_poster = message.get(3..5) == Some(b"Sp");
        tally.note("in a poster", is_found && is_poster);
        tally.note("over 255 bytes", is_found && message.len() > 255);
    }
    tally.expect(&[0, 12, 30, 31, 32, 34, 35], cases / 200);
}
