//! The reference's URIs against the naive form; and that expanding what was shortened gives the URI
//! back.

use crate::common::{buffer_len, uris, Guarded, Rng, Tally};
use crate::reference::{uri, Refusal};
use crate::{naive_uri, CASES};

/// Makes a call that writes to a buffer. The naive form says which bytes, none, or the refusal; the
/// rest of the buffer stays.
fn check(
    index: u64,
    rng: &mut Rng,
    naive: Result<Option<Vec<u8>>, u8>,
    call: impl FnOnce(&mut [u8]) -> Result<Option<u64>, Refusal>,
) -> Result<Option<u64>, Refusal> {
    let needed = match &naive {
        Ok(Some(bytes)) => bytes.len(),
        _ => 9,
    };
    let room = buffer_len(rng, needed);
    let mut buffer = Guarded::random(rng, room);
    let mut wanted = buffer.clone();
    let expected = match naive {
        Err(number) => Err(Refusal::new(number)),
        Ok(None) => Ok(None),
        Ok(Some(bytes)) if bytes.len() > room => Err(Refusal::new(12)),
        Ok(Some(bytes)) => {
            wanted.lend()[..bytes.len()].copy_from_slice(&bytes);
            Ok(Some(bytes.len() as u64))
        }
    };
    let answer = call(buffer.lend());
    assert_eq!(answer, expected, "case {index}");
    assert!(buffer == wanted, "case {index}");
    answer
}

#[test]
fn the_prefixes_are_the_same() {
    let prefixes = naive_uri::prefixes();
    assert!(prefixes.into_iter().eq((0..).zip(uri::PREFIXES)));
}

#[test]
fn payloads_expand_as_the_page_says() {
    let mut tally = Tally::new("uri expand");
    for index in 0..CASES {
        let mut rng = Rng::case(37, index);
        let payload = uris::payload(&mut rng);
        let naive = naive_uri::expand(&payload).map(Some);
        let call = |uri: &mut [u8]| uri::expand(&payload, uri).map(Some);
        tally.add(&check(index, &mut rng, naive, call));
    }
    tally.expect(&[0, 12, 34], 300);
}

#[test]
fn uris_are_shortened_as_the_page_says() {
    let mut tally = Tally::new("uri shorten");
    for index in 0..CASES / 4 {
        let mut rng = Rng::case(38, index);
        let uri = uris::uri(&mut rng);
        let naive = naive_uri::shorten(&uri);
        let call = |payload: &mut [u8]| uri::shorten(&uri, payload).map(Some);
        tally.add(&check(index, &mut rng, Ok(Some(naive.clone())), call));
        tally.note("no prefix", naive[0] == 0);
        tally.note("a prefix alone", naive.len() == 1);

        let mut again = vec![0; uri.len()];
        assert_eq!(uri::expand(&naive, &mut again), Ok(uri.len() as u64));
        assert_eq!(again, uri);
    }
    tally.expect(&[0, 12], 100);
}

#[test]
fn messages_have_the_first_uri_that_the_page_says() {
    let mut tally = Tally::new("uri first");
    for index in 0..CASES {
        let mut rng = Rng::case(39, index);
        let message = uris::any(&mut rng);
        let naive = naive_uri::first(&message);
        let call = |uri: &mut [u8]| uri::first(&message, uri);
        let answer = check(index, &mut rng, naive, call);
        tally.add(&answer);
        tally.note("none", answer == Ok(None));
        tally.note("empty URI", answer == Ok(Some(0)));
        let is_poster = message.get(3..5) == Some(b"Sp");
        tally.note("in a poster", is_poster && matches!(answer, Ok(Some(_))));
    }
    tally.expect(&[0, 12, 30, 31, 32, 34, 35], 100);
}
