//! The reference on specimens of E6 in docs/02-change-requests.md, worked out by hand: a payload, a
//! URI or a message on each side of every limit.

use crate::reference::{uri, Refusal};

/// What a call has written to a buffer of this length, or the refusal's number. The rest of the
/// buffer stays.
fn written(
    room: usize,
    call: impl FnOnce(&mut [u8]) -> Result<Option<u64>, Refusal>,
) -> Result<Option<Vec<u8>>, u8> {
    let mut buffer = vec![0xCC; room];
    let answer = call(&mut buffer);
    let len = answer.ok().flatten().unwrap_or(0);
    let rest = buffer.split_off(len as usize);
    assert!(rest.iter().all(|&byte| byte == 0xCC));
    match answer {
        Ok(found) => Ok(found.map(|_| buffer)),
        Err(refusal) => Err(refusal.number),
    }
}

fn expand_to(payload: &[u8], room: usize) -> Result<Vec<u8>, u8> {
    written(room, |buffer| uri::expand(payload, buffer).map(Some)).map(Option::unwrap)
}

fn shorten_to(uri: &[u8], room: usize) -> Result<Vec<u8>, u8> {
    written(room, |buffer| uri::shorten(uri, buffer).map(Some)).map(Option::unwrap)
}

fn first_to(message: &[u8], room: usize) -> Result<Option<Vec<u8>>, u8> {
    written(room, |buffer| uri::first(message, buffer))
}

fn first(message: &[u8]) -> Result<Option<Vec<u8>>, u8> {
    first_to(message, 100)
}

fn uri(text: &str) -> Result<Option<Vec<u8>>, u8> {
    Ok(Some(text.into()))
}

/// A short record with TNF 1, without MB and ME.
fn record(kind: &str, payload: &[u8]) -> Vec<u8> {
    let head = [0x11, kind.len() as u8, payload.len() as u8];
    [&head, kind.as_bytes(), payload].concat()
}

/// The message of these records.
fn message(records: &[Vec<u8>]) -> Vec<u8> {
    let mut records = records.to_vec();
    records.first_mut().unwrap()[0] |= 0x80;
    records.last_mut().unwrap()[0] |= 0x40;
    records.concat()
}

fn poster(records: &[Vec<u8>]) -> Vec<u8> {
    record("Sp", &message(records))
}

fn empty_poster() -> Vec<u8> {
    record("Sp", b"")
}

fn link(rest: &str) -> Vec<u8> {
    record("U", &[b"\x05", rest.as_bytes()].concat())
}

fn bad_link() -> Vec<u8> {
    record("U", b"\x24")
}

fn text() -> Vec<u8> {
    record("T", b"\x02enHi")
}

/// A record with a chunk flag.
fn chunk() -> Vec<u8> {
    vec![0x31, 0x00, 0x00]
}

/// A record with TNF 7.
fn malformed() -> Vec<u8> {
    vec![0x17, 0x00, 0x00]
}

#[test]
fn codes() {
    for (payload, uri) in [
        (&b"\x00"[..], ""),
        (b"\x00abc", "abc"),
        (b"\x01nfc-forum.org", "http://www.nfc-forum.org"),
        (b"\x05", "tel:"),
        (b"\x07x", "ftp://anonymous:anonymous@x"),
        (b"\x22http://", "urn:epc:http://"),
        (b"\x23x", "urn:nfc:x"),
    ] {
        assert_eq!(expand_to(payload, 50), Ok(uri.into()));
    }
    for payload in [&b""[..], b"\x24", b"\x24x", b"\x7F", b"\x80x", b"\xFF"] {
        assert_eq!(expand_to(payload, 50), Err(34), "{payload:?}");
        assert_eq!(expand_to(payload, 0), Err(34), "{payload:?}");
    }
    assert_eq!(expand_to(b"\x04a", 9), Ok(b"https://a".to_vec()));
    assert_eq!(expand_to(b"\x04a", 8), Err(12));
    assert_eq!(expand_to(b"\x00", 0), Ok(Vec::new()));
}

/// The longest prefix decides, not the first, and only if all of it is there.
#[test]
fn shortened() {
    for (uri, payload) in [
        ("", &b"\x00"[..]),
        ("abc", b"\x00abc"),
        ("http://www.nfc-forum.org", b"\x01nfc-forum.org"),
        ("http://www", b"\x03www"),
        ("http://", b"\x03"),
        ("http:/", b"\x00http:/"),
        ("https://www.x", b"\x02x"),
        ("https://x", b"\x04x"),
        ("ftp://ftp.x", b"\x08x"),
        ("ftp://ftp", b"\x0Dftp"),
        ("ftp://anonymous:anonymous@", b"\x07"),
        ("ftp://anonymous:anonymous", b"\x0Danonymous:anonymous"),
        ("ftps://x", b"\x09x"),
        ("sip:s", b"\x15s"),
        ("sips:", b"\x16"),
        ("urn:epc:id:1", b"\x1E1"),
        ("urn:epc:raw:", b"\x21"),
        ("urn:epc:raw", b"\x22raw"),
        ("urn:epc", b"\x13epc"),
        ("urn:nfc:x", b"\x23x"),
        ("tel", b"\x00tel"),
        ("tel:", b"\x05"),
        ("HTTP://x", b"\x00HTTP://x"),
        ("httP://x", b"\x00httP://x"),
        (" http://x", b"\x00 http://x"),
        ("http://http://", b"\x03http://"),
    ] {
        let len = payload.len();
        assert_eq!(shorten_to(uri.as_bytes(), 50), Ok(payload.to_vec()));
        assert_eq!(shorten_to(uri.as_bytes(), len), Ok(payload.to_vec()));
        assert_eq!(shorten_to(uri.as_bytes(), len - 1), Err(12));
        assert_eq!(expand_to(payload, 50), Ok(uri.into()));
    }
}

#[test]
fn one_record() {
    let short = b"\xD1\x01\x0EU\x01nfc-forum.org";
    assert_eq!(first_to(short, 24), uri("http://www.nfc-forum.org"));
    assert_eq!(first_to(short, 23), Err(12));
    // Four bytes for the length, and an ID.
    let long = b"\xC9\x01\x00\x00\x00\x02\x01Ua\x051";
    assert_eq!(first(long), uri("tel:1"));
    // The empty URI, no code, a code too high.
    assert_eq!(first_to(b"\xD1\x01\x01U\x00", 0), uri(""));
    assert_eq!(first_to(b"\xD1\x01\x00U", 0), Err(34));
    assert_eq!(first_to(b"\xD1\x01\x01U\x24", 0), Err(34));
    // No URI.
    assert_eq!(first_to(b"\xD1\x01\x05T\x02enHi", 0), Ok(None));
    assert_eq!(first_to(&[0xD0, 0x00, 0x00], 0), Ok(None));
    // What E5 refuses.
    assert_eq!(first_to(&[], 0), Err(32));
    assert_eq!(first_to(b"\xD1\x01\x02U\x05", 0), Err(32));
    assert_eq!(first_to(b"\xF1\x01\x02U\x051", 0), Err(31));
    assert_eq!(first_to(&message(&vec![link(""); 17]), 0), Err(30));
}

/// With another type or another TNF nobody looks at the payload.
#[test]
fn other_types() {
    for kind in ["u", "sp", "SP", "sP", "S", "p", "", "Spx", "U ", "UU", "T"] {
        assert_eq!(
            first(&message(&[record(kind, b"\x24")])),
            Ok(None),
            "{kind}"
        );
    }
    for kind in ["U", "Sp"] {
        for tnf in [2, 3, 4] {
            let mut message = message(&[record(kind, b"\x24")]);
            message[0] = 0xD0 | tnf;
            assert_eq!(first(&message), Ok(None), "{kind} {tnf}");
        }
    }
    let inner = message(&[link("1")]);
    assert_eq!(
        first(&message(&[record("sp", &inner), link("2")])),
        uri("tel:2")
    );
    assert_eq!(
        first(&message(&[record("Sp", &inner), link("2")])),
        uri("tel:1")
    );
}

#[test]
fn order_of_uris() {
    let first = |records: &[Vec<u8>]| first(&message(records));
    assert_eq!(first(&[text(), link("1"), link("2")]), uri("tel:1"));
    assert_eq!(first(&[link("1"), poster(&[link("2")])]), uri("tel:1"));
    assert_eq!(
        first(&[poster(&[text(), link("2")]), link("1")]),
        uri("tel:2")
    );
    assert_eq!(first(&[poster(&[text()]), link("1")]), uri("tel:1"));
    assert_eq!(first(&[poster(&[text()]), text()]), Ok(None));
    let inner = poster(&[poster(&[text()]), poster(&[link("3")]), link("4")]);
    assert_eq!(first(&[inner, link("1")]), uri("tel:3"));
}

/// A fault counts before a URI and behind it; of two faults the first one is reported.
#[test]
fn order_of_faults() {
    let first = |records: &[Vec<u8>]| first_to(&message(records), 0);
    assert_eq!(first(&[bad_link(), link("1")]), Err(34));
    assert_eq!(first(&[link("1"), bad_link()]), Err(34));
    assert_eq!(first(&[link("1"), empty_poster()]), Err(32));
    assert_eq!(first(&[empty_poster(), link("1")]), Err(32));
    assert_eq!(first(&[link("1"), poster(&[text(), bad_link()])]), Err(34));
    assert_eq!(first(&[link("1"), poster(&[chunk()])]), Err(31));

    assert_eq!(first(&[bad_link(), empty_poster()]), Err(34));
    assert_eq!(first(&[empty_poster(), bad_link()]), Err(32));
    assert_eq!(first(&[poster(&[chunk()]), bad_link()]), Err(31));
    assert_eq!(first(&[bad_link(), poster(&[chunk()])]), Err(34));
    // Each message is read whole before its records are looked at.
    assert_eq!(first(&[bad_link(), malformed()]), Err(32));
    assert_eq!(first(&[poster(&[chunk()]), malformed()]), Err(32));
    assert_eq!(
        first(&[poster(&[bad_link(), chunk()]), bad_link()]),
        Err(31)
    );
    assert_eq!(first(&[link("1"), text()]), Err(12));
}

/// Each message has its own limit of sixteen records.
#[test]
fn sixteen_and_seventeen() {
    let sixteen = |last: Vec<u8>| [vec![vec![0x10, 0, 0]; 15], vec![last]].concat();
    let nested = message(&sixteen(poster(&sixteen(link("1")))));
    assert_eq!(first_to(&nested, 5), uri("tel:1"));
    assert_eq!(first_to(&nested, 4), Err(12));
    let seventeen = [vec![link("1")], sixteen(text())].concat();
    assert_eq!(first(&message(&[poster(&seventeen)])), Err(30));
    assert_eq!(first(&message(&[link("1"), poster(&seventeen)])), Err(30));
    assert_eq!(first(&message(&[bad_link(), poster(&seventeen)])), Err(34));
}

/// The message of a poster that holds these records, with so many posters around it.
fn inside(around: usize, records: &[Vec<u8>]) -> Vec<u8> {
    let mut innermost = poster(records);
    for _ in 0..around {
        innermost = poster(&[innermost]);
    }
    message(&[innermost])
}

#[test]
fn posters_in_posters() {
    for around in 0..4 {
        assert_eq!(first(&inside(around, &[link("1")])), uri("tel:1"));
        assert_eq!(first(&inside(around, &[text()])), Ok(None));
        assert_eq!(first(&inside(around, &[bad_link()])), Err(34));
        assert_eq!(first(&inside(around, &[chunk()])), Err(31));
    }
    for around in [4, 5] {
        for record in [link("1"), text(), bad_link(), chunk(), malformed()] {
            assert_eq!(first(&inside(around, &[record])), Err(35));
        }
    }
    // An empty poster with three around it and with four; then what stands beside it.
    assert_eq!(first(&inside(2, &[empty_poster()])), Err(32));
    assert_eq!(first(&inside(3, &[empty_poster()])), Err(35));
    assert_eq!(first(&inside(3, &[link("1"), empty_poster()])), Err(35));
    assert_eq!(first(&inside(3, &[empty_poster(), bad_link()])), Err(35));
    assert_eq!(first(&inside(3, &[bad_link(), empty_poster()])), Err(34));
    assert_eq!(first(&inside(3, &[empty_poster(), malformed()])), Err(32));
    assert_eq!(first(&inside(3, &[empty_poster(), chunk()])), Err(31));
}
