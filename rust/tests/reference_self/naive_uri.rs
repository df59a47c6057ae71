//! The naive form of E6 of docs/02-change-requests.md, to check the reference. The prefixes are a
//! text. Shortening tries every payload and keeps the shortest that expands to the URI, so it has no
//! rule of its own. Finding opens all posters, level by level, and only then looks for a fault or a
//! URI.

use std::collections::BTreeMap;

use crate::naive_ndef;

/// The codes, each with its prefix.
const CODES: &str = "00
    01 http://www.  02 https://www.  03 http://  04 https://  05 tel:  06 mailto:
    07 ftp://anonymous:anonymous@  08 ftp://ftp.  09 ftps://  0A sftp://  0B smb://  0C nfs://
    0D ftp://  0E dav://  0F news:  10 telnet://  11 imap:  12 rtsp://  13 urn:  14 pop:  15 sip:
    16 sips:  17 tftp:  18 btspp://  19 btl2cap://  1A btgoep://  1B tcpobex://  1C irdaobex://
    1D file://  1E urn:epc:id:  1F urn:epc:tag:  20 urn:epc:pat:  21 urn:epc:raw:  22 urn:epc:
    23 urn:nfc:";

/// The prefixes by their codes. A word without a colon is a code.
pub fn prefixes() -> BTreeMap<u8, &'static str> {
    let mut prefixes = BTreeMap::new();
    let mut code = 0;
    for word in CODES.split_whitespace() {
        if word.contains(':') {
            prefixes.insert(code, word);
        } else {
            code = u8::from_str_radix(word, 16).unwrap();
            prefixes.insert(code, "");
        }
    }
    prefixes
}

/// The URI that a payload stands for, or the refusal's number.
pub fn expand(payload: &[u8]) -> Result<Vec<u8>, u8> {
    expand_by(&prefixes(), payload)
}

fn expand_by(prefixes: &BTreeMap<u8, &str>, payload: &[u8]) -> Result<Vec<u8>, u8> {
    let code = payload.first().ok_or(34)?;
    let prefix = prefixes.get(code).ok_or(34)?;
    Ok([prefix.as_bytes(), &payload[1..]].concat())
}

/// The shortest payload that stands for a URI. No prefix has 30 bytes.
pub fn shorten(uri: &[u8]) -> Vec<u8> {
    let prefixes = prefixes();
    let mut payloads = Vec::new();
    for &code in prefixes.keys() {
        for left_out in 0..=uri.len().min(30) {
            let payload = [&[code], &uri[left_out..]].concat();
            if expand_by(&prefixes, &payload).as_deref() == Ok(uri) {
                payloads.push(payload);
            }
        }
    }
    payloads.into_iter().min_by_key(Vec::len).unwrap()
}

/// What a message has that matters here.
enum Part {
    Uri(Vec<u8>),
    Fault(u8),
    Poster(Vec<u8>),
}

/// The parts of a message. A poster stays shut.
fn open(message: &[u8]) -> Vec<Part> {
    let records = match naive_ndef::read(message) {
        Ok(records) => records,
        Err(number) => return vec![Part::Fault(number)],
    };
    let mut parts = Vec::new();
    for record in records {
        if record.tnf == 1 && record.kind == b"U" {
            parts.push(expand(&record.payload).map_or_else(Part::Fault, Part::Uri));
        }
        if record.tnf == 1 && record.kind == b"Sp" {
            parts.push(Part::Poster(record.payload));
        }
    }
    parts
}

/// The first URI of a message, or the number of the first fault.
pub fn first(message: &[u8]) -> Result<Option<Vec<u8>>, u8> {
    let mut parts = open(message);
    // Posters with none, one, two and three around them are opened where they stand.
    for _ in 0..4 {
        let opened = parts.into_iter().map(|part| match part {
            Part::Poster(message) => open(&message),
            part => vec![part],
        });
        parts = opened.flatten().collect();
    }
    let fault = |part: &Part| match part {
        Part::Uri(_) => None,
        Part::Fault(number) => Some(*number),
        Part::Poster(_) => Some(35),
    };
    if let Some(number) = parts.iter().find_map(fault) {
        return Err(number);
    }
    Ok(parts.into_iter().find_map(|part| match part {
        Part::Uri(uri) => Some(uri),
        _ => None,
    }))
}
