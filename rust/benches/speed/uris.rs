//! The rows of the benchmark for URIs. Both sides write to the same buffer.

use std::hint::black_box;

use zanfirotta::ndef::{Builder, Record};
use zanfirotta::raw;

use crate::reference::uri;
use crate::timing::compare_on;

/// A record that the NFC Forum has given its type.
fn record<'a>(record_type: &'a [u8], payload: &'a [u8]) -> Record<'a> {
    Record {
        tnf: 1,
        record_type,
        id: b"",
        payload,
    }
}

fn message(records: &[Record]) -> Vec<u8> {
    let (mut buffer, mut message) = ([0; 2048], vec![0; 2048]);
    let mut builder = Builder::new(&mut buffer);
    for &record in records {
        builder.push(record).expect("room");
    }
    let len = builder.write(&mut message).expect("room");
    message.truncate(len);
    message
}

fn expand(name: &str, payload: &[u8]) {
    compare_on(
        &[],
        name,
        "expand",
        &|b| {
            let _ = black_box(raw::uri_expand(black_box(payload), &mut b.list));
        },
        &|b| {
            let _ = black_box(uri::expand(black_box(payload), &mut b.list));
        },
    );
}

fn shorten(name: &str, uri: &[u8]) {
    compare_on(
        &[],
        name,
        "shorten",
        &|b| {
            let _ = black_box(raw::uri_shorten(black_box(uri), &mut b.list));
        },
        &|b| {
            let _ = black_box(uri::shorten(black_box(uri), &mut b.list));
        },
    );
}

fn first(name: &str, message: &[u8]) {
    let found = uri::first(message, &mut [0; 2048]);
    assert!(found.expect("records").is_some());
    compare_on(
        &[],
        name,
        "first",
        &|b| {
            let (uri, found) = (&mut b.list, &mut b.table[0]);
            let _ = black_box(raw::uri_first(black_box(message), uri, found));
        },
        &|b| {
            let _ = black_box(uri::first(black_box(message), &mut b.list));
        },
    );
}

pub fn all() {
    let short = b"\x04example.org/syllabus/7";
    let long = [b"\x04", &[b'a'; 992][..]].concat();
    expand("URI: 30 bytes", short);
    expand("URI: 1,000 bytes", &long);
    shorten("URI: 30 bytes", b"https://example.org/syllabus/7");

    let link = record(b"U", short);
    let title = record(b"T", b"\x02enSyllabus");
    let one = message(&[link]);
    first("URI: one record", &one);
    let poster = message(&[link, title, record(b"act", b"\x00")]);
    first("URI: poster of three", &message(&[record(b"Sp", &poster)]));
    let mut sixteen = [title; 16];
    sixteen[15] = link;
    first("URI: last of sixteen", &message(&sixteen));
    let mut nested = one;
    for _ in 0..4 {
        nested = message(&[record(b"Sp", &nested)]);
    }
    first("URI: in four posters", &nested);
}
