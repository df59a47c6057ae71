//! The rows of the benchmark for records. Both sides fill the same table or the same buffer.

use std::hint::black_box;

use zanfirotta::ndef::{self, Builder, Record};
use zanfirotta::raw;

use crate::reference;
use crate::timing::compare_on;

/// A message of so many URI records with this payload.
fn message(count: usize, payload: &[u8]) -> Vec<u8> {
    let (mut buffer, mut message) = ([0; 2048], vec![0; 2048]);
    let mut builder = Builder::new(&mut buffer);
    for _ in 0..count {
        let record = Record {
            tnf: 1,
            record_type: b"U",
            id: b"",
            payload,
        };
        builder.push(record).expect("room");
    }
    let len = builder.write(&mut message).expect("room");
    message.truncate(len);
    message
}

/// Reads a message, and writes back what was read.
fn row(name: &str, message: &[u8]) {
    let mut numbers = [0; reference::ndef::TABLE];
    let count = ndef::read(message).expect("records").len();
    raw::ndef_read(message, &mut numbers);
    let numbers = &numbers[..7 * count];

    compare_on(
        &[],
        name,
        "read",
        &|b| {
            let _ = black_box(raw::ndef_read(black_box(message), &mut b.table));
        },
        &|b| {
            let _ = black_box(reference::ndef::read(black_box(message), &mut b.table));
        },
    );
    compare_on(
        &[],
        name,
        "write",
        &|b| {
            let _ = black_box(raw::ndef_write(black_box(numbers), message, &mut b.list));
        },
        &|b| {
            let list = &mut b.list;
            let _ = black_box(reference::ndef::write(black_box(numbers), message, list));
        },
    );
}

pub fn all() {
    let address = b"\x04example.org/syllabus";
    row("records: one", &message(1, address));
    row("records: sixteen", &message(16, address));
    row("records: 1,000 bytes", &message(1, &[b'a'; 1000]));
}
