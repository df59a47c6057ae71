//! The reference's records against the naive form; and that a list written and read is the same
//! list, and no message that gives it is shorter.

use crate::common::records::{self, Record, MB, ME};
use crate::common::tables::Table;
use crate::common::{buffer_len, hex, Guarded, Rng, Tally};
use crate::reference::ndef::{self, TABLE};
use crate::reference::Refusal;
use crate::{naive_ndef, CASES};

/// The record with these numbers, by the bytes in which its parts are.
fn record(numbers: &[u64], bytes: &[u8]) -> Record {
    let part = |at: u64, len: u64| bytes[at as usize..][..len as usize].to_vec();
    Record {
        tnf: numbers[0] as u8,
        kind: part(numbers[1], numbers[2]),
        id: part(numbers[3], numbers[4]),
        payload: part(numbers[5], numbers[6]),
    }
}

/// Reads by the reference. The numbers follow each other, and those past the count stay, as all do
/// after a refusal.
fn read(rng: &mut Rng, message: &[u8]) -> Result<Vec<Record>, u8> {
    let mut table = Guarded::numbers(rng, TABLE);
    let mut kept = table.clone();
    let answer = ndef::read(message, table.lend().try_into().unwrap());
    let count = answer.unwrap_or(0) as usize;
    kept.lend()[..7 * count].copy_from_slice(&table.slice()[..7 * count]);
    assert!(table == kept, "{}", hex(message));
    let records = table.slice().chunks(7).take(count);
    for numbers in records.clone() {
        assert_eq!(numbers[3], numbers[1] + numbers[2]);
        assert_eq!(numbers[5], numbers[3] + numbers[4]);
    }
    match answer {
        Ok(_) => Ok(records.map(|numbers| record(numbers, message)).collect()),
        Err(Refusal { number, position }) => {
            assert_eq!(position, 0);
            Err(number)
        }
    }
}

/// Writes a list by the reference, its parts one after the other.
fn write(rng: &mut Rng, list: &[Record]) -> Vec<u8> {
    let table = Table::of(rng, list);
    let mut message = vec![0; table.room()];
    let len = ndef::write(&table.numbers, &table.bytes, &mut message).unwrap();
    message.truncate(len as usize);
    message
}

#[test]
fn messages_read_as_the_page_says() {
    let mut tally = Tally::new("ndef read");
    for index in 0..CASES {
        let mut rng = Rng::case(27, index);
        let message = records::any(&mut rng);
        let answer = read(&mut rng, &message);
        assert_eq!(answer, naive_ndef::read(&message), "{}", hex(&message));
        tally.add(&answer.clone().map_err(Refusal::new));
        if let Ok(list) = answer {
            let written = write(&mut rng, &list);
            assert!(written.len() <= message.len());
            assert!(written.len() < message.len() || written == message);
            tally.note("shortest", written == message);
            tally.note("sixteen", list.len() == 16);
            tally.note("long payload", list.iter().any(|r| r.payload.len() > 255));
        }
    }
    tally.expect(&[0, 30, 31, 32], 300);
}

#[test]
fn lists_are_written_as_the_page_says() {
    let mut tally = Tally::new("ndef write");
    for index in 0..CASES {
        let mut rng = Rng::case(28, index);
        let Table { numbers, bytes } = Table::any(&mut rng);
        let list = naive_ndef::list(&numbers, &bytes);
        let naive = list
            .as_ref()
            .ok_or(33)
            .and_then(|list| naive_ndef::write(list));
        let len = buffer_len(&mut rng, naive.as_ref().map_or(9, Vec::len));
        let mut message = Guarded::random(&mut rng, len);
        let mut wanted = message.clone();
        let answer = ndef::write(&numbers, &bytes, message.lend());
        tally.add(&answer);
        let expected = match &naive {
            Err(number) => Err(Refusal::new(*number)),
            Ok(bytes) if bytes.len() > len => Err(Refusal::new(12)),
            Ok(bytes) => {
                wanted.lend()[..bytes.len()].copy_from_slice(bytes);
                Ok(bytes.len() as u64)
            }
        };
        assert_eq!(answer, expected, "{numbers:?} {}", bytes.len());
        assert!(message == wanted, "{numbers:?}");
        if let Ok(message) = naive {
            assert_eq!(read(&mut rng, &message), Ok(list.unwrap()));
        }
    }
    tally.expect(&[0, 12, 33], 1000);
}

/// Of all messages with the four forms of each of two records, writing gives the only shortest one.
#[test]
fn no_other_message_is_as_short() {
    let lens = [0, 1, 255, 256];
    let mut rng = Rng::case(29, 0);
    for tnf in [1, 5] {
        for (id, payload) in lens.into_iter().flat_map(|id| lens.map(|len| (id, len))) {
            let kind = usize::from(tnf == 1);
            let first = Record::sized(&mut rng, tnf, [kind, id.min(255), payload]);
            let second = Record::sized(&mut rng, 2, [3, payload.min(255), id]);
            let list = [first, second];
            let written = write(&mut rng, &list);
            let mut shortest = 0;
            for first in naive_ndef::forms(&list[0], MB) {
                for second in naive_ndef::forms(&list[1], ME) {
                    let message = [&first[..], &second].concat();
                    if naive_ndef::read(&message).as_deref() == Ok(&list[..]) {
                        assert!(message.len() >= written.len());
                        shortest += usize::from(message.len() == written.len());
                    }
                }
            }
            assert_eq!(shortest, 1);
        }
    }
}

/// All messages of up to three bytes. Six read: an empty record of each TNF.
#[test]
fn every_short_message() {
    let mut rng = Rng::case(30, 0);
    let mut table = [7; TABLE];
    let mut count = 0;
    for len in 0..=3 {
        for number in 0..1u32 << (8 * len) {
            let message = &number.to_be_bytes()[4 - len..];
            match ndef::read(message, &mut table) {
                Ok(_) => {
                    let list = naive_ndef::read(message).unwrap();
                    assert_eq!(write(&mut rng, &list), message);
                    count += 1;
                }
                Err(refusal) => assert!(refusal == Refusal::new(31) || refusal == Refusal::new(32)),
            }
        }
    }
    assert_eq!(count, 6);
}
