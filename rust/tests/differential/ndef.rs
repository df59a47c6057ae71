//! The library against the reference on the records of messages: reading, writing, the builder.

use zanfirotta::ndef::{Builder, Place, Record};
use zanfirotta::{raw, RefusalNumber};

use crate::common::records::{self, IL, SR};
use crate::common::tables::Table;
use crate::common::{buffer_len, Guarded, Rng, Tally};
use crate::reference::ndef::{self, TABLE};
use crate::reference::Refusal;
use crate::{number, plain, same, same_buffers};

/// The record with these numbers, by the bytes in which its parts are.
fn record<'a>(numbers: &[u64], bytes: &'a [u8]) -> Record<'a> {
    let part = |at: u64, len: u64| &bytes[at as usize..][..len as usize];
    Record {
        tnf: numbers[0] as u8,
        record_type: part(numbers[1], numbers[2]),
        id: part(numbers[3], numbers[4]),
        payload: part(numbers[5], numbers[6]),
    }
}

/// The places with these numbers.
fn places(numbers: &[u64]) -> Vec<Place> {
    let place = |n: &[u64]| Place {
        tnf: n[0],
        type_at: n[1],
        type_len: n[2],
        id_at: n[3],
        id_len: n[4],
        payload_at: n[5],
        payload_len: n[6],
    };
    numbers.chunks_exact(7).map(place).collect()
}

/// Whether a message that reads has the shortest form: SR exactly if the payload has at most 255
/// bytes, IL exactly if there is an ID.
fn is_shortest(message: &[u8], numbers: &[u64]) -> bool {
    let mut start = 0;
    numbers.chunks(7).all(|record| {
        let header = message[start];
        start = (record[5] + record[6]) as usize;
        (header & SR != 0) == (record[6] <= 255) && (header & IL != 0) == (record[4] > 0)
    })
}

/// Reads a message by the reference, by the C interface and by the crate. What reads is written
/// back: the bytes are the same exactly if the form was the shortest.
pub fn read_one(index: u64, rng: &mut Rng, message: &[u8]) -> Result<u64, Refusal> {
    let mut wanted = Guarded::numbers(rng, TABLE);
    let mut table = wanted.clone();
    let expected = ndef::read(message, wanted.lend().try_into().unwrap());
    let answer = raw::ndef_read(message, table.lend().try_into().unwrap());
    let count = expected.map(|count| count as usize);
    same(index, &answer, &number(&count), &[message]);
    same(index, &table, &wanted, &[message]);

    let got = plain(zanfirotta::ndef::read(message));
    let len = got.clone().map(|records| records.len());
    same(index, &len, &count, &[message]);
    if let Ok(records) = got {
        let numbers = &wanted.slice()[..7 * records.len()];
        assert_eq!(records.places(), places(numbers));
        let list = numbers.chunks(7).map(|numbers| record(numbers, message));
        assert!(records.iter().eq(list));

        let mut written = vec![0; message.len()];
        let len = zanfirotta::ndef::write(records.places(), message, &mut written).unwrap();
        let is_same = written[..len] == *message;
        same(index, &is_same, &is_shortest(message, numbers), &[message]);
        let again = zanfirotta::ndef::read(&written[..len]);
        same(index, &again, &Ok(records), &[message]);
    }
    expected
}

/// Writes a table by the reference, by the C interface and by the crate. What was written reads as
/// the records of the table.
pub fn write_one(
    index: u64,
    rng: &mut Rng,
    numbers: &[u64],
    bytes: &[u8],
    room: usize,
) -> Result<u64, Refusal> {
    let before = Guarded::random(rng, room);
    let (mut wanted, mut message) = (before.clone(), before.clone());
    let expected = ndef::write(numbers, bytes, wanted.lend());
    let answer = raw::ndef_write(numbers, bytes, message.lend());
    let len = expected.map(|len| len as usize);
    if answer != number(&len) {
        println!("{numbers:?}");
    }
    same(index, &answer, &number(&len), &[bytes]);
    same_buffers(index, &message, &wanted, &[bytes]);

    if numbers.len().is_multiple_of(7) {
        let mut message = before;
        let got = zanfirotta::ndef::write(&places(numbers), bytes, message.lend());
        same(index, &plain(got), &len, &[bytes]);
        same_buffers(index, &message, &wanted, &[bytes]);
    }
    if let Ok(len) = len {
        let records = zanfirotta::ndef::read(&message.slice()[..len]).unwrap();
        let list = numbers.chunks(7).map(|numbers| record(numbers, bytes));
        assert!(records.iter().eq(list), "case {index}: other records");
    }
    expected
}

pub fn read(cases: u64) {
    let mut tally = Tally::new("ndef read");
    for index in 0..cases {
        let mut rng = Rng::case(71, index);
        let message = records::any(&mut rng);
        let answer = read_one(index, &mut rng, &message);
        tally.add(&answer);
        let reads = answer.is_ok();
        let first = *message.first().unwrap_or(&0);
        tally.note("one record", answer == Ok(1));
        tally.note("sixteen", answer == Ok(16));
        tally.note("four length bytes", reads && first & SR == 0);
        let no_id = reads && first & (SR | IL) == (SR | IL) && message[3] == 0;
        tally.note("ID length 0", no_id);
        tally.note("over 255 bytes", reads && message.len() > 255);
    }
    tally.expect(&[0, 30, 31, 32], cases / 200);
}

pub fn write(cases: u64) {
    let mut tally = Tally::new("ndef write");
    for index in 0..cases {
        let mut rng = Rng::case(72, index);
        let table = Table::any(&mut rng);
        let (numbers, bytes) = (&table.numbers, &table.bytes);
        let needed = ndef::write(numbers, bytes, &mut vec![0; table.room()]).unwrap_or(9);
        let room = buffer_len(&mut rng, needed as usize);
        let answer = write_one(index, &mut rng, numbers, bytes, room);
        tally.add(&answer);
        tally.note("one record", answer.is_ok() && numbers.len() == 7);
        tally.note("sixteen", answer.is_ok() && numbers.len() == 112);
        tally.note("exact room", answer == Ok(room as u64));
        let refused = answer == Err(Refusal::new(33));
        tally.note("no multiple of seven", refused && numbers.len() % 7 != 0);
        tally.note("over sixteen", refused && numbers.len() > 112);
        let part = |n: &[u64], i: usize| n[i].overflowing_add(n[i + 1]);
        let wraps = |n: &[u64]| [1, 3, 5].into_iter().any(|i| part(n, i).1);
        tally.note("wraps", refused && numbers.chunks_exact(7).any(wraps));
    }
    tally.expect(&[0, 12, 33], cases / 200);
}

/// A record that the builder refuses changes nothing, and its message is that of the records taken.
pub fn builder(cases: u64) {
    let mut tally = Tally::new("ndef builder");
    for index in 0..cases {
        let mut rng = Rng::case(73, index);
        let mut list = records::list(&mut rng);
        if rng.percent(20) {
            let more = records::list(&mut rng);
            list.extend(more);
        }
        if rng.percent(10) {
            list[0].tnf = rng.between(5, 9) as u8;
        }
        let parts = |r: &records::Record| r.kind.len() + r.id.len() + r.payload.len();
        let needed = list.iter().map(parts).sum();
        let room = buffer_len(&mut rng, needed);
        let mut buffer = vec![0xCC; room];
        let mut builder = Builder::new(&mut buffer);
        let (mut taken, mut used) = (Vec::new(), 0);
        for record in &list {
            let answer = builder.push(Record {
                tnf: record.tnf,
                record_type: &record.kind,
                id: &record.id,
                payload: &record.payload,
            });
            let refusal = if taken.len() == 16 {
                Some(RefusalNumber::UnwritableRecords)
            } else if used + parts(record) > room {
                Some(RefusalNumber::ShortBuffer)
            } else {
                taken.push(record.clone());
                used += parts(record);
                None
            };
            assert_eq!(answer.err().map(|refusal| refusal.number), refusal);
            assert_eq!(builder.len(), taken.len());
            let refused = |number| refusal == Some(number);
            tally.note("a seventeenth", refused(RefusalNumber::UnwritableRecords));
            tally.note("no room", refused(RefusalNumber::ShortBuffer));
        }
        let table = Table::of(&mut rng, &taken);
        let room = buffer_len(&mut rng, used + 4 * taken.len());
        let mut wanted = Guarded::random(&mut rng, room);
        let mut message = wanted.clone();
        let expected = ndef::write(&table.numbers, &table.bytes, wanted.lend());
        let got = plain(builder.write(message.lend()));
        same(index, &got, &expected.map(|len| len as usize), &[]);
        same_buffers(index, &message, &wanted, &[]);
        assert!(buffer[used..].iter().all(|&byte| byte == 0xCC));
        tally.add(&expected);
    }
    tally.expect(&[0, 12, 33], cases / 200);
}
