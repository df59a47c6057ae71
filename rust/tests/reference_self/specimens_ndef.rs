//! The reference on specimens of E5 in docs/02-change-requests.md, worked out by hand: a message or
//! a list on each side of every limit.

use crate::reference::ndef::{self, TABLE};
use crate::reference::Refusal;

/// The numbers of the records of a message, or the refusal's number.
fn read(message: &[u8]) -> Result<Vec<[u64; 7]>, u8> {
    let mut table = [0xCC; TABLE];
    let answer = ndef::read(message, &mut table);
    let count = answer.unwrap_or(0) as usize;
    assert!(table[7 * count..].iter().all(|&number| number == 0xCC));
    let records = table[..7 * count].chunks(7);
    match answer {
        Ok(_) => Ok(records.map(|r| r.try_into().unwrap()).collect()),
        Err(refusal) => Err(refusal.number),
    }
}

/// How many records a message has, or the refusal's number.
fn count(message: &[u8]) -> Result<usize, u8> {
    read(message).map(|records| records.len())
}

/// The message of a list, with `room` for it, or the refusal's number.
fn write_to(list: &[[u64; 7]], bytes: &[u8], room: usize) -> Result<Vec<u8>, u8> {
    let mut message = vec![0xCC; room];
    match ndef::write(&list.concat(), bytes, &mut message) {
        Ok(len) => {
            let rest = message.split_off(len as usize);
            assert!(rest.iter().all(|&byte| byte == 0xCC));
            Ok(message)
        }
        Err(refusal) => {
            assert!(message.iter().all(|&byte| byte == 0xCC));
            Err(refusal.number)
        }
    }
}

fn write(list: &[[u64; 7]], bytes: &[u8]) -> Result<Vec<u8>, u8> {
    write_to(list, bytes, 70_000)
}

/// `message` with one byte changed.
fn with(message: &[u8], at: usize, byte: u8) -> Vec<u8> {
    let mut message = message.to_vec();
    message[at] = byte;
    message
}

/// A web address with an ID, and a text.
const TWO: &[u8] = b"\x99\x01\x08\x02Uid\x03nfc.org\x51\x01\x05T\x02enhi";

#[test]
fn two_records() {
    let records = [[1, 4, 1, 5, 2, 7, 8], [1, 18, 1, 19, 0, 19, 5]];
    assert_eq!(read(TWO), Ok(records.to_vec()));
    assert_eq!(write(&records, TWO), Ok(TWO.to_vec()));
    assert_eq!(write_to(&records, TWO, 24), Ok(TWO.to_vec()));
    assert_eq!(write_to(&records, TWO, 23), Err(12));
    // Cut anywhere, the message is refused.
    for len in 0..TWO.len() {
        assert_eq!(read(&TWO[..len]), Err(32), "{len}");
    }
    // A byte more: ME is not on the record that ends the message.
    assert_eq!(read(&[TWO, &[0]].concat()), Err(32));
}

/// The example A.1 of source document 003 is the empty record.
#[test]
fn empty_records() {
    let empty = [0xD0, 0x00, 0x00];
    assert_eq!(read(&empty), Ok(vec![[0, 3, 0, 3, 0, 3, 0]]));
    assert_eq!(write(&[[0; 7]], &[]), Ok(empty.to_vec()));
    assert_eq!(read(&[]), Err(32));
    assert_eq!(read(&empty[..1]), Err(32));
    assert_eq!(read(&empty[..2]), Err(32));
    // TNF 0 with each of the three lengths.
    assert_eq!(read(&[0xD0, 0x01, 0x00, 0x54]), Err(32));
    assert_eq!(read(&[0xD0, 0x00, 0x01, 0x54]), Err(32));
    assert_eq!(read(&[0xD8, 0x00, 0x00, 0x01, 0x54]), Err(32));
    assert_eq!(write(&[[0, 0, 1, 0, 0, 0, 0]], &[0x54]), Err(33));
    assert_eq!(write(&[[0, 0, 0, 0, 1, 0, 0]], &[0x54]), Err(33));
    assert_eq!(write(&[[0, 0, 0, 0, 0, 0, 1]], &[0x54]), Err(33));
}

/// IL with an ID length of 0 reads as no ID; written, both lengths that are not needed go.
#[test]
fn forms_of_a_record() {
    let shortest = b"\xD1\x01\x02Thi";
    assert_eq!(read(shortest), Ok(vec![[1, 3, 1, 4, 0, 4, 2]]));
    let with_id_length = b"\xD9\x01\x02\x00Thi";
    assert_eq!(read(with_id_length), Ok(vec![[1, 4, 1, 5, 0, 5, 2]]));
    let long = b"\xC1\x01\x00\x00\x00\x02Thi";
    assert_eq!(read(long), Ok(vec![[1, 6, 1, 7, 0, 7, 2]]));
    let both = b"\xC9\x01\x00\x00\x00\x02\x00Thi";
    assert_eq!(read(both), Ok(vec![[1, 7, 1, 8, 0, 8, 2]]));
    for message in [&shortest[..], with_id_length, long, both] {
        let list = read(message).unwrap();
        assert_eq!(write(&list, message), Ok(shortest.to_vec()));
    }
}

#[test]
fn type_name_formats() {
    // Without a type every TNF reads but 6 and 7, with a type 1 to 4.
    for tnf in 0..8u8 {
        let refused = match tnf {
            6 => Err(31),
            7 => Err(32),
            _ => Ok(1),
        };
        assert_eq!(count(&[0xD0 | tnf, 0x00, 0x00]), refused, "{tnf}");
        let refused = if [0, 5].contains(&tnf) {
            Err(32)
        } else {
            refused
        };
        assert_eq!(count(&[0xD0 | tnf, 0x01, 0x00, 0x54]), refused, "{tnf}");
    }
    for tnf in 0..6 {
        let message = vec![0xD0 | tnf, 0x00, 0x00];
        assert_eq!(write(&[[tnf.into(), 0, 0, 0, 0, 0, 0]], &[]), Ok(message));
    }
    for tnf in [6, 7, 8, 255, 256, 257, 1 << 63, u64::MAX] {
        assert_eq!(write(&[[tnf, 0, 0, 0, 0, 0, 0]], &[]), Err(33), "{tnf}");
    }
    assert_eq!(write(&[[5, 0, 1, 0, 0, 0, 0]], &[0x54]), Err(33));
    assert_eq!(
        write(&[[5, 0, 0, 0, 0, 0, 1]], &[0x54]),
        Ok(vec![0xD5, 0x00, 0x01, 0x54])
    );
}

/// 31 goes by the header byte alone, but only at a record that is reached.
#[test]
fn chunks() {
    for header in [0xF1, 0x20, 0x27, 0x26, 0xD6, 0x06, 0xFF] {
        assert_eq!(read(&[header]), Err(31), "{header:02X}");
        assert_eq!(read(&[header, 0x00, 0x00]), Err(31), "{header:02X}");
    }
    assert_eq!(read(&with(TWO, 15, 0x71)), Err(31));
    // The first record's fault comes first.
    assert_eq!(read(&with(&with(TWO, 15, 0x71), 0, 0x19)), Err(32));
    assert_eq!(read(&with(&with(TWO, 15, 0x71), 0, 0xB9)), Err(31));
}

#[test]
fn where_messages_begin_and_end() {
    for (first, second) in [
        (0x19, 0x51),
        (0xD9, 0x51),
        (0x59, 0x51),
        (0x99, 0xD1),
        (0x99, 0x11),
        (0x99, 0x91),
    ] {
        let message = with(&with(TWO, 0, first), 15, second);
        assert_eq!(read(&message), Err(32), "{first:02X} {second:02X}");
    }
    for header in [0x10, 0x50, 0x90] {
        assert_eq!(read(&[header, 0x00, 0x00]), Err(32));
    }
}

/// So many empty records, with MB and ME where they belong.
fn empties(count: usize) -> Vec<u8> {
    let mut message = [0x10, 0x00, 0x00].repeat(count);
    message[0] |= 0x80;
    message[3 * count - 3] |= 0x40;
    message
}

#[test]
fn sixteen_and_seventeen() {
    let sixteen = empties(16);
    assert_eq!(count(&sixteen), Ok(16));
    assert_eq!(count(&empties(17)), Err(30));
    // Whatever follows sixteen records, and is cut short too.
    let open = &empties(17)[..48];
    for header in 0..=255 {
        assert_eq!(count(&[open, &[header]].concat()), Err(30));
    }
    assert_eq!(count(open), Err(32));
    assert_eq!(
        count(&[&sixteen[..], &[0x50, 0x00, 0x00]].concat()),
        Err(32)
    );
    assert_eq!(count(&with(&empties(17), 45, 0x30)), Err(31));
    assert_eq!(count(&with(&empties(17), 45, 0x17)), Err(32));

    assert_eq!(write(&[[0; 7]; 16], &[]), Ok(sixteen));
    assert_eq!(write(&[[0; 7]; 17], &[]), Err(33));
    assert_eq!(write(&[], &[]), Err(33));
    assert_eq!(write_to(&[[0; 7]; 17], &[], 0), Err(33));
}

/// A payload of 255 bytes has one length byte, one of 256 four; all four count, high first.
#[test]
fn payload_lengths() {
    let bytes = [0x5A; 65_536];
    for len in [0, 1, 255] {
        let message = [&[0xD2, 0x00, len as u8], &bytes[..len]].concat();
        let list = [[2, 0, 0, 0, 0, 0, len as u64]];
        assert_eq!(write(&list, &bytes), Ok(message.clone()));
        assert_eq!(read(&message), Ok(vec![[2, 3, 0, 3, 0, 3, len as u64]]));
    }
    for len in [256, 65_535, 65_536] {
        let [a, b, c, d] = (len as u32).to_be_bytes();
        let message = [&[0xC2, 0x00, a, b, c, d], &bytes[..len]].concat();
        let list = [[2, 0, 0, 0, 0, 0, len as u64]];
        assert_eq!(write(&list, &bytes), Ok(message.clone()));
        assert_eq!(read(&message), Ok(vec![[2, 6, 0, 6, 0, 6, len as u64]]));
        assert_eq!(read(&message[..len + 5]), Err(32));
    }
    for length in [[0xFF; 4], [0x80, 0, 0, 0], [1, 0, 0, 0], [0, 1, 0, 0]] {
        let head = [&[0xCA, 0xFF][..], &length, &[0xFF]].concat();
        assert_eq!(read(&[&head[..], &bytes[..512]].concat()), Err(32));
    }
}

#[test]
fn lengths_of_types_and_ids() {
    let bytes = [0x5A; 256];
    let message = [&[0xDA, 0xFF, 0x00, 0xFF][..], &bytes[..255], &bytes[..255]].concat();
    assert_eq!(read(&message), Ok(vec![[2, 4, 255, 259, 255, 514, 0]]));
    assert_eq!(write(&[[2, 0, 255, 1, 255, 256, 0]], &bytes), Ok(message));
    assert_eq!(write(&[[2, 0, 256, 0, 0, 0, 0]], &bytes), Err(33));
    assert_eq!(write(&[[2, 0, 0, 0, 256, 0, 0]], &bytes), Err(33));
}

/// A part has to lie in the bytes, an empty one too, and the sum of its numbers does not wrap.
#[test]
fn places_of_parts() {
    let bytes = [0x5A; 4];
    for i in [1, 3, 5] {
        for (at, len, fits) in [
            (4, 0, true),
            (5, 0, false),
            (3, 1, true),
            (4, 1, false),
            (0, 5, false),
            (u64::MAX, 0, false),
            (u64::MAX, 1, false),
            (u64::MAX - 1, 3, false),
            (2, u64::MAX, false),
            (1 << 63, 1 << 63, false),
        ] {
            let mut record = [2, 0, 0, 0, 0, 0, 0];
            record[i..i + 2].copy_from_slice(&[at, len]);
            assert_eq!(write(&[record], &bytes).is_ok(), fits, "{record:?}");
        }
    }
    // No multiple of seven.
    for len in [1, 6, 8, 13, 111, 113] {
        let mut message = [0xCC; 64];
        let answer = ndef::write(&vec![0; len], &[], &mut message);
        assert_eq!((answer, message), (Err(Refusal::new(33)), [0xCC; 64]));
    }
}
