//! The library against the reference on records at every limit: header bytes, lengths, numbers of
//! records, TNFs.

use crate::common::records::{Record, IL, MB, ME, SR};
use crate::common::tables::{Table, WRONG_TNFS};
use crate::common::{Rng, Tally};
use crate::ndef::{read_one, write_one};

/// Lengths next to which something changes.
const LENGTHS: [usize; 7] = [0, 1, 254, 255, 256, 65_535, 65_536];

/// Type, ID and payload that are there or not.
const SOME_LENGTHS: [[usize; 3]; 8] = [
    [0, 0, 0],
    [1, 0, 0],
    [0, 2, 0],
    [0, 0, 3],
    [1, 2, 0],
    [1, 0, 3],
    [0, 2, 3],
    [1, 2, 3],
];

/// Reads a message a byte short, as it is, and a byte long.
fn read_around(tally: &mut Tally, rng: &mut Rng, mut message: Vec<u8>) {
    message.push(rng.byte());
    let len = message.len();
    for len in [len.saturating_sub(2), len - 1, len] {
        tally.add(&read_one(0, rng, &message[..len]));
    }
}

/// Writes a table with a byte too little room, with as much as it needs, a byte more, and none.
fn write_around(tally: &mut Tally, rng: &mut Rng, table: &Table, needed: usize) {
    for room in [needed.saturating_sub(1), needed, needed + 1, 0] {
        tally.add(&write_one(0, rng, &table.numbers, &table.bytes, room));
    }
}

/// Every header byte on the only record, the first, one between and the last, with and without
/// type, ID and payload.
pub fn every_header() {
    let mut tally = Tally::new("ndef headers");
    let mut rng = Rng::case(74, 0);
    let plain = Record::sized(&mut rng, 2, [1, 0, 1]);
    let (first, last) = (plain.under(SR | MB | 2), plain.under(SR | ME | 2));
    for header in 0..=255 {
        for lens in SOME_LENGTHS {
            let record = Record::sized(&mut rng, 0, lens).under(header);
            for (before, after) in [(0, 0), (0, 1), (1, 0), (1, 1)] {
                let message = [&first[..before * 5], &record, &last[..after * 5]].concat();
                read_around(&mut tally, &mut rng, message);
            }
        }
    }
    tally.expect(&[0, 31, 32], 100);
}

/// A message of three records cut at every byte, in each of their forms.
pub fn every_cut() {
    let mut tally = Tally::new("ndef cuts");
    let mut rng = Rng::case(75, 0);
    for form in 0..64 {
        let mut message = Vec::new();
        for (i, place) in [MB, 0, ME].into_iter().enumerate() {
            let (id, short) = [(0, 0), (0, SR), (3, 0), (3, SR)][form >> (2 * i) & 3];
            let record = Record::sized(&mut rng, 1, [2, id, 5]);
            message.extend(record.under(place | short | IL | 1));
        }
        for len in 0..message.len() {
            tally.add(&read_one(0, &mut rng, &message[..len]));
        }
        read_around(&mut tally, &mut rng, message);
    }
    tally.expect(&[0, 32], 64);
}

/// Every length of type, ID and payload at a limit, together; the lengths that a message states are
/// also more than it has.
pub fn every_length() {
    let mut tally = Tally::new("ndef lengths");
    let mut rng = Rng::case(76, 0);
    for kind in LENGTHS {
        for id in LENGTHS {
            for payload in LENGTHS {
                let record = Record::sized(&mut rng, 4, [kind, id, payload]);
                let shortest = record.under(record.header() | MB | ME);
                if kind <= 255 && id <= 255 {
                    read_around(&mut tally, &mut rng, shortest.clone());
                    let long = record.under(MB | ME | IL | 4);
                    read_around(&mut tally, &mut rng, long);
                }
                let table = Table::of(&mut rng, &[record]);
                write_around(&mut tally, &mut rng, &table, shortest.len());
            }
        }
    }
    tally.expect(&[0, 12, 32, 33], 100);
}

/// Payload lengths of four bytes, from what is there up to all FFh, on short messages; with types
/// and IDs that are there or not.
pub fn every_stated_length() {
    let mut tally = Tally::new("ndef stated");
    let mut rng = Rng::case(77, 0);
    let stated = [
        0,
        1,
        0xFF,
        0x100,
        0xFFFF,
        0x1_0000,
        0x100_0000,
        0x7FFF_FFFF,
        0x8000_0000,
        0xFFFF_FDFE,
        0xFFFF_FEFF,
        0xFFFF_FF00,
        0xFFFF_FFFE,
        0xFFFF_FFFF_u32,
    ];
    for payload in stated {
        for kind in [0, 1, 254, 255_u8] {
            for id in [0, 1, 254, 255_u8] {
                let mut head = vec![MB | ME | IL | 4, kind];
                head.extend(payload.to_be_bytes());
                head.push(id);
                for len in [0, 1, 2, 254, 255, 256, 509, 510, 511, 765, 766, 767] {
                    let mut message = head.clone();
                    message.extend(rng.bytes(len));
                    tally.add(&read_one(0, &mut rng, &message));
                    // The same without an ID, and before a record.
                    message[0] &= !IL;
                    tally.add(&read_one(0, &mut rng, &message));
                    message[0] &= !ME;
                    message.extend(Record::sized(&mut rng, 2, [1, 0, 1]).under(SR | ME | 2));
                    tally.add(&read_one(0, &mut rng, &message));
                }
            }
        }
    }
    // Bytes left over after a record are read as the next one, so 31 comes too.
    tally.expect(&[0, 31, 32], 100);
}

/// Lists of up to twenty records: the message as it should be, with MB or ME wrong at every record,
/// and with every byte after it, with ME before it or not.
pub fn every_count() {
    let mut tally = Tally::new("ndef counts");
    let mut rng = Rng::case(78, 0);
    for count in 0..=20 {
        let list: Vec<Record> = (0..count)
            .map(|_| Record::sized(&mut rng, 1, [1, 0, 2]))
            .collect();
        let needed = 6 * count;
        let table = Table::of(&mut rng, &list);
        write_around(&mut tally, &mut rng, &table, needed);

        let mut message: Vec<u8> = list.iter().flat_map(|r| r.under(r.header())).collect();
        if count > 0 {
            message[0] |= MB;
            message[needed - 6] |= ME;
        }
        read_around(&mut tally, &mut rng, message.clone());
        for start in (0..needed).step_by(6) {
            for flag in [MB, ME] {
                message[start] ^= flag;
                read_around(&mut tally, &mut rng, message.clone());
                message[start] ^= flag;
            }
        }
        for open in [0, ME] {
            if count > 0 {
                message[needed - 6] &= !open;
            }
            for byte in 0..=255 {
                message.push(byte);
                tally.add(&read_one(0, &mut rng, &message));
                message.pop();
            }
        }
    }
    tally.expect(&[0, 12, 30, 31, 32, 33], 16);
}

/// Every TNF that a header byte says, and others that a table can say, with and without type, ID
/// and payload; in the first record and in the last.
pub fn every_tnf() {
    let mut tally = Tally::new("ndef TNFs");
    let mut rng = Rng::case(79, 0);
    let tnfs: Vec<u64> = (0..6).chain(WRONG_TNFS).collect();
    for lens in SOME_LENGTHS {
        let list = [0, 0].map(|_| Record::sized(&mut rng, 1, lens));
        let forms = list.each_ref().map(|r| r.under(r.header()));
        let mut table = Table::of(&mut rng, &list);
        let needed = forms.concat().len();
        for &tnf in &tnfs {
            for record in [0, 1] {
                table.numbers[7 * record] = tnf;
                write_around(&mut tally, &mut rng, &table, needed);
                table.numbers[7 * record] = 1;

                let mut forms = forms.clone();
                forms[0][0] |= MB;
                forms[1][0] |= ME;
                forms[record][0] = (forms[record][0] & 0xF8) | (tnf % 8) as u8;
                read_around(&mut tally, &mut rng, forms.concat());
            }
        }
    }
    tally.expect(&[0, 12, 31, 32, 33], 16);
}

/// Parts that end in the bytes, at their end, past it, and past 2^64; and every number of numbers.
pub fn every_place() {
    let mut tally = Tally::new("ndef places");
    let mut rng = Rng::case(80, 0);
    for len in [0, 1, 2, 9] {
        let bytes = rng.bytes(len);
        let end = len as u64;
        let mut limits = vec![0, 1, 2, end, end + 1, 255, 256, u64::MAX - 1, u64::MAX];
        limits.extend([31, 32, 63].map(|bits| 1_u64 << bits));
        limits.extend([end, end + 1].map(|sum| 0_u64.wrapping_sub(sum)));
        for part in [1, 3, 5] {
            for &at in &limits {
                for &len in &limits {
                    let mut numbers = [2, end, 0, end, 0, end, 0];
                    numbers[part..part + 2].copy_from_slice(&[at, len]);
                    tally.add(&write_one(0, &mut rng, &numbers, &bytes, 16));
                    let second = [[3, 0, 0, 0, 0, 0, 0], numbers].concat();
                    tally.add(&write_one(0, &mut rng, &second, &bytes, 16));
                }
            }
        }
    }
    for len in 0..=126 {
        tally.add(&write_one(0, &mut rng, &vec![0; len], &[], 64));
        tally.note("no multiple of seven", len % 7 != 0);
    }
    tally.expect(&[0, 33], 100);
}
