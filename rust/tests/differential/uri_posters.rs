//! The library against the reference on posters in posters: how deep they are, where a fault or a
//! URI stands, how many records there are, every byte changed.

use crate::common::records::{Record, CF, IL, MB, ME, SR};
use crate::common::uris::{link, message, nested, poster, record, DEEPEST};
use crate::common::{Rng, Tally};
use crate::uri::{first_one, needed};

/// Finds the first URI with a byte too little room, with as much as it needs, with more, and with
/// none.
fn first_around(tally: &mut Tally, rng: &mut Rng, message: &[u8]) {
    let needed = needed(message);
    for room in [needed.saturating_sub(1), needed, needed + 2, 0] {
        tally.add(&first_one(0, rng, message, room));
    }
}

/// What may stand beside a poster: nothing, a record with or without a URI, or one at fault. The last
/// two, with a chunk flag (in place of a TNF) and with TNF 7, are faults of the whole message.
fn neighbours() -> Vec<Option<Record>> {
    let seventeen = message(&vec![link(b"\x03a"); 17]);
    let mut chunked = message(&[link(b"\x03a")]);
    chunked[0] |= CF;
    vec![
        None,
        Some(record(1, b"T", b"\x02enHi")),
        Some(link(b"\x03a")),
        Some(link(b"\x00")),
        Some(link(b"\x24")),
        Some(link(b"")),
        Some(poster(b"")),
        Some(poster(&seventeen)),
        Some(poster(&chunked)),
        Some(poster(&nested(message(&[link(b"\x05+1")]), 4))),
        Some(record(CF | 1, b"T", b"")),
        Some(record(7, b"", b"")),
    ]
}

/// Every two of these, in each order.
fn pairs<T: Copy>(items: impl Iterator<Item = T> + Clone) -> Vec<[T; 2]> {
    let all = items.clone();
    items
        .flat_map(|one| all.clone().map(move |two| [one, two]))
        .collect()
}

/// A message inside posters, one around the other, the innermost first. Of each poster it is said
/// what stands before it and what behind it.
fn surrounded(inner: &[u8], posters: &[[&Option<Record>; 2]]) -> Vec<u8> {
    let mut inner = inner.to_vec();
    for [before, behind] in posters {
        let poster = Some(poster(&inner));
        let list = [before, &poster, behind].map(Option::as_slice).concat();
        inner = message(&list);
    }
    inner
}

/// Posters one to six deep. One of them, at every level, has every two neighbours.
#[test]
fn every_depth() {
    let mut tally = Tally::new("uri depths");
    let mut rng = Rng::case(99, 0);
    let neighbours = neighbours();
    let inners = [
        message(&[link(b"\x05+1")]),
        message(&[link(b"\x25")]),
        message(&[record(1, b"T", b"\x02enHi")]),
        Vec::new(),
    ];
    for depth in 1..=DEEPEST {
        for inner in &inners {
            for level in 0..depth {
                for pair in pairs(neighbours.iter()) {
                    let mut posters = vec![[&None; 2]; depth];
                    posters[level] = pair;
                    let message = surrounded(inner, &posters);
                    first_around(&mut tally, &mut rng, &message);
                }
            }
        }
    }
    tally.expect(&[0, 12, 30, 31, 32, 34, 35], 100);
}

/// Posters two to six deep. Two of them, at every two levels, have a neighbour each, before them or
/// behind them.
#[test]
fn every_two_levels() {
    let mut tally = Tally::new("uri levels");
    let mut rng = Rng::case(100, 0);
    let neighbours = neighbours();
    let inner = message(&[link(b"\x05+1")]);
    for depth in 2..=DEEPEST {
        for [one, two] in pairs(0..2 * depth) {
            if one / 2 <= two / 2 {
                continue;
            }
            for neighbours in pairs(neighbours.iter()) {
                let mut posters = vec![[&None; 2]; depth];
                posters[one / 2][one % 2] = neighbours[0];
                posters[two / 2][two % 2] = neighbours[1];
                let message = surrounded(&inner, &posters);
                tally.add(&first_one(0, &mut rng, &message, 12));
            }
        }
    }
    tally.expect(&[0, 30, 31, 32, 34, 35], 100);
}

/// So many records, one of them this.
fn among(count: usize, at: usize, record: Record) -> Vec<u8> {
    let empty = Record {
        tnf: 0,
        kind: Vec::new(),
        id: Vec::new(),
        payload: Vec::new(),
    };
    let mut list = vec![empty; count];
    list[at] = record;
    message(&list)
}

/// Up to eighteen records in a message and in the poster that is one of them.
#[test]
fn every_count() {
    let mut tally = Tally::new("uri counts");
    let mut rng = Rng::case(101, 0);
    for inner in 1..=18 {
        for outer in 1..=18 {
            for (inner_at, outer_at) in [
                (0, 0),
                (0, outer - 1),
                (inner - 1, 0),
                (inner - 1, outer - 1),
            ] {
                let poster = poster(&among(inner, inner_at, link(b"\x05+1")));
                let message = among(outer, outer_at, poster);
                first_around(&mut tally, &mut rng, &message);
            }
        }
    }
    tally.expect(&[0, 12, 30], 100);
}

/// Two URIs and a text in two posters.
fn specimen() -> Vec<u8> {
    let mut named = link(b"\x03a.b");
    named.id = b"i".to_vec();
    let inner = message(&[record(1, b"T", b"\x02enHi"), named]);
    message(&[poster(&message(&[poster(&inner)])), link(b"\x05+1")])
}

/// Messages cut at every byte, and with every byte changed to every other: one with two posters, one
/// in as many posters as there may be, and one in a poster more.
#[test]
fn every_byte() {
    let mut tally = Tally::new("uri bytes");
    let mut rng = Rng::case(102, 0);
    let deep = [4, 5].map(|posters| nested(message(&[link(b"\x03a")]), posters));
    for whole in deep.into_iter().chain([specimen()]) {
        for at in 0..whole.len() {
            tally.add(&first_one(0, &mut rng, &whole[..at], 20));
            for byte in 0..=255 {
                let mut message = whole.clone();
                message[at] = byte;
                for room in [9, 12] {
                    tally.add(&first_one(0, &mut rng, &message, room));
                }
            }
        }
    }
    tally.expect(&[0, 12, 31, 32, 34, 35], 50);
}

/// Every form of the records: payload lengths of one byte and of four, and IDs.
#[test]
fn every_form() {
    let mut tally = Tally::new("uri forms");
    let mut rng = Rng::case(103, 0);
    for form in 0..16u8 {
        let mut message = Vec::new();
        let mut record = link(b"\x05+1");
        for level in 0..2 {
            let (short, with_id) = (form >> (2 * level) & 1, form >> (2 * level + 1) & 1);
            record.id = rng.bytes(with_id as usize);
            message = record.under(MB | ME | IL | (SR * short) | 1);
            record = poster(&message);
        }
        first_around(&mut tally, &mut rng, &message);
    }
    tally.expect(&[0, 12], 30);
}
