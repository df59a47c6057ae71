//! The library against the reference, operation by operation, on Type 2 tags.

use zanfirotta::raw;

use crate::common::{buffer_len, codec, lists2, message, tags2, Guarded, Rng, Tally};
use crate::reference::{type2, Content};
use crate::{number, plain, read_answer, same, same_buffers, same_out};

/// Every length of a message on the specimens and on the tags as they leave the factory.
pub fn every_length() {
    let mut tally = Tally::new("type2 lengths");
    for image in tags2::specimens() {
        let (mut wanted, mut gathered) = ([0xCC; 64], [0xCC; 64]);
        let expected = type2::read(&image, &mut wanted);
        let got = zanfirotta::type2::read(&image, &mut gathered);
        same(0, &plain(got.map(read_answer)), &expected, &[&image]);
        assert_eq!(gathered, wanted);
        let (_, capacity) = tags2::message_and_capacity(&image);
        for n in 0..capacity + 3 {
            let message: Vec<u8> = (0..n).map(|i| (i * 7 + n) as u8).collect();
            let mut wanted = [0xCC; zanfirotta::type2::LIST_MAX];
            let mut list = wanted;
            let expected = type2::write(&image, &message, &mut wanted);
            let got = plain(zanfirotta::type2::write(&image, &message, &mut list));
            same(n as u64, &got, &expected, &[&image, &message]);
            same(n as u64, &list, &wanted, &[&image, &message]);
            if let Ok(count) = expected {
                let judged = zanfirotta::type2::judge(&image, &message, &list[..6 * count]);
                assert_eq!(judged, Ok(count));
            }
            tally.add(&expected);
        }
    }
    tally.expect(&[0, 7, 8, 9, 11], 3);
}

/// Every version byte, for each call that reads the tag.
pub fn every_version() {
    let mut tally = Tally::new("type2 versions");
    let (message, command) = ([0xD0, 0x00, 0x01], [0xA2, 4, 0x03, 0x00, 0xD0, 0x00]);
    for version in 0..=255 {
        let mut image = tags2::plain(64, 6, &[0x03, 0x03, 0xD0, 0x00, 0x00, 0xFE]);
        image[13] = version;
        let expected = type2::read(&image, &mut []);
        let got = zanfirotta::type2::read(&image, &mut []);
        same(0, &plain(got.map(read_answer)), &expected, &[&image]);
        assert_eq!(expected.is_ok(), version / 16 == 1);
        tally.add(&expected);

        let (mut list, mut wanted) = ([0xCC; 18], [0xCC; 18]);
        let expected = type2::write(&image, &message, &mut wanted);
        let got = plain(zanfirotta::type2::write(&image, &message, &mut list));
        same(0, &(got, list), &(expected, wanted), &[&image]);
        tally.add(&expected);

        let expected = type2::judge(&image, &message, &list);
        let got = plain(zanfirotta::type2::judge(&image, &message, &list));
        same(0, &got, &expected, &[&image]);
        tally.add(&expected);

        let (mut tag, mut wanted) = (image.clone(), image.clone());
        let expected = type2::model(&mut wanted, &command);
        let got = plain(zanfirotta::type2::model(&mut tag, &command));
        same(0, &(got, tag), &(expected, wanted), &[&image]);
        tally.add(&expected);
    }
    tally.expect(&[0, 3], 4 * 16);
}

pub fn read(cases: u64) {
    let mut tally = Tally::new("type2 read");
    for index in 0..cases {
        let mut rng = Rng::case(21, index);
        let image = tags2::any(&mut rng);
        let needed = tags2::message_and_capacity(&image).0.len();
        let len = buffer_len(&mut rng, needed);
        let guarded_image = Guarded::holding(&mut rng, &image);
        let mut wanted = Guarded::random(&mut rng, len);
        let (mut gathered, mut again) = (wanted.clone(), wanted.clone());
        let expected = type2::read(&image, wanted.lend());
        let got = zanfirotta::type2::read(guarded_image.slice(), gathered.lend());
        same(index, &plain(got.map(read_answer)), &expected, &[&image]);
        same_buffers(index, &gathered, &wanted, &[&image]);
        if let (Ok(report), Ok(answer)) = (got, expected) {
            let shown = report.message(&image, gathered.slice());
            assert_eq!(shown, answer.message(&image, wanted.slice()));
        }
        same_out(index, &mut rng, &expected, |out| {
            raw::type2_read(guarded_image.slice(), again.lend(), out)
        });
        same_buffers(index, &again, &wanted, &[&image]);
        assert_eq!(guarded_image.slice(), image);
        tally.add(&expected);
        tally.note(
            "message",
            expected.is_ok_and(|a| a.content == Content::Message),
        );
        tally.note("empty", expected.is_ok_and(|a| a.content == Content::Empty));
        tally.note("interrupted", expected.is_ok_and(|a| a.interrupted));
        tally.note("read-only", expected.is_ok_and(|a| !a.writable));
        tally.note("not 1.0", expected.is_ok() && image[13] != 0x10);
    }
    tally.expect(&[0, 1, 2, 3, 4, 5, 6, 7, 8, 13], cases / 200);
}

pub fn write(cases: u64) {
    let mut tally = Tally::new("type2 write");
    for index in 0..cases {
        let mut rng = Rng::case(22, index);
        let image = tags2::for_lists(&mut rng);
        let (old, capacity) = tags2::message_and_capacity(&image);
        let message = message(&mut rng, &old, capacity);
        let needed = 6 * lists2::ours(&image, &message).len();
        let len = buffer_len(&mut rng, needed);
        let mut wanted = Guarded::random(&mut rng, len);
        let mut list = wanted.clone();
        let expected = type2::write(&image, &message, wanted.lend());
        let got = plain(zanfirotta::type2::write(&image, &message, list.lend()));
        same(index, &got, &expected, &[&image, &message]);
        same_buffers(index, &list, &wanted, &[&image, &message]);
        tally.add(&expected);
        let long = expected.is_ok() && message.len() > 254;
        tally.note("three-byte length", long);
        tally.note(
            "exact capacity",
            expected.is_ok() && message.len() == capacity,
        );
        let gap = expected.is_ok_and(|n| interrupted_after(&image, &wanted.slice()[..6 * n]));
        tally.note("interrupted", gap);
        tally.note("not 1.0", expected.is_ok() && image[13] != 0x10);
    }
    tally.expect(&[0, 1, 2, 3, 4, 5, 6, 7, 8, 9, 10, 11, 12], cases / 200);
}

/// Whether the message is interrupted once an accepted list is written.
fn interrupted_after(image: &[u8], list: &[u8]) -> bool {
    let mut image = image.to_vec();
    for command in list.chunks(6) {
        type2::model(&mut image, command).unwrap();
    }
    let answer = type2::read(&image, &mut [0; tags2::END]);
    answer.unwrap().interrupted
}

pub fn judge(cases: u64) {
    let mut tally = Tally::new("type2 judge");
    for index in 0..cases {
        let mut rng = Rng::case(23, index);
        let image = tags2::for_lists(&mut rng);
        let (old, capacity) = tags2::message_and_capacity(&image);
        let message = message(&mut rng, &old, capacity);
        let list = lists2::any(&mut rng, &image, &message);
        let expected = type2::judge(&image, &message, &list);
        let got = plain(zanfirotta::type2::judge(&image, &message, &list));
        same(index, &got, &expected, &[&image, &message, &list]);
        tally.add(&expected);
        let foreign = list != lists2::ours(&image, &message).concat();
        tally.note("foreign accepted", expected.is_ok() && foreign);
        let gap = expected.is_ok() && interrupted_after(&image, &list);
        tally.note("interrupted", gap);
        let late = expected.is_err_and(|refusal| refusal.position > 0);
        tally.note("refused at a later command", late);
        tally.note("not 1.0", expected.is_ok() && image[13] != 0x10);
    }
    let expected = [0, 1, 2, 3, 4, 5, 6, 7, 8, 9, 10, 11, 20, 21, 22, 23];
    tally.expect(&expected, cases / 200);
}

pub fn model(cases: u64) {
    let mut tally = Tally::new("type2 model");
    for index in 0..cases {
        let mut rng = Rng::case(24, index);
        let image = tags2::for_lists(&mut rng);
        let (old, capacity) = tags2::message_and_capacity(&image);
        let message = message(&mut rng, &old, capacity);
        let command = lists2::command(&mut rng, &image, &message);
        let mut wanted = Guarded::holding(&mut rng, &image);
        let mut tag = wanted.clone();
        let expected = type2::model(wanted.lend(), &command);
        let got = plain(zanfirotta::type2::model(tag.lend(), &command));
        same(index, &got, &expected, &[&image, &command]);
        same_buffers(index, &tag, &wanted, &[&image, &command]);
        tally.add(&expected);
        tally.note("not 1.0", expected.is_ok() && image[13] != 0x10);
    }
    tally.expect(&[0, 1, 2, 3, 4, 5, 6, 7, 8, 20], cases / 200);
}

pub fn encode(cases: u64) {
    let mut tally = Tally::new("type2 encode");
    for index in 0..cases {
        let mut rng = Rng::case(25, index);
        let case = codec::type2(&mut rng);
        let mut wanted = Guarded::random(&mut rng, case.buffer);
        let mut bytes = wanted.clone();
        let (block, data) = (case.block, case.data);
        let expected = type2::encode(block, &data, case.blocks, wanted.lend());
        let command = zanfirotta::type2::Command { block, data };
        let got = plain(zanfirotta::type2::encode(
            &command,
            case.blocks,
            bytes.lend(),
        ));
        same(index, &got, &expected, &[]);
        same_buffers(index, &bytes, &wanted, &[]);
        tally.add(&expected);
    }
    tally.expect(&[0, 12, 20], cases / 20);
}

pub fn decode(cases: u64) {
    let mut tally = Tally::new("type2 decode");
    for index in 0..cases {
        let mut rng = Rng::case(26, index);
        let case = codec::type2(&mut rng);
        let expected = type2::decode(&case.bytes, case.blocks);
        let got = plain(zanfirotta::type2::decode(&case.bytes, case.blocks));
        let got = got.map(|c| (c.block, c.data));
        same(
            index,
            &got,
            &expected.map(|c| (c.block, c.data)),
            &[&case.bytes],
        );
        // The decoded command replaces what its place held; a refusal keeps that.
        let held = (rng.next(), case.data.map(|byte| !byte));
        let (mut block, mut data) = held;
        let answer = raw::type2_decode(&case.bytes, case.blocks, &mut block, &mut data);
        same(
            index,
            &answer,
            &number(&expected.map(|_| 0)),
            &[&case.bytes],
        );
        same(index, &(block, data), &got.unwrap_or(held), &[&case.bytes]);
        tally.add(&expected);
    }
    tally.expect(&[0, 20], cases / 20);
}
