//! The library against the reference, operation by operation, on Type 3 tags.

use zanfirotta::raw;

use crate::common::{buffer_len, codec, lists3, message, tags3, Guarded, Rng, Tally};
use crate::reference::{type3, Content};
use crate::{number, plain, read_answer, same, same_buffers, same_out};

/// The specimens; and every length of a message on a tag as it leaves the factory, with every Nbw
/// of interest.
pub fn every_length() {
    for image in tags3::specimens() {
        let got = plain(zanfirotta::type3::read(&image).map(read_answer));
        same(0, &got, &type3::read(&image), &[&image]);
    }
    let mut tally = Tally::new("type3 lengths");
    let our_idm = [1, 2, 3, 4, 5, 6, 7, 8];
    for nbw in (0..16).chain([255]) {
        let mut image = tags3::default();
        image[2] = nbw;
        tags3::seal(&mut image);
        for n in 0..=210 {
            let message: Vec<u8> = (0..n).map(|i| (i * 7 + n) as u8).collect();
            let mut wanted = [0xCC; zanfirotta::type3::LIST_MAX];
            let mut list = wanted;
            let expected = type3::write(&image, &message, &our_idm, &mut wanted);
            let got = zanfirotta::type3::write(&image, &message, &our_idm, &mut list);
            same(n as u64, &plain(got), &expected, &[&image, &message]);
            same(n as u64, &list, &wanted, &[&image, &message]);
            let ours = lists3::our_bytes(&image, &message, &our_idm);
            if let Ok(count) = expected {
                let judged = zanfirotta::type3::judge(&image, &message, &our_idm, &ours);
                assert_eq!(judged, Ok(count));
            }
            tally.add(&expected);
        }
    }
    tally.expect(&[0, 9, 10, 11], 16);
}

/// Every version byte, for each call that reads the tag; and that the checksum is tested first.
pub fn every_version() {
    let mut tally = Tally::new("type3 versions");
    let (message, our_idm) = ([0xD0, 0x00, 0x01], [1, 2, 3, 4, 5, 6, 7, 8]);
    let command = &lists3::our_bytes(&tags3::default(), &message, &our_idm)[..31];
    for version in 0..=255 {
        let mut image = tags3::default();
        image[0] = version;
        tags3::seal(&mut image);
        let expected = type3::read(&image);
        let got = zanfirotta::type3::read(&image);
        same(0, &plain(got.map(read_answer)), &expected, &[&image]);
        assert_eq!(expected.is_ok(), version / 16 == 1);
        tally.add(&expected);

        let (mut list, mut wanted) = ([0xCC; 93], [0xCC; 93]);
        let expected = type3::write(&image, &message, &our_idm, &mut wanted);
        let got = plain(zanfirotta::type3::write(
            &image, &message, &our_idm, &mut list,
        ));
        same(0, &(got, list), &(expected, wanted), &[&image]);
        tally.add(&expected);

        let expected = type3::judge(&image, &message, &our_idm, &list);
        let got = plain(zanfirotta::type3::judge(&image, &message, &our_idm, &list));
        same(0, &got, &expected, &[&image]);
        tally.add(&expected);

        let (mut tag, mut wanted) = (image.clone(), image.clone());
        let expected = type3::model(&mut wanted, &our_idm, command);
        let got = plain(zanfirotta::type3::model(&mut tag, &our_idm, command));
        same(0, &(got, tag), &(expected, wanted), &[&image]);
        tally.add(&expected);

        image[15] ^= 1;
        let got = plain(zanfirotta::type3::read(&image).map(read_answer));
        same(0, &got, &type3::read(&image), &[&image]);
        tally.add(&got);
    }
    tally.expect(&[0, 2, 3], 4 * 16);
}

pub fn read(cases: u64) {
    let mut tally = Tally::new("type3 read");
    for index in 0..cases {
        let mut rng = Rng::case(31, index);
        let image = tags3::any(&mut rng);
        let expected = type3::read(&image);
        let got = zanfirotta::type3::read(&image);
        same(index, &plain(got.map(read_answer)), &expected, &[&image]);
        if let (Ok(report), Ok(answer)) = (got, expected) {
            let shown = report.message(&image, &[]);
            assert_eq!(shown, answer.message(&image, &[]));
        }
        same_out(index, &mut rng, &expected, |out| {
            raw::type3_read(&image, out)
        });
        tally.add(&expected);
        let reads_as = |content| expected.is_ok_and(|answer| answer.content == content);
        tally.note("message", reads_as(Content::Message));
        tally.note("empty", reads_as(Content::Empty));
        tally.note("being written", reads_as(Content::BeingWritten));
        tally.note("not writable", expected.is_ok_and(|a| !a.writable));
        tally.note("not 1.0", expected.is_ok() && image[0] != 0x10);
    }
    tally.expect(&[0, 1, 2, 3, 4, 5, 7], cases / 200);
}

pub fn write(cases: u64) {
    let mut tally = Tally::new("type3 write");
    for index in 0..cases {
        let mut rng = Rng::case(32, index);
        let image = tags3::for_lists(&mut rng);
        let our_idm = rng.next().to_be_bytes();
        let (old, capacity) = tags3::message_and_capacity(&image);
        let message = message(&mut rng, &old, capacity);
        let needed = lists3::our_bytes(&image, &message, &our_idm).len();
        let len = buffer_len(&mut rng, needed);
        let mut wanted = Guarded::random(&mut rng, len);
        let mut list = wanted.clone();
        let expected = type3::write(&image, &message, &our_idm, wanted.lend());
        let got = zanfirotta::type3::write(&image, &message, &our_idm, list.lend());
        same(index, &plain(got), &expected, &[&image, &message]);
        same_buffers(index, &list, &wanted, &[&image, &message]);
        tally.add(&expected);
        tally.note(
            "exact capacity",
            expected.is_ok() && message.len() == capacity,
        );
        tally.note("not 1.0", expected.is_ok() && image[0] != 0x10);
    }
    tally.expect(&[0, 1, 2, 3, 4, 5, 7, 9, 10, 11, 12], cases / 200);
}

pub fn judge(cases: u64) {
    let mut tally = Tally::new("type3 judge");
    for index in 0..cases {
        let mut rng = Rng::case(33, index);
        let image = tags3::for_lists(&mut rng);
        let our_idm = rng.next().to_be_bytes();
        let (old, capacity) = tags3::message_and_capacity(&image);
        let message = message(&mut rng, &old, capacity);
        let list = lists3::any(&mut rng, &image, &message, &our_idm);
        let expected = type3::judge(&image, &message, &our_idm, &list);
        let got = zanfirotta::type3::judge(&image, &message, &our_idm, &list);
        same(index, &plain(got), &expected, &[&image, &message, &list]);
        tally.add(&expected);
        let foreign = list != lists3::our_bytes(&image, &message, &our_idm);
        tally.note("foreign accepted", expected.is_ok() && foreign);
        let late = expected.is_err_and(|refusal| refusal.position > 0);
        tally.note("refused at a later command", late);
        tally.note("not 1.0", expected.is_ok() && image[0] != 0x10);
    }
    let expected = [0, 1, 2, 3, 4, 5, 7, 9, 10, 11, 20, 21, 22, 23];
    tally.expect(&expected, cases / 200);
}

pub fn model(cases: u64) {
    let mut tally = Tally::new("type3 model");
    for index in 0..cases {
        let mut rng = Rng::case(34, index);
        let image = tags3::for_lists(&mut rng);
        let our_idm = rng.next().to_be_bytes();
        let (old, capacity) = tags3::message_and_capacity(&image);
        let message = message(&mut rng, &old, capacity);
        let command = lists3::command(&mut rng, &image, &message, &our_idm);
        let mut wanted = Guarded::holding(&mut rng, &image);
        let mut tag = wanted.clone();
        let expected = type3::model(wanted.lend(), &our_idm, &command);
        let got = zanfirotta::type3::model(tag.lend(), &our_idm, &command);
        same(index, &plain(got), &expected, &[&image, &command]);
        same_buffers(index, &tag, &wanted, &[&image, &command]);
        tally.add(&expected);
        tally.note("not 1.0", expected.is_ok() && image[0] != 0x10);
    }
    tally.expect(&[0, 1, 2, 3, 4, 5, 7, 20], cases / 200);
}

pub fn encode(cases: u64) {
    let mut tally = Tally::new("type3 encode");
    for index in 0..cases {
        let mut rng = Rng::case(35, index);
        let case = codec::type3(&mut rng);
        let (nbw, nmaxb) = (case.nbw, case.nmaxb);
        let mut wanted = Guarded::random(&mut rng, case.buffer);
        let mut bytes = wanted.clone();
        let expected = type3::encode(&case.command, &case.idm, nbw, nmaxb, wanted.lend());
        let command = zanfirotta::type3::Command {
            count: case.command.count,
            blocks: case.command.blocks,
            data: case.command.data,
        };
        let got = zanfirotta::type3::encode(&command, &case.idm, nbw, nmaxb, bytes.lend());
        same(index, &plain(got), &expected, &[]);
        same_buffers(index, &bytes, &wanted, &[]);
        tally.add(&expected);
        tally.note("eight blocks", expected == Ok(157));
    }
    tally.expect(&[0, 12, 20], cases / 200);
}

pub fn decode(cases: u64) {
    let mut tally = Tally::new("type3 decode");
    for index in 0..cases {
        let mut rng = Rng::case(36, index);
        let case = codec::type3(&mut rng);
        let (bytes, nbw, nmaxb) = (&case.bytes, case.nbw, case.nmaxb);
        let mut wanted = case.held;
        let expected = type3::decode(bytes, &case.idm, nbw, nmaxb, &mut wanted);
        let got = plain(zanfirotta::type3::decode(bytes, &case.idm, nbw, nmaxb));
        same(index, &got.map(|_| ()), &expected, &[bytes]);
        if let Ok(command) = got {
            let count = command.count as usize;
            assert_eq!(command.count, wanted.count);
            assert_eq!(command.blocks[..count], wanted.blocks[..count]);
            assert_eq!(command.data[..16 * count], wanted.data[..16 * count]);
        }
        // Unused entries keep what they held; after a refusal all entries do.
        let mut held = case.held;
        let parts = (&mut held.count, &mut held.blocks, &mut held.data);
        let answer = raw::type3_decode(bytes, &case.idm, nbw, nmaxb, parts);
        same(index, &answer, &number(&expected.map(|_| 0)), &[bytes]);
        same(index, &held, &wanted, &[bytes]);
        tally.add(&expected);
    }
    tally.expect(&[0, 20], cases / 20);
}
