//! The library against the reference, operation by operation, on Type 6 tags.

use zanfirotta::raw;

use crate::common::{buffer_len, codec, lists6, tags6, Guarded, Rng, Tally};
use crate::reference::{type6, Content};
use crate::{number, plain, read_answer, same, same_buffers, same_out};

const LIST_MAX: usize = zanfirotta::type6::LIST_MAX;

/// The calls that take a tag, on one image; the model gets the list's first command.
fn each_call(tally: &mut Tally, image: &[u8], message: &[u8], list: &[u8]) {
    let expected = type6::read(image);
    let got = zanfirotta::type6::read(image);
    same(0, &plain(got.map(read_answer)), &expected, &[image]);
    tally.add(&expected);

    let (mut ours, mut wanted) = ([0xCC; LIST_MAX], [0xCC; LIST_MAX]);
    let expected = type6::write(image, message, &mut wanted);
    let got = plain(zanfirotta::type6::write(image, message, &mut ours));
    same(0, &(got, ours), &(expected, wanted), &[image, message]);
    tally.add(&expected);

    let expected = type6::judge(image, message, list);
    let got = plain(zanfirotta::type6::judge(image, message, list));
    same(0, &got, &expected, &[image, message, list]);
    tally.add(&expected);

    let size = zanfirotta::type6::block_size(image).unwrap_or(1);
    let mut commands = zanfirotta::type6::commands(list, size);
    let command = commands.next().unwrap_or_default();
    let (mut tag, mut wanted) = (image.to_vec(), image.to_vec());
    let expected = type6::model(&mut wanted, command);
    let got = plain(zanfirotta::type6::model(&mut tag, command));
    same(0, &(got, tag), &(expected, wanted), &[image, command]);
    tally.add(&expected);
}

/// The examples of source document 003; and every length of a message on a small tag of every
/// block size.
pub fn every_length() {
    let mut tally = Tally::new("type6 lengths");
    let examples = tags6::examples().into_iter();
    let small = (1..=32).map(|size| tags6::plain(tags6::container_blocks(size) + 9, size, &[]));
    for image in examples.chain(small) {
        let (_, capacity) = tags6::message_and_capacity(&image);
        for n in 0..capacity + 3 {
            let message: Vec<u8> = (0..n).map(|i| (i * 7 + n) as u8).collect();
            let ours = lists6::ours(&image, &message).concat();
            each_call(&mut tally, &image, &message, &ours);
        }
    }
    tally.expect(&[0, 9, 11, 14, 20], 16);
}

/// Every version byte: only 10h is read.
pub fn every_version() {
    let mut tally = Tally::new("type6 versions");
    let message = [0xD0, 0x00, 0x01];
    let ours = lists6::ours(&tags6::default(), &message).concat();
    for version in 0..=255 {
        let mut image = tags6::default();
        image[3] = version;
        assert_eq!(type6::read(&image).is_ok(), version == 0x10);
        each_call(&mut tally, &image, &message, &ours);
    }
    tally.expect(&[0, 3], 4);
}

/// Every block size: the image as long as its blocks, a block shorter or longer, a byte shorter or
/// longer; with each value of MAX_LEN at which something changes, and NLEN on both sides of m.
pub fn every_block_size() {
    let mut tally = Tally::new("type6 sizes");
    for size in 1..=32 {
        let container = tags6::container_blocks(size);
        for blocks in [container, container + 1, container + 2, container + 40, 256] {
            let whole = tags6::plain(blocks, size, &[]);
            let message: Vec<u8> = (0..3 * size as u8).collect();
            // Nothing is left out, so that the list does whatever NLEN is.
            let list = lists6::whole(&whole, &message, true).concat();
            let len = blocks * size;
            for len in [len, len - size, len + size, len - 1, len + 1] {
                let mut image = whole.clone();
                image.resize(len, 0xFF);
                each_call(&mut tally, &image, &message, &list);
            }
            let most = blocks - container;
            for max_len in [0, 1, 2, most, most + 1] {
                for past in 0..3 {
                    let mut image = whole.clone();
                    image[7] = max_len as u8;
                    let nlen = max_len * size + past;
                    tags6::set_nlen(&mut image, nlen.saturating_sub(3));
                    each_call(&mut tally, &image, &message, &list);
                }
            }
        }
    }
    tally.expect(&[0, 1, 5, 7, 11, 14, 20], 4);
}

/// Every number of blocks with every block size stated, also fewer blocks than the container takes,
/// on images that are as long as some of them say.
pub fn every_stated_size() {
    let mut tally = Tally::new("type6 stated");
    for len in [8, 24, 60, 252] {
        let mut image = tags6::default();
        image.resize(len, 0x00);
        for stated in 0..=u16::MAX {
            let [blocks, size] = stated.to_le_bytes();
            for max_len in [0, 1, 2, 255] {
                image[4..8].copy_from_slice(&[blocks, size, 0x00, max_len]);
                let expected = type6::read(&image);
                let got = zanfirotta::type6::read(&image);
                same(0, &plain(got.map(read_answer)), &expected, &[&image]);
                tally.add(&expected);
            }
        }
    }
    tally.expect(&[0, 5, 7], 8);
}

pub fn read(cases: u64) {
    let mut tally = Tally::new("type6 read");
    for index in 0..cases {
        let mut rng = Rng::case(61, index);
        let image = tags6::any(&mut rng);
        let expected = type6::read(&image);
        let got = zanfirotta::type6::read(&image);
        same(index, &plain(got.map(read_answer)), &expected, &[&image]);
        if let (Ok(report), Ok(answer)) = (got, expected) {
            let shown = report.message(&image, &[]);
            assert_eq!(shown, answer.message(&image, &[]));
        }
        same_out(index, &mut rng, &expected, |out| {
            raw::type6_read(&image, out)
        });
        tally.add(&expected);
        let reads_as = |content| expected.is_ok_and(|answer| answer.content == content);
        tally.note("message", reads_as(Content::Message));
        tally.note("empty", reads_as(Content::Empty));
        tally.note("read-only", expected.is_ok_and(|a| !a.writable));
        tally.note("RFU bits", expected.is_ok() && image[5] >= 32);
        let size = tags6::block_size(&image);
        tally.note("block size 1", expected.is_ok() && size == 1);
        tally.note("NLEN over 255", expected.is_ok_and(|a| a.length > 255));
    }
    tally.expect(&[0, 1, 2, 3, 4, 5, 7], cases / 200);
}

pub fn write(cases: u64) {
    let mut tally = Tally::new("type6 write");
    for index in 0..cases {
        let mut rng = Rng::case(62, index);
        let image = tags6::for_lists(&mut rng);
        let (old, capacity) = tags6::message_and_capacity(&image);
        let message = tags6::message(&mut rng, &image, &old, capacity);
        let needed = lists6::ours(&image, &message).concat().len();
        let len = buffer_len(&mut rng, needed);
        let mut wanted = Guarded::random(&mut rng, len);
        let mut list = wanted.clone();
        let expected = type6::write(&image, &message, wanted.lend());
        let got = plain(zanfirotta::type6::write(&image, &message, list.lend()));
        same(index, &got, &expected, &[&image, &message]);
        same_buffers(index, &list, &wanted, &[&image, &message]);
        tally.add(&expected);
        tally.note(
            "exact capacity",
            expected.is_ok() && message.len() == capacity,
        );
        let one = message.len() + 2 <= tags6::block_size(&image);
        tally.note("one block", expected.is_ok() && one);
        tally.note("NLEN over 255", expected.is_ok() && message.len() > 255);
    }
    tally.expect(&[0, 1, 2, 3, 4, 5, 7, 9, 10, 11, 12, 14], cases / 200);
}

pub fn judge(cases: u64) {
    let mut tally = Tally::new("type6 judge");
    for index in 0..cases {
        let mut rng = Rng::case(63, index);
        let image = tags6::for_lists(&mut rng);
        let (old, capacity) = tags6::message_and_capacity(&image);
        let message = tags6::message(&mut rng, &image, &old, capacity);
        let list = lists6::any(&mut rng, &image, &message);
        let expected = type6::judge(&image, &message, &list);
        let got = plain(zanfirotta::type6::judge(&image, &message, &list));
        same(index, &got, &expected, &[&image, &message, &list]);
        tally.add(&expected);
        let foreign = list != lists6::ours(&image, &message).concat();
        tally.note("foreign accepted", expected.is_ok() && foreign);
        let one = expected == Ok(1) && old != message;
        tally.note("all in one command", one);
        let mut commands = list.chunks(3 + tags6::block_size(&image));
        let container = expected.is_ok() && commands.any(|command| command[2] == 0);
        tally.note("container rewritten", container);
        let late = expected.is_err_and(|refusal| refusal.position > 0);
        tally.note("refused at a later command", late);
    }
    let expected = [0, 1, 2, 3, 4, 5, 7, 9, 10, 11, 14, 20, 21, 22, 23];
    tally.expect(&expected, cases / 200);
}

pub fn model(cases: u64) {
    let mut tally = Tally::new("type6 model");
    for index in 0..cases {
        let mut rng = Rng::case(64, index);
        let image = tags6::for_lists(&mut rng);
        let (old, capacity) = tags6::message_and_capacity(&image);
        let message = tags6::message(&mut rng, &image, &old, capacity);
        let command = lists6::command(&mut rng, &image, &message);
        let mut wanted = Guarded::holding(&mut rng, &image);
        let mut tag = wanted.clone();
        let expected = type6::model(wanted.lend(), &command);
        let got = plain(zanfirotta::type6::model(tag.lend(), &command));
        same(index, &got, &expected, &[&image, &command]);
        same_buffers(index, &tag, &wanted, &[&image, &command]);
        tally.add(&expected);
        tally.note("container", expected.is_ok() && command[2] == 0);
        tally.note("block size 1", expected.is_ok() && command.len() == 4);
    }
    tally.expect(&[0, 1, 2, 3, 4, 5, 7, 20], cases / 200);
}

pub fn encode(cases: u64) {
    let mut tally = Tally::new("type6 encode");
    for index in 0..cases {
        let mut rng = Rng::case(65, index);
        let case = codec::type6(&mut rng);
        let (size, blocks) = (case.block_size, case.blocks);
        let mut wanted = Guarded::random(&mut rng, case.buffer);
        let mut bytes = wanted.clone();
        let expected = type6::encode(&case.command, size, blocks, wanted.lend());
        let command = zanfirotta::type6::Command {
            block: case.command.block,
            data: case.command.data,
        };
        let got = zanfirotta::type6::encode(&command, size, blocks, bytes.lend());
        same(index, &plain(got), &expected, &[]);
        same_buffers(index, &bytes, &wanted, &[]);
        tally.add(&expected);
        tally.note("32 bytes", expected == Ok(35));
        tally.note("block 255", expected.is_ok() && case.command.block == 255);
    }
    tally.expect(&[0, 12, 20], cases / 200);
}

pub fn decode(cases: u64) {
    let mut tally = Tally::new("type6 decode");
    for index in 0..cases {
        let mut rng = Rng::case(66, index);
        let case = codec::type6(&mut rng);
        let (bytes, size, blocks) = (&case.bytes, case.block_size, case.blocks);
        let mut wanted = case.held;
        let expected = type6::decode(bytes, size, blocks, &mut wanted);
        let got = plain(zanfirotta::type6::decode(bytes, size, blocks));
        same(index, &got.map(|_| ()), &expected, &[bytes]);
        if let Ok(command) = got {
            let (read, rest) = command.data.split_at(size as usize);
            assert_eq!(command.block, wanted.block);
            assert_eq!(read, &wanted.data[..size as usize]);
            assert!(rest.iter().all(|&byte| byte == 0));
        }
        // Bytes past the block size keep what they held; after a refusal everything does.
        let mut held = case.held;
        let answer = raw::type6_decode(bytes, size, blocks, &mut held.block, &mut held.data);
        same(index, &answer, &number(&expected.map(|_| 0)), &[bytes]);
        same(index, &held, &wanted, &[bytes]);
        tally.add(&expected);
        tally.note("32 bytes", expected.is_ok() && size == 32);
    }
    tally.expect(&[0, 20], cases / 200);
}
