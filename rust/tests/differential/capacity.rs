//! The capacity that a reading carries (E3): it is the reference's, and writing and judging give 11
//! exactly for a message that is longer.

use zanfirotta::{Refusal, Report};

use crate::common::{tags2, tags3, tags6, Tally};
use crate::reference::{type2, type3, type6};
use crate::{plain, read_answer, same};

/// Writes and judges messages of one byte, of the greatest length that fits, and of one byte more.
/// `before` is the refusal that the tag gets before 11, if any. The list to judge is empty, and the
/// tag holds another message or none, so that a message that fits gets 23.
fn decides(
    tally: &mut Tally,
    report: Report,
    before: Option<u8>,
    write: impl Fn(&[u8]) -> Result<usize, Refusal>,
    judge: impl Fn(&[u8]) -> Result<usize, Refusal>,
) {
    let message = vec![0xD0; report.capacity + 1];
    for n in [1, report.capacity.max(1), report.capacity + 1] {
        let too_long = (n > report.capacity).then_some(11);
        let refusal = before.or(too_long);
        let written = plain(write(&message[..n]));
        assert_eq!(written.err().map(|refusal| refusal.number), refusal);
        let judged = plain(judge(&message[..n]));
        let number = judged.err().map(|refusal| refusal.number);
        assert_eq!(number, refusal.or(Some(23)));
        tally.add(&written);
    }
}

/// Every number of usable bytes after the type byte, with and without an area of 16 bytes at 960,
/// on writable and on read-only tags.
pub fn every_type2() {
    let mut tally = Tally::new("type2 capacity");
    let mut images: Vec<Vec<u8>> = (1..=1007).map(tags2::with_usable).collect();
    for type_byte in (21..960).chain(976..1023) {
        let mut image = tags2::plain(1024, 126, &[0x02, 0x03, 0xF0, 0x10, 0x06]);
        image[type_byte] = 0x03;
        images.push(image);
    }
    for mut image in images {
        for access in [0x00, 0x0F] {
            image[15] = access;
            let expected = type2::read(&image, &mut []);
            let got = zanfirotta::type2::read(&image, &mut []);
            same(0, &plain(got.map(read_answer)), &expected, &[&image]);
            let before = (access != 0x00).then_some(10);
            decides(
                &mut tally,
                got.unwrap(),
                before,
                |message| {
                    let mut list = [0; zanfirotta::type2::LIST_MAX];
                    zanfirotta::type2::write(&image, message, &mut list)
                },
                |message| zanfirotta::type2::judge(&image, message, &[]),
            );
        }
    }
    tally.expect(&[0, 10, 11], 1000);
}

/// Every Nmaxb, on tags that are writable, read-only or being written.
pub fn every_type3() {
    let mut tally = Tally::new("type3 capacity");
    let idm = [1, 2, 3, 4, 5, 6, 7, 8];
    for nmaxb in 0..=255 {
        for (nbw, write_flag, rw_flag) in [(1, 0x00, 1), (8, 0x0F, 1), (1, 0x0F, 0), (0, 0x00, 1)] {
            let mut image = vec![0; 16 * (1 + nmaxb as usize)];
            let block = tags3::attribute_information_block(4, nbw, nmaxb, write_flag, rw_flag, 0);
            image[..16].copy_from_slice(&block);
            let expected = type3::read(&image);
            let got = zanfirotta::type3::read(&image);
            same(0, &plain(got.map(read_answer)), &expected, &[&image]);
            let before = (nbw == 0 || rw_flag == 0).then_some(10);
            decides(
                &mut tally,
                got.unwrap(),
                before,
                |message| {
                    let mut list = [0; zanfirotta::type3::LIST_MAX];
                    zanfirotta::type3::write(&image, message, &idm, &mut list)
                },
                |message| zanfirotta::type3::judge(&image, message, &idm, &[]),
            );
        }
    }
    tally.expect(&[0, 10, 11], 500);
}

/// Every block size, with the least and the greatest number of blocks and some between, on writable
/// and on read-only tags.
pub fn every_type6() {
    let mut tally = Tally::new("type6 capacity");
    for size in 1..=32 {
        let container = tags6::container_blocks(size);
        for blocks in [
            container + 1,
            container + 2,
            container + 3,
            container + 40,
            256,
        ] {
            if size * (blocks - container) < 2 {
                continue;
            }
            for access in [0x00, 0xFF] {
                let mut image = tags6::plain(blocks, size, &[]);
                image[6] = access;
                let expected = type6::read(&image);
                let got = zanfirotta::type6::read(&image);
                same(0, &plain(got.map(read_answer)), &expected, &[&image]);
                let before = match (access, size) {
                    (0xFF, _) => Some(10),
                    (_, 1) => Some(14),
                    _ => None,
                };
                decides(
                    &mut tally,
                    got.unwrap(),
                    before,
                    |message| {
                        let mut list = [0; zanfirotta::type6::LIST_MAX];
                        zanfirotta::type6::write(&image, message, &mut list)
                    },
                    |message| zanfirotta::type6::judge(&image, message, &[]),
                );
            }
        }
    }
    tally.expect(&[0, 10, 11, 14], 12);
}
