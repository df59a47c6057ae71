//! The reference on specimens of E4 in docs/02-change-requests.md, worked out by hand: what a list
//! leaves out, and what stays.

use crate::common::tags2::plain;
use crate::common::{lists2, lists3, lists6, tags3, tags6};
use crate::reference::type3;

const IDM: [u8; 8] = [1, 2, 3, 4, 5, 6, 7, 8];

/// The first specimen of 01: message D0 00 00, FEh at 21.
#[test]
fn type2_lists() {
    let image = plain(64, 6, &[0x03, 0x03, 0xD0, 0x00, 0x00, 0xFE]);
    let shut = [0xA2, 4, 0x03, 0x00, 0xD0, 0x00];
    let last = [0xA2, 4, 0x03, 0x03, 0xD0, 0x00];
    assert_eq!(lists2::ours(&image, &[0xD0, 0x00, 0x00]), [shut, last]);
    let list = lists2::ours(&image, &[0xD0, 0x00, 0x01]);
    assert_eq!(list, [shut, [0xA2, 5, 0x01, 0xFE, 0x00, 0x00], last]);
    let list = lists2::ours(&image, &[0xC0, 0x00, 0x00]);
    assert_eq!(list, [shut, [0xA2, 4, 0x03, 0x03, 0xC0, 0x00]]);

    // FEh belongs to the new bytes: at 20 it is not there, and at 21 it may be missing.
    let list = lists2::ours(&image, &[0xD0, 0x00]);
    let shorter = [0xA2, 4, 0x03, 0x02, 0xD0, 0x00];
    assert_eq!(list, [shut, [0xA2, 5, 0xFE, 0xFE, 0x00, 0x00], shorter]);
    let mut image = image;
    image[21] = 0x00;
    let middle = [0xA2, 5, 0x00, 0xFE, 0x00, 0x00];
    let list = lists2::ours(&image, &[0xD0, 0x00, 0x00]);
    assert_eq!(list, [shut, middle, last]);

    // A write that broke off: the tag is shut, and then block 5 is there.
    image[17] = 0x00;
    let list = lists2::ours(&image, &[0xD0, 0x00, 0x00]);
    assert_eq!(list, [middle, last]);
    image[21] = 0xFE;
    assert_eq!(lists2::ours(&image, &[0xD0, 0x00, 0x00]), [last]);
}

/// What each command of our list names.
fn named(image: &[u8], message: &[u8]) -> Vec<Vec<u8>> {
    let list = lists3::split(&lists3::our_bytes(image, message, &IDM));
    let blocks = |command: &Vec<u8>| {
        (0..command[12] as usize)
            .map(|i| command[14 + 2 * i])
            .collect()
    };
    list.iter().map(blocks).collect()
}

/// A message of five blocks, two to a command; the last block holds three bytes of it.
#[test]
fn type3_lists() {
    let message: Vec<u8> = (1..=67).collect();
    let mut image = tags3::default();
    image[2] = 2;
    tags3::seal(&mut image);
    let blocks = |list: &[&[u8]]| {
        list.iter()
            .map(|blocks| blocks.to_vec())
            .collect::<Vec<_>>()
    };
    assert_eq!(
        named(&image, &message),
        blocks(&[&[0], &[1, 2], &[3, 4], &[5], &[0]])
    );

    // First blocks are left out, then the others are put together: a command may skip blocks.
    image[32..48].copy_from_slice(&message[16..32]);
    assert_eq!(
        named(&image, &message),
        blocks(&[&[0], &[1, 3], &[4, 5], &[0]])
    );
    image[80..83].copy_from_slice(&message[64..]);
    assert_eq!(
        named(&image, &message),
        blocks(&[&[0], &[1, 3], &[4], &[0]])
    );
    // The filling belongs to the new bytes.
    image[95] = 0x01;
    assert_eq!(
        named(&image, &message),
        blocks(&[&[0], &[1, 3], &[4, 5], &[0]])
    );

    image[9] = 0x0F;
    tags3::seal(&mut image);
    assert_eq!(named(&image, &message), blocks(&[&[1, 3], &[4, 5], &[0]]));
    image[16..83].copy_from_slice(&message);
    image[95] = 0x00;
    assert_eq!(named(&image, &message), blocks(&[&[0]]));
    for command in lists3::split(&lists3::our_bytes(&image, &message, &IDM)) {
        type3::model(&mut image, &IDM, &command).unwrap();
    }
    assert_eq!(named(&image, &message), blocks(&[&[0], &[0]]));
}

/// Example A.2 of source document 003, written again, with a byte changed, and going on.
#[test]
fn type6_lists() {
    let [_, mut image] = tags6::examples();
    let mut message = image[10..28].to_vec();
    let shut = lists6::write(2, &[0x00, 0x00, 0xD1, 0x01]);
    let last = lists6::write(2, &[0x12, 0x00, 0xD1, 0x01]);
    assert_eq!(lists6::ours(&image, &message), [&shut[..], &last]);
    message[17] = 0x00;
    let middle = lists6::write(6, b".or\0");
    assert_eq!(lists6::ours(&image, &message), [&shut[..], &middle, &last]);
    image[8] = 0x00;
    assert_eq!(lists6::ours(&image, &message), [&middle[..], &last]);
    message[17] = b'g';
    assert_eq!(lists6::ours(&image, &message), [&last[..]]);
    // What is left of the last block is not compared.
    image[27] = 0x77;
    assert_eq!(
        lists6::ours(&image, &message[..17]),
        [lists6::write(2, &[0x11, 0x00, 0xD1, 0x01])]
    );
}
