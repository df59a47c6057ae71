//! The reference on specimens of Type 6: the examples of source document 003, and a tag on each
//! side of every limit of E2 in docs/02-change-requests.md.

use crate::common::{lists6, tags6};
use crate::reference::{type6, Content, Refusal};

fn refused<T>(number: u8) -> Result<T, Refusal> {
    Err(Refusal::new(number))
}

/// The content, address and length that an image reads as, or the refusal's number.
fn read(image: &[u8]) -> Result<(Content, u64, u64), u8> {
    match type6::read(image) {
        Ok(answer) => Ok((answer.content, answer.address, answer.length)),
        Err(refusal) => Err(refusal.number),
    }
}

fn write(image: &[u8], n: usize) -> Result<usize, Refusal> {
    type6::write(image, &vec![0xD0; n], &mut [0; 256 * 35])
}

/// `image` with one byte changed.
fn with(image: &[u8], at: usize, byte: u8) -> Vec<u8> {
    let mut image = image.to_vec();
    image[at] = byte;
    image
}

const EMPTY: Result<(Content, u64, u64), u8> = Ok((Content::Empty, 0, 0));

#[test]
fn examples_of_the_source_document() {
    let [a1, a2] = tags6::examples();
    assert_eq!(
        a1[..13],
        [0x4E, 0x44, 0x45, 0x10, 0x1F, 0x03, 0x00, 0x1E, 0x03, 0x00, 0xD0, 0x00, 0x00]
    );
    assert_eq!(read(&a1), Ok((Content::Message, 10, 3)));
    assert_eq!(read(&a2), Ok((Content::Message, 10, 18)));
    let answer = type6::read(&a2).unwrap();
    assert!(answer.writable && !answer.interrupted);
    assert_eq!(answer.message(&a2, &[])[5..], *b"nfc-forum.org");
    for image in [a1, a2] {
        assert_eq!(type6::read(&image).unwrap().capacity, 118);
        assert_eq!(write(&image, 118), Ok(31));
        assert_eq!(write(&image, 119), refused(11));
    }
}

/// The list that writes A.2's message over A.1's.
#[test]
fn list_of_the_second_example() {
    let [a1, a2] = tags6::examples();
    let message = &a2[10..28];
    let mut list = [0xCC; 43];
    assert_eq!(type6::write(&a1, message, &mut list[..41]), refused(12));
    assert_eq!(list, [0xCC; 43]);
    assert_eq!(type6::write(&a1, message, &mut list), Ok(6));
    let expected = [
        [0x02, 0x21, 0x02, 0x00, 0x00, 0xD0, 0x00],
        [0x02, 0x21, 0x03, 0x0E, 0x55, 0x01, 0x6E],
        [0x02, 0x21, 0x04, 0x66, 0x63, 0x2D, 0x66],
        [0x02, 0x21, 0x05, 0x6F, 0x72, 0x75, 0x6D],
        [0x02, 0x21, 0x06, 0x2E, 0x6F, 0x72, 0x67],
        [0x02, 0x21, 0x02, 0x12, 0x00, 0xD1, 0x01],
    ];
    assert_eq!(list[..42], expected.concat());
    assert_eq!(list[42], 0xCC);
    let mut image = a1.clone();
    for command in list[..42].chunks(7) {
        type6::model(&mut image, command).unwrap();
    }
    assert!(image == a2);
}

/// What is left of the last block stays. A message that fits one block takes two commands, or one
/// if NLEN is zero.
#[test]
fn one_block_and_what_is_left_of_it() {
    let image = tags6::plain(2, 8, &[1, 0, 1, 2, 3, 4, 5, 6]);
    let list = lists6::ours(&image, &[0xD0, 0xD1]);
    let opening = lists6::write(1, &[0, 0, 1, 2, 3, 4, 5, 6]);
    let closing = lists6::write(1, &[2, 0, 0xD0, 0xD1, 3, 4, 5, 6]);
    assert_eq!(list, [opening, closing.clone()]);
    let image = with(&image, 8, 0);
    assert_eq!(lists6::ours(&image, &[0xD0, 0xD1]), [&closing[..]]);
    assert_eq!(type6::judge(&image, &[0xD0, 0xD1], &closing), Ok(1));
    for at in 7..11 {
        let list = with(&closing, at, 9);
        let answer = type6::judge(&image, &[0xD0, 0xD1], &list);
        assert_eq!(answer, Err(Refusal::at(21, 0)));
    }
}

/// The file starts at the next block after the eight bytes.
#[test]
fn where_the_file_starts() {
    let files = [8, 8, 9, 8, 10, 14, 8, 9, 32];
    for (size, file) in [1, 2, 3, 4, 5, 7, 8, 9, 32].into_iter().zip(files) {
        let image = tags6::plain(20, size, &[0x01, 0x00, 0xD0]);
        assert_eq!(read(&image), Ok((Content::Message, file + 2, 1)), "{size}");
    }
}

#[test]
fn lengths_of_images() {
    // Eight bytes are all container: read as far as MAX_LEN, which leaves no room.
    let image = tags6::plain(2, 4, &[]);
    assert_eq!((read(&image), read(&image[..7])), (Err(7), Err(1)));
    let mut image = tags6::plain(256, 32, &[]);
    assert_eq!(read(&image), EMPTY);
    assert_eq!(read(&image[..8191]), Err(5));
    image.push(0);
    assert_eq!(read(&image), Err(1));
    let image = tags6::plain(12, 3, &[]);
    assert_eq!(read(&image), EMPTY);
    for len in [33, 35, 37, 39] {
        let mut image = image.clone();
        image.resize(len, 0);
        assert_eq!(read(&image), Err(5), "{len}");
    }
}

#[test]
fn bytes_of_the_container() {
    let image = tags6::default();
    for at in 0..3 {
        assert_eq!(read(&with(&image, at, 0x46)), Err(2));
    }
    for version in (0..=255).filter(|&version| version != 0x10) {
        assert_eq!(read(&with(&image, 3, version)), Err(3));
    }
    for access in 1..=254 {
        assert_eq!(read(&with(&image, 6, access)), Err(4));
    }
    let read_only = with(&image, 6, 0xFF);
    assert!(!type6::read(&read_only).unwrap().writable);
    assert_eq!(write(&read_only, 1), refused(10));
    // The top three bits of byte 5 are not judged.
    assert_eq!(read(&with(&image, 5, 0xE3)), EMPTY);
    assert_eq!(write(&with(&image, 5, 0xE3), 118), Ok(30));
    // 30 blocks come after the container.
    assert_eq!(read(&with(&image, 7, 30)), EMPTY);
    assert_eq!(read(&with(&image, 7, 31)), Err(5));
    assert_eq!(read(&with(&image, 7, 0)), Err(7));
}

/// m of 0 reads as empty and takes no message; below 0 NLEN is not looked at.
#[test]
fn least_room() {
    let image = with(&tags6::plain(8, 2, &[]), 7, 1);
    assert_eq!((read(&image), write(&image, 1)), (EMPTY, refused(11)));
    assert_eq!(read(&with(&image, 8, 1)), Err(7));
    let image = tags6::plain(11, 1, &[]);
    assert_eq!(read(&image), EMPTY);
    assert_eq!(read(&with(&image, 7, 2)), EMPTY);
    assert_eq!(read(&with(&image, 7, 1)), Err(7));
}

/// NLEN is stored low byte first; m is the most that it may say.
#[test]
fn nlen() {
    let image = tags6::plain(256, 32, &[]);
    assert_eq!(type6::read(&image).unwrap().capacity, 8158);
    for (low, high, length) in [(0xFF, 0x00, 255), (0x00, 0x01, 256), (0xDE, 0x1F, 8158)] {
        let image = with(&with(&image, 32, low), 33, high);
        assert_eq!(read(&image), Ok((Content::Message, 34, length)));
    }
    assert_eq!(read(&with(&with(&image, 32, 0xDF), 33, 0x1F)), Err(7));
    assert_eq!(write(&image, 8158), Ok(255));
    assert_eq!(write(&with(&image, 33, 0x01), 8158), Ok(256));
    assert_eq!(write(&image, 8159), refused(11));
}

/// 14 comes after 10 and before 11, for writing and judging alone.
#[test]
fn block_size_1() {
    let image = tags6::plain(12, 1, &[0x01, 0x00, 0xD0, 0x00]);
    assert_eq!(read(&image), Ok((Content::Message, 10, 1)));
    assert_eq!(write(&image, 0), refused(9));
    assert_eq!(write(&with(&image, 6, 0xFF), 1), refused(10));
    assert_eq!(write(&image, 1), refused(14));
    assert_eq!(write(&image, 3), refused(14));
    assert_eq!(type6::judge(&image, &[0xD0], &[]), refused(14));
    let mut image = image;
    type6::model(&mut image, &[0x02, 0x21, 0x0B, 0x77]).unwrap();
    assert_eq!(image[11], 0x77);
}

/// Flags and codes of other commands; any block of the image, and none past it.
#[test]
fn well_formed_commands() {
    let image = tags6::default();
    let judged = |list: &[u8]| type6::judge(&image, &[0xC0, 0x01], list);
    let good = lists6::write(2, &[0x02, 0x00, 0xC0, 0x01]);
    assert_eq!(judged(&good), Ok(1));
    for (at, byte) in [
        (0, 0x04),
        (0, 0x42),
        (0, 0x22),
        (1, 0x24),
        (1, 0x22),
        (2, 32),
    ] {
        let bad = with(&good, at, byte);
        assert_eq!(judged(&bad), Err(Refusal::at(20, 0)), "{bad:02X?}");
        assert_eq!(type6::model(&mut image.clone(), &bad), refused(20));
    }
    for rest in 1..7 {
        let list = [&good[..], &good[..rest]].concat();
        assert_eq!(judged(&list), Err(Refusal::at(20, 1)));
    }
    // Block 0 may be written with the bytes that it holds.
    let container = lists6::write(0, b"NDE\x10");
    assert_eq!(judged(&[&container[..], &good].concat()), Ok(2));
    let changed = with(&container, 6, 0x11);
    assert_eq!(judged(&changed), Err(Refusal::at(21, 0)));
    let mut tag = image.clone();
    assert_eq!(type6::model(&mut tag, &changed), Ok(()));
    assert_eq!(read(&tag), Err(3));
}

/// NLEN before the message, or only half of NLEN cleared, shows a message that is neither.
#[test]
fn misread_lists() {
    let mut image = tags6::plain(40, 16, &[0x2C, 0x01]);
    let message = [0xD0; 40];
    let mut list = lists6::ours(&image, &message);
    list.rotate_right(1);
    let answer = type6::judge(&image, &message, &list.concat());
    assert_eq!(answer, Err(Refusal::at(22, 0)));

    let mut list = lists6::ours(&image, &message);
    list[0][4] = 0x01;
    let answer = type6::judge(&image, &message, &list.concat());
    assert_eq!(answer, Err(Refusal::at(22, 0)));
    image[17] = 0x00;
    list[0][4] = 0x00;
    assert_eq!(type6::judge(&image, &message, &list.concat()), Ok(4));
}
