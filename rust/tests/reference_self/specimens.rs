//! The reference on the specimens of docs/01-scope.md and of docs/02-change-requests.md, and on tags
//! as they leave the factory.

use crate::common::tags2::{defaults, plain, with_usable};
use crate::common::tags3;
use crate::reference::{type2, type3, Content, ReadAnswer, Refusal};

const IDM: [u8; 8] = [1, 2, 3, 4, 5, 6, 7, 8];

fn refused<T>(number: u8) -> Result<T, Refusal> {
    Err(Refusal::new(number))
}

fn read2(image: &[u8]) -> Result<ReadAnswer, Refusal> {
    type2::read(image, &mut [0; 1024])
}

fn write2(image: &[u8], n: usize) -> Result<usize, Refusal> {
    type2::write(image, &vec![0xD0; n], &mut [0; 6 * 260])
}

#[test]
fn first_specimen() {
    let image = plain(64, 6, &[0x03, 0x03, 0xD0, 0x00, 0x00, 0xFE]);
    let expected = ReadAnswer {
        content: Content::Message,
        address: 18,
        length: 3,
        interrupted: false,
        writable: true,
        capacity: 46,
    };
    assert_eq!(read2(&image), Ok(expected));
}

#[test]
fn empty_and_size_0() {
    let answer = read2(&plain(64, 6, &[0x03, 0x00, 0xFE])).unwrap();
    assert_eq!(
        (answer.content, answer.address, answer.length),
        (Content::Empty, 0, 0)
    );
    assert_eq!(read2(&plain(64, 0, &[0x03, 0x00, 0xFE])), refused(8));
}

#[test]
fn capacity_of_46() {
    let image = plain(64, 6, &[0x03, 0x00, 0xFE]);
    assert_eq!(read2(&image).unwrap().capacity, 46);
    assert!(write2(&image, 46).is_ok());
    assert_eq!(write2(&image, 47), refused(11));
}

/// The length byte takes the only usable byte; a read-only tag has the same capacity.
#[test]
fn no_capacity() {
    let mut image = with_usable(1);
    for writable in [true, false] {
        let answer = read2(&image).unwrap();
        assert_eq!(
            (answer.content, answer.writable, answer.capacity),
            (Content::Empty, writable, 0)
        );
        assert_eq!(write2(&image, 1), refused(if writable { 11 } else { 10 }));
        image[15] = 0x0F;
    }
}

#[test]
fn around_the_long_form() {
    for (u, n) in [
        (254, 253),
        (255, 254),
        (256, 254),
        (257, 254),
        (258, 255),
        (259, 256),
    ] {
        let image = with_usable(u);
        assert_eq!(read2(&image).unwrap().capacity, n as u64);
        assert!(write2(&image, n).is_ok());
        assert_eq!(write2(&image, n + 1), refused(11));
    }
    // 254 bytes at u = 255 leave no room for FEh; at u = 256 it is the last byte.
    for (u, last) in [(255, 0xD0), (256, 0xFE)] {
        let mut image = with_usable(u);
        let mut list = [0; 6 * 260];
        let count = type2::write(&image, &[0xD0; 254], &mut list).unwrap();
        for command in list[..6 * count].chunks(6) {
            type2::model(&mut image, command).unwrap();
        }
        assert_eq!(image.last(), Some(&last));
        assert_eq!(read2(&image).unwrap().length, 254);
    }
}

#[test]
fn bad_lengths() {
    assert_eq!(read2(&plain(64, 6, &[0x03, 0xFF, 0x00, 0xFE])), refused(7));
    let mut image = plain(64, 6, &[]);
    image[63] = 0x03;
    assert_eq!(read2(&image), refused(7));
}

/// The Type 3 specimen with a message: 14 blocks, Nbr 4, Nbw 1, Nmaxb 13, Ln 35.
fn type3_image() -> Vec<u8> {
    tags3::specimens()[1].clone()
}

#[test]
fn type3_specimens() {
    let mut image = type3_image();
    let answer = type3::read(&image).unwrap();
    assert_eq!(
        (answer.content, answer.address, answer.length),
        (Content::Message, 16, 35)
    );
    assert!(answer.writable && !answer.interrupted);
    assert_eq!(answer.capacity, 208);
    let mut list = [0; 8000];
    assert!(type3::write(&image, &[7; 208], &IDM, &mut list).is_ok());
    assert_eq!(
        type3::write(&image, &[7; 209], &IDM, &mut list),
        refused(11)
    );
    assert_eq!(type3::write(&image, &[7; 35], &IDM, &mut list), Ok(5));
    image[2] = 4;
    tags3::seal(&mut image);
    assert_eq!(type3::write(&image, &[7; 35], &IDM, &mut list), Ok(3));

    let mut image = type3_image();
    image[9] = 0x0F;
    image[15] = 0x55;
    let answer = type3::read(&image).unwrap();
    assert_eq!(
        (answer.content, answer.capacity),
        (Content::BeingWritten, 208)
    );
    let mut image = type3_image();
    image[15] = 0x47;
    assert_eq!(type3::read(&image), refused(2));
}

/// E1: the high nibble of the version byte has to be 1. A Type 3 tag's checksum is tested first.
#[test]
fn versions() {
    for version in 0..=255 {
        let mut image = plain(64, 6, &[0x03, 0x00, 0xFE]);
        image[13] = version;
        let mut image3 = type3_image();
        image3[0] = version;
        if version != 0x10 {
            assert_eq!(type3::read(&image3), refused(2));
        }
        tags3::seal(&mut image3);
        if version / 16 == 1 {
            assert_eq!(read2(&image).unwrap().content, Content::Empty);
            assert_eq!(type3::read(&image3).unwrap().length, 35);
            assert!(write2(&image, 46).is_ok());
            assert!(type3::write(&image3, &[7; 208], &IDM, &mut [0; 8000]).is_ok());
        } else {
            assert_eq!(read2(&image), refused(3));
            assert_eq!(type3::read(&image3), refused(3));
        }
    }
}

#[test]
fn empty_list() {
    let image = plain(64, 6, &[0x03, 0x03, 0xD0, 0x00, 0x00, 0xFE]);
    assert_eq!(type2::judge(&image, &[0xD0, 0x00, 0x00], &[]), Ok(0));
    let end = Err(Refusal::at(23, 0));
    assert_eq!(type2::judge(&image, &[0xD0, 0x00, 0x01], &[]), end);
    let image = type3_image();
    assert_eq!(type3::judge(&image, &[0; 35], &IDM, &[]), Ok(0));
    assert_eq!(type3::judge(&image, &[0; 34], &IDM, &[]), end);
}

#[test]
fn interrupted() {
    let mut image = plain(64, 6, &[0x02, 0x03, 0x18, 0x04, 0x04, 0x03, 0x03, 0xD0]);
    image[24..31].copy_from_slice(&[0xAA, 0xBB, 0xCC, 0xDD, 0x00, 0x00, 0xFE]);
    let mut gathered = [0x77; 5];
    let answer = type2::read(&image, &mut gathered).unwrap();
    assert_eq!(
        (answer.address, answer.length, answer.interrupted),
        (23, 3, true)
    );
    assert_eq!(gathered, [0xD0, 0x00, 0x00, 0x77, 0x77]);
    assert_eq!(answer.message(&image, &gathered), [0xD0, 0x00, 0x00]);
    assert_eq!(type2::read(&image, &mut [0; 2]), refused(13));
    assert_eq!(answer.capacity, 37);
}

#[test]
fn the_program() {
    let image = plain(64, 6, &[0x03, 0x00, 0xFE]);
    let mut list = [0; 100];
    let count = type2::write(&image, &[0xD0, 0x00, 0x00], &mut list).unwrap();
    let mut output = format!("{count} commands\n");
    for command in list[..6 * count].chunks(6) {
        let bytes: Vec<String> = command.iter().map(|byte| format!("{byte:02X}")).collect();
        output += &format!("{}\n", bytes.join(" "));
    }
    let expected = "2 commands\n\
                    A2 05 00 FE 00 00\n\
                    A2 04 03 03 D0 00\n";
    assert_eq!(output, expected);
}

/// Tags as they leave the factory: the capacity is that of u, and a message of that length fits.
#[test]
fn factory_defaults() {
    for (image, u) in defaults().iter().zip([47, 138, 495, 871]) {
        let answer = read2(image).unwrap();
        assert_eq!((answer.content, answer.writable), (Content::Empty, true));
        let capacity = answer.capacity as usize;
        assert_eq!(capacity, if u < 255 { u - 1 } else { u - 3 });
        assert!(write2(image, capacity).is_ok());
        assert_eq!(write2(image, capacity + 1), refused(11));
        assert_eq!(write2(image, 0), refused(9));
    }
    let image = tags3::default();
    let answer = type3::read(&image).unwrap();
    assert_eq!((answer.content, answer.capacity), (Content::Empty, 208));
}

/// The order of the tests, and points that are easy to get wrong.
#[test]
fn order_of_refusals() {
    let mut image = plain(64, 6, &[0x03, 0x00]);
    image[15] = 0x0F;
    assert_eq!(write2(&image, 0), refused(9));
    assert_eq!(write2(&image, 47), refused(10));
    type2::model(&mut image, &[0xA2, 4, 3, 1, 2, 3]).unwrap();
    assert_eq!(read2(&image).unwrap().length, 1);
    for (data, number) in [
        (&[0x01][..], 6),
        (&[0x02, 0xFF], 6),
        (&[0x02, 0x03, 0x00, 0x01, 0xF0], 6),
        (&[0x01, 0x03, 0x00, 0x01, 0x04], 6),
        (&[0x55, 0xFF, 0xFF, 0xFF], 7),
        (&[0x55, 0x2F], 7),
        (&[0x55, 0x2E], 8),
        (&[0xFE, 0x03, 0x01], 8),
    ] {
        assert_eq!(read2(&plain(64, 6, data)), refused(number), "{data:02X?}");
    }
    for (tail, number) in [
        (&[0x01][..], 7),
        (&[0x01, 0x03, 0x00, 0x01], 7),
        (&[0x02, 0x04], 6),
    ] {
        let mut image = plain(64, 6, &[]);
        image[64 - tail.len()..].copy_from_slice(tail);
        assert_eq!(read2(&image), refused(number), "{tail:02X?}");
    }
}
