//! Type 3 tags to test with: the specimens, and random ones, valid or damaged.

use super::{damaged_version, version, Rng};
use crate::reference::type3;

/// An attribute information block with the right checksum.
pub fn attribute_information_block(
    nbr: u8,
    nbw: u8,
    nmaxb: u16,
    write: u8,
    read_write: u8,
    ln: u32,
) -> [u8; 16] {
    let [_, a, b, c] = ln.to_be_bytes();
    let [high, low] = nmaxb.to_be_bytes();
    let mut block = [
        0x10, nbr, nbw, high, low, 0, 0, 0, 0, write, read_write, a, b, c, 0, 0,
    ];
    seal(&mut block);
    block
}

/// Sets the right checksum.
pub fn seal(image: &mut [u8]) {
    let sum: u32 = image[..14].iter().map(|&byte| byte as u32).sum();
    image[14] = (sum >> 8) as u8;
    image[15] = sum as u8;
}

/// A tag as it leaves the factory: 14 blocks, of which 13 are for the message.
pub fn default() -> Vec<u8> {
    let mut image = vec![0; 224];
    image[..16].copy_from_slice(&attribute_information_block(4, 1, 13, 0, 1, 0));
    image
}

/// The specimen tags of the page.
pub fn specimens() -> Vec<Vec<u8>> {
    let mut message = vec![0; 224];
    message[..16].copy_from_slice(&[
        0x10, 0x04, 0x01, 0x00, 0x0D, 0x00, 0x00, 0x00, 0x00, 0x00, 0x01, 0x00, 0x00, 0x23, 0x00,
        0x46,
    ]);
    let mut being_written = message.clone();
    being_written[9] = 0x0F;
    being_written[15] = 0x55;
    let mut wrong_sum = message.clone();
    wrong_sum[15] = 0x47;
    vec![default(), message, being_written, wrong_sum]
}

/// A tag that is meant to read.
pub fn valid(rng: &mut Rng) -> Vec<u8> {
    let blocks = match rng.below(10) {
        0 => 14,
        1 => 256,
        2 => 1,
        3 => rng.between(1, 256),
        4 | 5 => rng.between(14, 22),
        _ => rng.between(2, 14),
    };
    let mut image = match rng.below(3) {
        0 => vec![rng.pick(&[0x00, 0xFF]); 16 * blocks],
        _ => rng.bytes(16 * blocks),
    };
    let nmaxb = match rng.below(8) {
        0 => rng.below(blocks),
        1 => (blocks - 1).saturating_sub(1),
        _ => blocks - 1,
    };
    let nbr = rng.pick(&[1, 4, 12, 255]);
    let nbw = match rng.below(12) {
        0 => 0,
        1 => rng.byte(),
        2 => rng.between(7, 9) as u8,
        3 => 255,
        4..=6 => 1,
        _ => rng.between(1, 8) as u8,
    };
    let capacity = 16 * nmaxb;
    let ln = match rng.below(10) {
        0..=2 => 0,
        3 => capacity,
        4 => capacity.saturating_sub(rng.below(17)),
        5 => 1,
        6 => 16 * rng.below(nmaxb + 1),
        _ => rng.below(capacity + 1),
    };
    let write = if rng.percent(75) { 0x00 } else { 0x0F };
    let read_write = if rng.percent(92) { 1 } else { 0 };
    image[..16].copy_from_slice(&attribute_information_block(
        nbr,
        nbw,
        nmaxb as u16,
        write,
        read_write,
        ln as u32,
    ));
    image[0] = version(rng);
    seal(&mut image);
    if rng.percent(30) {
        let reserved = match rng.below(3) {
            0 => vec![0xFF; 4],
            _ => rng.bytes(4),
        };
        image[5..9].copy_from_slice(&reserved);
        seal(&mut image);
    }
    image
}

/// Something that is meant to be refused, or to differ from a tag in a byte or two.
pub fn damaged(rng: &mut Rng) -> Vec<u8> {
    let mut image = valid(rng);
    let blocks = image.len() / 16;
    let nmaxb = u16::from_be_bytes([image[3], image[4]]) as usize;
    for _ in 0..rng.between(1, 2) {
        match rng.below(13) {
            0 => image[0] = damaged_version(rng),
            1 => image[1] = rng.pick(&[0, 0, 1]),
            2 => image[9] = rng.pick(&[0x01, 0x0E, 0xF0, 0xFF, 0x0F]),
            3 => image[10] = rng.pick(&[0x02, 0x0F, 0xFF, 0x01]),
            4 => image[4] = rng.byte(),
            5 => image[3] = rng.pick(&[1, 255]),
            6 => image[3..5].copy_from_slice(&((blocks + rng.below(2)) as u16).to_be_bytes()),
            7 | 8 => {
                let ln = (16 * nmaxb + rng.between(0, 2)) as u32;
                image[11..14].copy_from_slice(&ln.to_be_bytes()[1..]);
            }
            9 => image[11] = rng.byte(),
            10 => {
                // Sums as large as they get.
                let from = rng.below(14);
                image[from..14].fill(0xFF);
            }
            _ => {
                let at = rng.below(16);
                image[at] ^= 1 << rng.below(8);
            }
        }
    }
    match rng.below(12) {
        0 => {}
        1 => {
            seal(&mut image);
            image[15] = image[15].wrapping_add(1);
        }
        2 => {
            seal(&mut image);
            image[14] ^= 1 << rng.below(8);
        }
        _ => seal(&mut image),
    }
    image
}

/// An image for a case: a tag, a damaged one, or one of a wrong length.
pub fn any(rng: &mut Rng) -> Vec<u8> {
    match rng.below(40) {
        0 | 1 => default(),
        2 => {
            let mut image = damaged(rng);
            image.truncate(rng.below(image.len() + 1));
            image
        }
        3 => {
            let mut image = valid(rng);
            let len = rng.pick(&[0, 1, 15, 17, 31, 4095, 4097, 4112, 4200]);
            let filler = rng.byte();
            image.resize(len, filler);
            image
        }
        4..=14 => damaged(rng),
        _ => valid(rng),
    }
}

/// An image for a case of lists: more often a tag that reads.
pub fn for_lists(rng: &mut Rng) -> Vec<u8> {
    match rng.below(10) {
        0..=4 => any(rng),
        _ => valid(rng),
    }
}

/// The message on a tag and the tag's capacity; empty and 0 if the tag is refused.
pub fn message_and_capacity(image: &[u8]) -> (Vec<u8>, usize) {
    match type3::read(image) {
        Ok(answer) => (
            answer.message(image, &[]).to_vec(),
            answer.capacity as usize,
        ),
        Err(_) => (Vec::new(), 0),
    }
}
