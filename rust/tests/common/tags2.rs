//! Type 2 tags to test with: the specimens, and random ones, valid or damaged.

use super::layout2::Layout;
use super::{damaged_version, version, Rng};
use crate::reference::type2;

/// Past the last address of any image.
pub const END: usize = 1024;

/// An image of `len` bytes with this container size, the given bytes from 16 on and 00h elsewhere.
pub fn plain(len: usize, size: u8, data: &[u8]) -> Vec<u8> {
    let mut image = vec![0; len];
    image[12..16].copy_from_slice(&[0xE1, 0x10, size, 0x00]);
    image[16..16 + data.len()].copy_from_slice(data);
    image
}

/// Tags as they leave the factory.
pub fn defaults() -> Vec<Vec<u8>> {
    let lock = [0x01, 0x03, 0xA0, 0x0C, 0x34, 0x03, 0x00, 0xFE];
    vec![
        plain(64, 0x06, &[0x03, 0x00, 0xFE]),
        plain(180, 0x12, &lock),
        plain(540, 0x3E, &[0x03, 0x00, 0xFE]),
        plain(924, 0x6D, &[0x03, 0x00, 0xFE]),
    ]
}

/// A tag with `u` usable bytes after the type byte: NULL TLVs lie before it.
pub fn with_usable(u: usize) -> Vec<u8> {
    let size = (u + 1).div_ceil(8);
    let end = 16 + 8 * size;
    let mut image = plain(end.max(64), size as u8, &[]);
    image[end - 1 - u] = 0x03;
    image
}

/// The specimen tags of the page.
pub fn specimens() -> Vec<Vec<u8>> {
    let message = plain(64, 6, &[0x03, 0x03, 0xD0, 0x00, 0x00, 0xFE]);
    let size_0 = plain(64, 0, &[0x03, 0x00, 0xFE]);
    let bad_length = plain(64, 6, &[0x03, 0xFF, 0x00, 0xFE]);
    let mut last_byte = plain(64, 6, &[]);
    last_byte[63] = 0x03;
    let mut interrupted = plain(64, 6, &[0x02, 0x03, 0x18, 0x04, 0x04, 0x03, 0x03, 0xD0]);
    interrupted[24..31].copy_from_slice(&[0xAA, 0xBB, 0xCC, 0xDD, 0x00, 0x00, 0xFE]);
    let mut all = defaults();
    all.extend([message, size_0, bad_length, last_byte, interrupted]);
    all.extend([255, 256, 257, 258].map(with_usable));
    all
}

/// A length of an image.
fn image_len(rng: &mut Rng) -> usize {
    match rng.below(10) {
        0..=2 => rng.pick(&[64, 180, 540, 924, 1024]),
        3..=6 => 4 * rng.between(16, 48),
        7 => 4 * rng.between(68, 76),
        _ => 4 * rng.between(16, 256),
    }
}

/// A tag that is meant to read, with areas of all kinds.
pub fn valid(rng: &mut Rng) -> Vec<u8> {
    let len = image_len(rng);
    let mut image = match rng.below(4) {
        0 => vec![0; len],
        1 => vec![rng.pick(&[0x03, 0xFE, 0xFF, 0x01]); len],
        _ => rng.bytes(len),
    };
    let most = (len - 16) / 8;
    let size = match rng.below(10) {
        0 => rng.below(most + 1),
        1 => most.saturating_sub(1),
        _ => most,
    };
    let access = if rng.percent(94) { 0x00 } else { 0x0F };
    image[12..16].copy_from_slice(&[0xE1, version(rng), size as u8, access]);
    let mut layout = Layout::new(image, size);

    let before = match rng.below(8) {
        0..=2 => 0,
        3 | 4 => 1,
        5 | 6 => rng.between(2, 6),
        _ => rng.between(7, 60),
    };
    for _ in 0..before {
        if layout.free() < 14 {
            break;
        }
        match rng.below(10) {
            0 => layout.put(0x00),
            1 => layout.other(rng),
            _ => layout.area(rng),
        };
    }
    message_tlv(rng, &mut layout);
    layout.image
}

/// A message TLV, mostly one that fits.
fn message_tlv(rng: &mut Rng, layout: &mut Layout) {
    if !layout.put(0x03) {
        return;
    }
    let free = layout.free();
    let n = match rng.below(12) {
        0..=2 => 0,
        3 => free.saturating_sub(1),
        4 => free.saturating_sub(3),
        5 => rng.between(253, 257),
        6 => free + rng.below(4),
        _ => rng.below(free.max(1)).min(rng.between(1, 300)),
    };
    // Where nothing is put, the bytes beneath stay, which gives lengths of all kinds.
    let _ = rng.percent(96)
        && layout.length(n)
        && (0..n).all(|_| layout.put(rng.byte()))
        && rng.percent(80)
        && layout.put(0xFE);
}

/// A tag full of control TLVs before its message TLV.
pub fn crowded(rng: &mut Rng, areas: usize) -> Vec<u8> {
    let mut image = rng.bytes(1024);
    image[12..16].copy_from_slice(&[0xE1, version(rng), 126, 0x00]);
    let mut layout = Layout::new(image, 126);
    let tail = 16 + 5 * areas + 2;
    for _ in 0..areas {
        let wish = match rng.below(3) {
            0 => rng.between(tail, 1023.max(tail)),
            1 => rng.between(1024, 4000),
            _ => 64 * rng.between(tail.div_ceil(64), 16) + rng.below(16),
        };
        let size = rng.between(1, 3) as u8;
        layout.control(rng, wish.max(960), size);
    }
    message_tlv(rng, &mut layout);
    layout.image
}

/// Something that is meant to be refused, or to differ from a tag in a byte or two.
pub fn damaged(rng: &mut Rng) -> Vec<u8> {
    let mut image = valid(rng);
    for _ in 0..rng.between(1, 2) {
        match rng.below(14) {
            0 => image[12] = rng.byte(),
            1 => image[13] = damaged_version(rng),
            2 => image[15] = rng.byte(),
            3 => image[14] = rng.byte(),
            4 => image[14] = ((image.len() - 16) / 8 + rng.below(3)) as u8,
            5 => {
                let at = rng.between(16, 30);
                image[at] = rng.pick(&[0x00, 0x01, 0x02, 0x03, 0xFE, 0xFF]);
            }
            6 => image[16..].fill(0x00),
            7 => {
                // A TLV that the data area's end may cut.
                let end = (16 + 8 * image[14] as usize).min(image.len());
                let tlv = match rng.below(4) {
                    0 => [0x03, rng.below(8) as u8, 1, 2, 3],
                    1 => [rng.pick(&[0x03, 0x55]), 0xFF, 0x01, rng.byte(), 0x00],
                    _ => [
                        rng.pick(&[0x01, 0x02]),
                        0x03,
                        0x88,
                        0x04,
                        rng.pick(&[0x14, 0x10]),
                    ],
                };
                let start = end.saturating_sub(rng.between(1, 7)).max(16);
                image[16..].fill(0x00);
                for (to, byte) in image[start..end].iter_mut().zip(tlv) {
                    *to = byte;
                }
            }
            8 => image[16..20].copy_from_slice(&[rng.pick(&[1, 2]), rng.byte(), 0x14, 4]),
            9 => image[16..21].copy_from_slice(&[rng.pick(&[1, 2]), 3, 0x88, 4, rng.byte()]),
            10 => {
                let low = rng.pick(&[0xFE, 0xFF, 0x00, 0x2A]);
                let high = rng.pick(&[0, 0, 1, 0xFF]);
                image[16..20].copy_from_slice(&[rng.pick(&[3, 0x55]), 0xFF, high, low]);
            }
            _ => {
                let at = rng.below(image.len());
                image[at] ^= 1 << rng.below(8);
            }
        }
    }
    image
}

/// An image for a case: a tag, a damaged one, or one of a wrong length.
pub fn any(rng: &mut Rng) -> Vec<u8> {
    match rng.below(40) {
        0..=2 => {
            let defaults = defaults();
            defaults[rng.below(defaults.len())].clone()
        }
        3..=4 => {
            let areas = rng.between(150, 190);
            crowded(rng, areas)
        }
        5 => {
            let mut image = damaged(rng);
            image.truncate(rng.below(image.len() + 1));
            image
        }
        6 => {
            let mut image = valid(rng);
            let len = rng.pick(&[0, 12, 16, 60, 63, 65, 66, 1023, 1025, 1028, 1100]);
            let filler = rng.byte();
            image.resize(len, filler);
            image
        }
        7..=15 => damaged(rng),
        _ => valid(rng),
    }
}

/// An image for a case of lists: more often a tag that reads.
pub fn for_lists(rng: &mut Rng) -> Vec<u8> {
    match rng.below(10) {
        0..=4 => any(rng),
        _ => valid(rng),
    }
}

/// The message on a tag and the tag's capacity; empty and 0 if the tag is refused.
pub fn message_and_capacity(image: &[u8]) -> (Vec<u8>, usize) {
    let mut gathered = [0; END];
    match type2::read(image, &mut gathered) {
        Ok(answer) => (
            answer.message(image, &gathered).to_vec(),
            answer.capacity as usize,
        ),
        Err(_) => (Vec::new(), 0),
    }
}
