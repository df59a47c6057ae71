//! Type 6 tags to test with: the specimens, and random ones, valid or damaged.

use super::Rng;
use crate::reference::type6;

/// The length of the longest image.
const LONGEST: usize = 8192;

/// Block sizes at or next to which something changes.
const SIZES: [usize; 9] = [2, 3, 4, 5, 7, 8, 16, 31, 32];

/// The block size that an image states; 4 if it is too short to state one.
pub fn block_size(image: &[u8]) -> usize {
    image.get(5).map_or(4, |byte| byte % 32 + 1) as usize
}

/// How many blocks the container takes.
pub fn container_blocks(size: usize) -> usize {
    8usize.div_ceil(size)
}

/// The address of the file.
pub fn file(size: usize) -> usize {
    size * container_blocks(size)
}

/// An image of so many blocks of this size: a container with the greatest MAX_LEN, the given bytes
/// from the file's start on and 00h elsewhere.
pub fn plain(blocks: usize, size: usize, data: &[u8]) -> Vec<u8> {
    let mut image = vec![0; blocks * size];
    let max_len = blocks - container_blocks(size);
    let sizes = [(blocks - 1) as u8, (size - 1) as u8, 0x00, max_len as u8];
    image[..4].copy_from_slice(&[0x4E, 0x44, 0x45, 0x10]);
    image[4..8].copy_from_slice(&sizes);
    image[file(size)..file(size) + data.len()].copy_from_slice(data);
    image
}

/// A tag as it leaves the factory: 32 blocks of 4 bytes.
pub fn default() -> Vec<u8> {
    plain(32, 4, &[])
}

/// The examples of source document 003: the empty NDEF message (A.1), a URL (A.2).
pub fn examples() -> [Vec<u8>; 2] {
    let mut url = vec![0x12, 0x00, 0xD1, 0x01, 0x0E, 0x55, 0x01];
    url.extend(b"nfc-forum.org");
    [
        plain(32, 4, &[0x03, 0x00, 0xD0, 0x00, 0x00]),
        plain(32, 4, &url),
    ]
}

/// Writes NLEN, if the image goes that far.
pub fn set_nlen(image: &mut [u8], nlen: usize) {
    let at = file(block_size(image));
    if let Some(bytes) = image.get_mut(at..at + 2) {
        bytes.copy_from_slice(&(nlen as u16).to_le_bytes());
    }
}

/// A tag with this block size that is meant to read. What nothing is said about is random: the
/// padding after the container, the bytes after the message, the RFU bits.
pub fn sized(rng: &mut Rng, size: usize) -> Vec<u8> {
    let container = container_blocks(size);
    let blocks = match rng.below(12) {
        0 => 256,
        1 => rng.between(container, 256),
        2 => container + 1,
        3 | 4 => container + rng.between(1, 4),
        _ => container + rng.between(1, 24),
    };
    let mut image = match rng.below(3) {
        0 => vec![rng.pick(&[0x00, 0xFF]); blocks * size],
        _ => rng.bytes(blocks * size),
    };
    let most = blocks - container;
    let max_len = match rng.below(12) {
        0 => rng.below(most + 1),
        1 => most.min(1),
        2 => most.saturating_sub(1),
        _ => most,
    };
    let capacity = (max_len * size).saturating_sub(2);
    let nlen = match rng.below(12) {
        0..=2 => 0,
        3 => capacity,
        4 => capacity.saturating_sub(rng.below(size + 1)),
        5 => capacity.min(1),
        6 | 7 => rng.between(254, 257).min(capacity),
        _ => rng.below(capacity + 1),
    };
    let rfu = if rng.percent(30) { rng.byte() << 5 } else { 0 };
    let access = if rng.percent(92) { 0x00 } else { 0xFF };
    image[..4].copy_from_slice(b"NDE\x10");
    image[4] = (blocks - 1) as u8;
    image[5] = (size - 1) as u8 | rfu;
    image[6] = access;
    image[7] = max_len as u8;
    set_nlen(&mut image, nlen);
    image
}

/// A tag of any block size that is meant to read.
pub fn valid(rng: &mut Rng) -> Vec<u8> {
    let size = match rng.below(16) {
        0 => 1,
        1..=9 => rng.pick(&SIZES),
        _ => rng.between(1, 32),
    };
    sized(rng, size)
}

/// A tag that is meant to read and that can be written.
pub fn writable(rng: &mut Rng) -> Vec<u8> {
    let size = match rng.below(2) {
        0 => rng.pick(&SIZES),
        _ => rng.between(2, 32),
    };
    let mut image = sized(rng, size);
    image[6] = 0x00;
    image
}

/// Something that is meant to be refused, or to differ from a tag in a byte or two.
pub fn damaged(rng: &mut Rng) -> Vec<u8> {
    let mut image = valid(rng);
    let size = block_size(&image);
    let most = image.len() / size - container_blocks(size);
    for _ in 0..rng.pick(&[0, 1, 1, 1, 2]) {
        let capacity = (image[7] as usize * size).saturating_sub(2);
        match rng.below(14) {
            0 => image[rng.below(3)] ^= 1 << rng.below(8),
            1 => image[rng.below(3)] = rng.pick(b"NDEFnde"),
            2 => image[3] = rng.pick(&[0x00, 0x01, 0x0F, 0x11, 0x1F, 0x20]),
            3 => image[3] = rng.byte(),
            4 => image[6] = rng.pick(&[0x01, 0x0F, 0x7F, 0x80, 0xF0, 0xFE]),
            5 => image[6] = rng.byte(),
            6 => image[4] = image[4].wrapping_add(rng.pick(&[1, 0xFF])),
            7 => image[5] = image[5].wrapping_add(rng.pick(&[1, 0x1F, 0xFF])),
            8 => image[7] = (most + rng.between(0, 2)) as u8,
            9 => image[7] = rng.pick(&[0, 0, 1, 0xFF]),
            10 | 11 => set_nlen(&mut image, capacity + rng.between(0, 3)),
            12 => set_nlen(&mut image, capacity + rng.between(256, 2000)),
            _ => image[rng.below(8)] ^= 1 << rng.below(8),
        }
    }
    match rng.below(14) {
        0 => image.truncate(image.len() - size),
        1 => image.extend(rng.bytes(size)),
        2 => image.truncate(image.len() - 1),
        3 => image.push(rng.byte()),
        _ => {}
    }
    image
}

/// An image for a case: a tag, a damaged one, or one of a wrong length.
pub fn any(rng: &mut Rng) -> Vec<u8> {
    match rng.below(40) {
        0 => default(),
        1 => examples()[rng.below(2)].clone(),
        2 => {
            let mut image = damaged(rng);
            let most = rng.pick(&[9, image.len() + 1]);
            image.truncate(rng.below(most));
            image
        }
        3 => {
            let mut image = valid(rng);
            let len = rng.pick(&[0, 1, 7, 8, 9, LONGEST - 1, LONGEST, LONGEST + 1, 9000]);
            let filler = rng.byte();
            image.resize(len, filler);
            image
        }
        4..=15 => damaged(rng),
        _ => valid(rng),
    }
}

/// An image for a case of lists: more often a tag that reads.
pub fn for_lists(rng: &mut Rng) -> Vec<u8> {
    match rng.below(10) {
        0..=4 => any(rng),
        _ => valid(rng),
    }
}

/// The message on a tag and the tag's capacity; empty and 0 if the tag is refused.
pub fn message_and_capacity(image: &[u8]) -> (Vec<u8>, usize) {
    match type6::read(image) {
        Ok(answer) => (
            answer.message(image, &[]).to_vec(),
            answer.capacity as usize,
        ),
        Err(_) => (Vec::new(), 0),
    }
}

/// A message to write: often one that ends where a block does, or next to that.
pub fn message(rng: &mut Rng, image: &[u8], old: &[u8], capacity: usize) -> Vec<u8> {
    if capacity == 0 || rng.percent(75) {
        return super::message(rng, old, capacity);
    }
    let size = block_size(image);
    let end = size * rng.between(1, (capacity + 2) / size);
    let len = (end + rng.below(3)).saturating_sub(3);
    rng.bytes(len.clamp(1, capacity))
}
