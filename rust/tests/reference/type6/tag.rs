//! Type 6: reading, by the container and NLEN.

use super::{CONTAINER, MAX_IMAGE, NLEN};
use crate::reference::{Content, ReadAnswer, Refusal};

/// What the container says, with NLEN.
#[derive(Clone, Copy, Debug)]
pub struct Tag {
    pub block_size: usize,
    pub blocks: usize,
    pub writable: bool,
    /// The address of the file, which starts with NLEN.
    pub file: usize,
    /// The greatest length that fits.
    pub capacity: usize,
    pub length: usize,
}

impl Tag {
    /// Tests 1 to 7.
    pub fn of(image: &[u8]) -> Result<Self, Refusal> {
        if !(CONTAINER..=MAX_IMAGE).contains(&image.len()) {
            return Err(Refusal::new(1));
        }
        if image[..3] != *b"NDE" {
            return Err(Refusal::new(2));
        }
        if image[3] != 0x10 {
            return Err(Refusal::new(3));
        }
        let blocks = image[4] as usize + 1;
        let block_size = (image[5] & 0x1F) as usize + 1;
        let writable = match image[6] {
            0x00 => true,
            0xFF => false,
            _ => return Err(Refusal::new(4)),
        };
        let max_len = image[7] as usize;
        let before_file = CONTAINER.div_ceil(block_size);
        if image.len() != blocks * block_size || before_file + max_len > blocks {
            return Err(Refusal::new(5));
        }
        let Some(capacity) = (max_len * block_size).checked_sub(NLEN) else {
            return Err(Refusal::new(7));
        };
        let file = before_file * block_size;
        let length = u16::from_le_bytes([image[file], image[file + 1]]) as usize;
        if length > capacity {
            return Err(Refusal::new(7));
        }
        Ok(Tag {
            block_size,
            blocks,
            writable,
            file,
            capacity,
            length,
        })
    }

    /// The message of the image that this comes from, if it holds one.
    pub fn message<'a>(&self, image: &'a [u8]) -> Option<&'a [u8]> {
        let start = self.file + NLEN;
        (self.length > 0).then(|| &image[start..start + self.length])
    }
}

/// Reads a tag.
pub fn read(image: &[u8]) -> Result<ReadAnswer, Refusal> {
    let tag = Tag::of(image)?;
    let (content, address) = match tag.length {
        0 => (Content::Empty, 0),
        _ => (Content::Message, tag.file + NLEN),
    };
    Ok(ReadAnswer {
        content,
        address: address as u64,
        length: tag.length as u64,
        interrupted: false,
        writable: tag.writable,
        capacity: tag.capacity as u64,
    })
}
