//! Type 3: reading, by the attribute information in block 0.

use super::{BEING_WRITTEN, BLOCK, MAX_IMAGE, WRITE_FLAG};
use crate::reference::{known_version, Content, ReadAnswer, Refusal};

/// What block 0 says.
#[derive(Clone, Copy, Debug)]
pub struct AttributeInformation {
    pub nbw: u8,
    pub nmaxb: u16,
    pub being_written: bool,
    pub writable: bool,
    pub length: usize,
}

impl AttributeInformation {
    /// Tests 1 to 7.
    pub fn of(image: &[u8]) -> Result<Self, Refusal> {
        if !image.len().is_multiple_of(BLOCK) || !(BLOCK..=MAX_IMAGE).contains(&image.len()) {
            return Err(Refusal::new(1));
        }
        if image[14..16] != checksum(image) {
            return Err(Refusal::new(2));
        }
        if !known_version(image[0]) {
            return Err(Refusal::new(3));
        }
        let (nbr, nbw) = (image[1], image[2]);
        let being_written = match image[WRITE_FLAG] {
            0x00 => false,
            BEING_WRITTEN => true,
            _ => return Err(Refusal::new(4)),
        };
        let read_write = match image[10] {
            0x00 => false,
            0x01 => true,
            _ => return Err(Refusal::new(4)),
        };
        if nbr == 0 {
            return Err(Refusal::new(4));
        }
        let nmaxb = u16::from_be_bytes([image[3], image[4]]);
        if BLOCK * (1 + nmaxb as usize) > image.len() {
            return Err(Refusal::new(5));
        }
        let length = u32::from_be_bytes([0, image[11], image[12], image[13]]) as usize;
        if length > BLOCK * nmaxb as usize {
            return Err(Refusal::new(7));
        }
        Ok(AttributeInformation {
            nbw,
            nmaxb,
            being_written,
            writable: read_write && nbw >= 1,
            length,
        })
    }

    /// The greatest length that fits.
    pub fn capacity(&self) -> usize {
        BLOCK * self.nmaxb as usize
    }

    /// The message of the image that this attribute information comes from, if it holds one.
    pub fn message<'a>(&self, image: &'a [u8]) -> Option<&'a [u8]> {
        if self.being_written || self.length == 0 {
            None
        } else {
            Some(&image[BLOCK..BLOCK + self.length])
        }
    }
}

/// The sum of bytes 0 to 13, high byte first.
pub fn checksum(block: &[u8]) -> [u8; 2] {
    let sum: u16 = block[..14].iter().map(|&byte| byte as u16).sum();
    sum.to_be_bytes()
}

/// Reads a tag.
pub fn read(image: &[u8]) -> Result<ReadAnswer, Refusal> {
    let information = AttributeInformation::of(image)?;
    let (content, address, length) = if information.being_written {
        (Content::BeingWritten, 0, 0)
    } else if information.length == 0 {
        (Content::Empty, 0, 0)
    } else {
        (Content::Message, BLOCK as u64, information.length as u64)
    };
    Ok(ReadAnswer {
        content,
        address,
        length,
        interrupted: false,
        writable: information.writable,
        capacity: information.capacity() as u64,
    })
}
