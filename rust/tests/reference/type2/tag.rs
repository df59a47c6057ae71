//! Type 2: reading, which is the tests 1 to 5, the walk to the message TLV, and the message.

use super::{BLOCK, DATA_START, MAX_IMAGE, TERMINATOR};
use crate::reference::{known_version, Content, ReadAnswer, Refusal};

/// The walk over the data area. `skip` marks the addresses that a control TLV has taken out.
struct Walk<'a> {
    image: &'a [u8],
    end: usize,
    place: usize,
    skip: [bool; MAX_IMAGE],
    any_skipped: bool,
}

impl Walk<'_> {
    /// Takes the next usable byte and returns its address.
    fn next(&mut self) -> Option<usize> {
        while self.place < self.end && self.skip[self.place] {
            self.place += 1;
        }
        if self.place == self.end {
            return None;
        }
        self.place += 1;
        Some(self.place - 1)
    }

    fn take(&mut self) -> Result<u8, Refusal> {
        match self.next() {
            Some(address) => Ok(self.image[address]),
            None => Err(Refusal::new(7)),
        }
    }

    /// Takes `count` bytes without looking at them.
    fn pass(&mut self, count: usize) -> Result<(), Refusal> {
        if self.any_skipped {
            for _ in 0..count {
                self.next().ok_or(Refusal::new(7))?;
            }
        } else {
            if count > self.end - self.place {
                return Err(Refusal::new(7));
            }
            self.place += count;
        }
        Ok(())
    }

    fn length(&mut self) -> Result<usize, Refusal> {
        let short = self.take()?;
        if short != 0xFF {
            return Ok(short as usize);
        }
        match u16::from_be_bytes([self.take()?, self.take()?]) {
            long @ 255..=65_534 => Ok(long as usize),
            _ => Err(Refusal::new(7)),
        }
    }

    /// Length and value of a control TLV; its area is skipped from here on.
    fn control(&mut self, lock: bool) -> Result<(), Refusal> {
        if self.take()? != 3 {
            return Err(Refusal::new(6));
        }
        let value = [self.take()?, self.take()?, self.take()?];
        let (high, power) = (value[2] >> 4, value[2] & 0x0F);
        if power == 0 || (lock && high == 0) {
            return Err(Refusal::new(6));
        }
        let start = ((value[0] >> 4) as usize) << power;
        let start = start + (value[0] & 0x0F) as usize;
        let size = match value[1] {
            0 => 256,
            given => given as usize,
        };
        let size = if lock { size.div_ceil(8) } else { size };
        let (from, to) = (start.max(self.place), (start + size).min(self.end));
        if from < to {
            self.skip[from..to].fill(true);
            self.any_skipped = true;
        }
        Ok(())
    }
}

/// A tag whose walk has reached its message TLV.
pub struct Tag<'a> {
    walk: Walk<'a>,
    pub writable: bool,
    /// The address after the TLV's type byte.
    after_type: usize,
    length: usize,
    /// First and last address of the message; meaningless if `length` is 0.
    first: usize,
    last: usize,
}

impl<'a> Tag<'a> {
    /// Tests 1 to 8.
    pub fn scan(image: &'a [u8]) -> Result<Self, Refusal> {
        if !image.len().is_multiple_of(BLOCK) || !(64..=MAX_IMAGE).contains(&image.len()) {
            return Err(Refusal::new(1));
        }
        if image[12] != 0xE1 {
            return Err(Refusal::new(2));
        }
        if !known_version(image[13]) {
            return Err(Refusal::new(3));
        }
        let writable = match image[15] {
            0x00 => true,
            0x0F => false,
            _ => return Err(Refusal::new(4)),
        };
        let end = DATA_START + 8 * image[14] as usize;
        if end > image.len() {
            return Err(Refusal::new(5));
        }

        let mut walk = Walk {
            image,
            end,
            place: DATA_START,
            skip: [false; MAX_IMAGE],
            any_skipped: false,
        };
        loop {
            let Some(address) = walk.next() else {
                return Err(Refusal::new(8));
            };
            match image[address] {
                0x00 => {}
                0x01 => walk.control(true)?,
                0x02 => walk.control(false)?,
                0x03 => break,
                TERMINATOR => return Err(Refusal::new(8)),
                _ => {
                    let length = walk.length()?;
                    walk.pass(length)?;
                }
            }
        }

        let after_type = walk.place;
        let length = walk.length()?;
        let (mut first, mut last) = (0, 0);
        if length > 0 {
            first = walk.next().ok_or(Refusal::new(7))?;
            walk.pass(length - 1)?;
            last = walk.place - 1;
        }
        Ok(Tag {
            walk,
            writable,
            after_type,
            length,
            first,
            last,
        })
    }

    fn interrupted(&self) -> bool {
        self.length > 0 && self.last - self.first >= self.length
    }

    /// The usable addresses from one address to before another.
    fn usable(&self, from: usize, to: usize) -> impl Iterator<Item = usize> + '_ {
        (from..to).filter(|&address| !self.walk.skip[address])
    }

    /// The greatest length that fits in the usable bytes after the type byte.
    fn capacity(&self) -> usize {
        let end = self.walk.end;
        let usable = if self.walk.any_skipped {
            self.usable(self.after_type, end).count()
        } else {
            end - self.after_type
        };
        match usable {
            0..=254 => usable - 1,
            255..=257 => 254,
            _ => usable - 3,
        }
    }

    /// The usable addresses after the type byte.
    pub fn places(&self) -> Vec<usize> {
        let mut places = Vec::with_capacity(self.walk.end - self.after_type);
        places.extend(self.usable(self.after_type, self.walk.end));
        places
    }
}

/// Reads a tag; an interrupted message is gathered in the front of `gathered`.
pub fn read(image: &[u8], gathered: &mut [u8]) -> Result<ReadAnswer, Refusal> {
    let tag = Tag::scan(image)?;
    let interrupted = tag.interrupted();
    if interrupted {
        if gathered.len() < tag.length {
            return Err(Refusal::new(13));
        }
        for (to, address) in gathered.iter_mut().zip(tag.usable(tag.first, tag.last + 1)) {
            *to = image[address];
        }
    }
    Ok(ReadAnswer {
        content: match tag.length {
            0 => Content::Empty,
            _ => Content::Message,
        },
        address: tag.first as u64,
        length: tag.length as u64,
        interrupted,
        writable: tag.writable,
        capacity: tag.capacity() as u64,
    })
}
