//! The naive form of docs/01-scope.md, with E1 and E4 of docs/02-change-requests.md, for Type 2, to
//! check the reference. It is as near to the words as possible and without regard to speed. Addresses are
//! tested one by one, and every cut is read from the start.

use std::collections::BTreeSet;

use crate::full_list::Full;
use crate::reference::Refusal;

/// What a tag gives; an empty message TLV has no value addresses.
pub struct Tag {
    pub writable: bool,
    /// The usable addresses after the type byte.
    pub usable: Vec<usize>,
    /// The addresses of the message.
    pub value: Vec<usize>,
}

struct Stream<'a> {
    image: &'a [u8],
    end: usize,
    at: usize,
    areas: Vec<(usize, usize)>,
}

impl Stream<'_> {
    fn covered(&self, address: usize) -> bool {
        self.areas
            .iter()
            .any(|&(start, size)| start <= address && address < start + size)
    }

    fn address(&mut self) -> Option<usize> {
        loop {
            if self.at >= self.end {
                return None;
            }
            self.at += 1;
            if !self.covered(self.at - 1) {
                return Some(self.at - 1);
            }
        }
    }

    fn byte(&mut self) -> Option<usize> {
        self.address().map(|address| self.image[address] as usize)
    }

    /// The addresses of a TLV's value; none for refusal 7.
    fn value(&mut self) -> Option<Vec<usize>> {
        let mut length = self.byte()?;
        if length == 0xFF {
            length = 256 * self.byte()? + self.byte()?;
            if !(255..=65_534).contains(&length) {
                return None;
            }
        }
        (0..length).map(|_| self.address()).collect()
    }
}

pub fn read(image: &[u8]) -> Result<Tag, u8> {
    let len = image.len();
    if !len.is_multiple_of(4) || !(64..=1024).contains(&len) {
        return Err(1);
    }
    if image[12] != 0xE1 {
        return Err(2);
    }
    if !(0x10..=0x1F).contains(&image[13]) {
        return Err(3);
    }
    if image[15] != 0x00 && image[15] != 0x0F {
        return Err(4);
    }
    let last = 15 + 8 * image[14] as usize;
    if last >= len {
        return Err(5);
    }
    let mut stream = Stream {
        image,
        end: last + 1,
        at: 16,
        areas: Vec::new(),
    };
    loop {
        let type_address = stream.address().ok_or(8)?;
        match image[type_address] {
            0x00 => continue,
            0xFE => return Err(8),
            kind @ (0x01 | 0x02) => {
                let length = stream.byte().ok_or(7)?;
                if length != 3 {
                    return Err(6);
                }
                let byte0 = stream.byte().ok_or(7)?;
                let byte1 = stream.byte().ok_or(7)?;
                let byte2 = stream.byte().ok_or(7)?;
                if byte2 % 16 == 0 {
                    return Err(6);
                }
                if kind == 0x01 && byte2 / 16 == 0 {
                    return Err(6);
                }
                let start = byte0 / 16 * 2usize.pow((byte2 % 16) as u32) + byte0 % 16;
                let size = if byte1 == 0 { 256 } else { byte1 };
                let bytes = if kind == 0x01 { size.div_ceil(8) } else { size };
                stream.areas.push((start, bytes));
            }
            0x03 => {
                let value = stream.value().ok_or(7)?;
                let usable = (type_address + 1..=last)
                    .filter(|&address| !stream.covered(address))
                    .collect();
                return Ok(Tag {
                    writable: image[15] == 0,
                    usable,
                    value,
                });
            }
            _ => {
                stream.value().ok_or(7)?;
            }
        }
    }
}

fn message_on(image: &[u8]) -> Result<Vec<u8>, u8> {
    let tag = read(image)?;
    Ok(tag.value.iter().map(|&address| image[address]).collect())
}

/// In the words of the page.
#[allow(clippy::int_plus_one)]
pub fn fits(n: usize, u: usize) -> bool {
    n <= 254 && 1 + n <= u || n >= 255 && 3 + n <= u
}

/// The bytes to set.
pub fn to_set(tag: &Tag, n: usize) -> BTreeSet<usize> {
    let length = if n <= 254 { 1 } else { 3 };
    tag.usable.iter().copied().take(length + n + 1).collect()
}

/// What writing and judging ask of a tag and a message before anything else.
fn ready(image: &[u8], message: &[u8]) -> Result<Tag, u8> {
    let tag = read(image)?;
    if message.is_empty() {
        return Err(9);
    }
    if !tag.writable {
        return Err(10);
    }
    if !fits(message.len(), tag.usable.len()) {
        return Err(11);
    }
    Ok(tag)
}

/// Whether the first length byte is already 00h, and the tag with that byte 00h.
pub fn shut(image: &[u8], tag: &Tag) -> (bool, Vec<u8>) {
    let length = tag.usable[0];
    let mut shut = image.to_vec();
    shut[length] = 0x00;
    (image[length] == 0x00, shut)
}

pub fn full_list(image: &[u8], message: &[u8]) -> Result<Full, u8> {
    let tag = ready(image, message)?;
    let n = message.len();
    let mut bytes = match n {
        0..=254 => vec![n as u8],
        _ => vec![0xFF, (n / 256) as u8, (n % 256) as u8],
    };
    bytes.extend(message);
    bytes.push(0xFE);
    let to_set = to_set(&tag, n);
    let mut new = image.to_vec();
    for (&address, byte) in to_set.iter().zip(bytes) {
        new[address] = byte;
    }
    let (is_shut, shut) = shut(image, &tag);
    Ok(Full {
        block_size: 4,
        guard: tag.usable[0] / 4,
        is_shut,
        image: image.to_vec(),
        shut,
        new,
        to_set,
    })
}

pub fn judge(image: &[u8], message: &[u8], list: &[u8]) -> Result<usize, Refusal> {
    let tag = ready(image, message).map_err(Refusal::new)?;
    let set = to_set(&tag, message.len());
    let old = message_on(image).unwrap();
    let mut cut = image.to_vec();
    let commands = list.chunks(6).count();
    for (i, command) in list.chunks(6).enumerate() {
        let well_formed = command.len() == 6
            && command[0] == 0xA2
            && command[1] >= 4
            && (command[1] as usize) < image.len() / 4;
        if !well_formed {
            return Err(Refusal::at(20, i));
        }
        let before = cut.clone();
        for j in 0..4 {
            cut[4 * command[1] as usize + j] = command[2 + j];
        }
        for address in 0..image.len() {
            if !set.contains(&address) && cut[address] != before[address] {
                return Err(Refusal::at(21, i));
            }
        }
        match message_on(&cut) {
            Ok(now) if now.is_empty() || now == old || now == message => {}
            _ => return Err(Refusal::at(22, i)),
        }
    }
    match message_on(&cut) {
        Ok(now) if now == message => Ok(commands),
        _ => Err(Refusal::at(23, commands)),
    }
}
