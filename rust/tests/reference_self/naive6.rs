//! The naive form of E2 of docs/02-change-requests.md, with E4, for Type 6, to check the reference.
//! It is as near to the words as possible and without regard to speed. Addresses are tested one by
//! one, and every cut is read from the start.

use std::collections::BTreeSet;

use crate::full_list::Full;
use crate::reference::Refusal;

/// What a tag gives.
pub struct Tag {
    pub blocks: usize,
    pub size: usize,
    pub writable: bool,
    /// The address of NLEN's low byte.
    pub file: usize,
    pub m: usize,
    pub nlen: usize,
}

pub fn read(image: &[u8]) -> Result<Tag, u8> {
    if image.len() < 8 || image.len() > 8192 {
        return Err(1);
    }
    let at = |i: usize| image[i] as usize;
    if (at(0), at(1), at(2)) != (0x4E, 0x44, 0x45) {
        return Err(2);
    }
    if at(3) != 0x10 {
        return Err(3);
    }
    if at(6) != 0x00 && at(6) != 0xFF {
        return Err(4);
    }
    let (blocks, size, max_len) = (at(4) + 1, at(5) % 32 + 1, at(7));
    let container: BTreeSet<usize> = (0..8).map(|address| address / size).collect();
    if image.len() != blocks * size {
        return Err(5);
    }
    if max_len as i64 > blocks as i64 - container.len() as i64 {
        return Err(5);
    }
    let m = max_len as i64 * size as i64 - 2;
    if m < 0 {
        return Err(7);
    }
    // The next block after the eight bytes.
    let file = (8..).find(|address| address % size == 0).unwrap();
    let nlen = at(file) + 256 * at(file + 1);
    if nlen as i64 > m {
        return Err(7);
    }
    Ok(Tag {
        blocks,
        size,
        writable: at(6) == 0x00,
        file,
        m: m as usize,
        nlen,
    })
}

fn message_on(image: &[u8]) -> Result<Vec<u8>, u8> {
    let tag = read(image)?;
    Ok((0..tag.nlen).map(|i| image[tag.file + 2 + i]).collect())
}

/// The addresses of NLEN and of a message of `n` bytes.
pub fn to_set(tag: &Tag, n: usize) -> BTreeSet<usize> {
    let nlen = [tag.file, tag.file + 1];
    let message = (0..n).map(|i| tag.file + 2 + i);
    nlen.into_iter().chain(message).collect()
}

/// The block of a command if it is well formed on this tag.
pub fn well_formed(tag: &Tag, command: &[u8]) -> Option<usize> {
    if command.len() != 3 + tag.size || command[0] != 0x02 || command[1] != 0x21 {
        return None;
    }
    let block = command[2] as usize;
    (block < tag.blocks).then_some(block)
}

/// Cuts a list into commands.
pub fn cut_list<'a>(tag: &Tag, list: &'a [u8]) -> Vec<&'a [u8]> {
    let mut commands = Vec::new();
    let mut at = 0;
    while at < list.len() {
        let end = list.len().min(at + 3 + tag.size);
        commands.push(&list[at..end]);
        at = end;
    }
    commands
}

/// What writing and judging ask of a tag and a message before anything else.
fn ready(image: &[u8], message: &[u8]) -> Result<Tag, u8> {
    let tag = read(image)?;
    if message.is_empty() {
        return Err(9);
    }
    if !tag.writable {
        return Err(10);
    }
    if tag.size == 1 {
        return Err(14);
    }
    if message.len() > tag.m {
        return Err(11);
    }
    Ok(tag)
}

/// Whether NLEN is zero, and the tag with NLEN zero.
pub fn shut(image: &[u8], tag: &Tag) -> (bool, Vec<u8>) {
    let mut shut = image.to_vec();
    shut[tag.file] = 0x00;
    shut[tag.file + 1] = 0x00;
    (tag.nlen == 0, shut)
}

pub fn full_list(image: &[u8], message: &[u8]) -> Result<Full, u8> {
    let tag = ready(image, message)?;
    let n = message.len();
    let mut new = image.to_vec();
    new[tag.file] = (n % 256) as u8;
    new[tag.file + 1] = (n / 256) as u8;
    for (i, &byte) in message.iter().enumerate() {
        new[tag.file + 2 + i] = byte;
    }
    let (is_shut, shut) = shut(image, &tag);
    Ok(Full {
        block_size: tag.size,
        guard: tag.file / tag.size,
        is_shut,
        image: image.to_vec(),
        shut,
        new,
        to_set: to_set(&tag, n),
    })
}

pub fn judge(image: &[u8], message: &[u8], list: &[u8]) -> Result<usize, Refusal> {
    let tag = ready(image, message).map_err(Refusal::new)?;
    let set = to_set(&tag, message.len());
    let old = message_on(image).unwrap();
    let mut cut = image.to_vec();
    let commands = cut_list(&tag, list);
    for (i, command) in commands.iter().enumerate() {
        let Some(block) = well_formed(&tag, command) else {
            return Err(Refusal::at(20, i));
        };
        let before = cut.clone();
        for j in 0..tag.size {
            cut[tag.size * block + j] = command[3 + j];
        }
        if (0..cut.len()).any(|a| cut[a] != before[a] && !set.contains(&a)) {
            return Err(Refusal::at(21, i));
        }
        match message_on(&cut) {
            Ok(now) if now.is_empty() || now == old || now == message => {}
            _ => return Err(Refusal::at(22, i)),
        }
    }
    match message_on(&cut) {
        Ok(now) if now == message => Ok(commands.len()),
        _ => Err(Refusal::at(23, commands.len())),
    }
}
