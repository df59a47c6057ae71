//! Type 6: the write list, and the judge of foreign lists.

use super::codec::well_formed;
use super::tag::Tag;
use super::{FLAGS, HEADER, NLEN, WRITE_SINGLE};
use crate::reference::Refusal;

/// Tests 1 to 11, with 14 before 11.
fn writable_for(image: &[u8], message: &[u8]) -> Result<Tag, Refusal> {
    let tag = Tag::of(image)?;
    if message.is_empty() {
        return Err(Refusal::new(9));
    }
    if !tag.writable {
        return Err(Refusal::new(10));
    }
    if tag.block_size < 2 {
        return Err(Refusal::new(14));
    }
    if message.len() > tag.capacity {
        return Err(Refusal::new(11));
    }
    Ok(tag)
}

/// Writes the commands that put `message` on the tag to `list`; returns how many there are. What
/// the tag already holds is left out.
pub fn write(image: &[u8], message: &[u8], list: &mut [u8]) -> Result<usize, Refusal> {
    let tag = writable_for(image, message)?;
    let (file, size) = (tag.file, tag.block_size);
    let end = file + NLEN + message.len();
    let (guard, blocks) = (file / size, end.div_ceil(size));

    let mut new = image[..blocks * size].to_vec();
    new[file..file + NLEN].copy_from_slice(&(message.len() as u16).to_le_bytes());
    new[file + NLEN..end].copy_from_slice(message);

    // The guard block comes last, whether it changes or not.
    let bytes = |block: usize| block * size..(block + 1) * size;
    let mut order = Vec::with_capacity(blocks - guard);
    order.extend((guard + 1..blocks).filter(|&b| image[bytes(b)] != new[bytes(b)]));
    order.push(guard);

    let shut = tag.length == 0;
    let count = usize::from(!shut) + order.len();
    let Some(mut list) = list.get_mut(..count * (HEADER + size)) else {
        return Err(Refusal::new(12));
    };
    let put = |command: &mut [u8], block: usize, image: &[u8]| {
        command[..HEADER].copy_from_slice(&[FLAGS, WRITE_SINGLE, block as u8]);
        command[HEADER..].copy_from_slice(&image[bytes(block)]);
    };
    if !shut {
        let (first, rest) = list.split_at_mut(HEADER + size);
        put(first, guard, image);
        first[HEADER..HEADER + NLEN].fill(0);
        list = rest;
    }
    for (command, block) in list.chunks_exact_mut(HEADER + size).zip(order) {
        put(command, block, &new);
    }
    Ok(count)
}

/// Judges a list that somebody else made for writing `message`; returns how many commands it has.
pub fn judge(image: &[u8], message: &[u8], list: &[u8]) -> Result<usize, Refusal> {
    let tag = writable_for(image, message)?;
    let old = tag.message(image);
    let size = tag.block_size;
    let to_set = tag.file..tag.file + NLEN + message.len();
    let mut now = image.to_vec();

    let mut count = 0;
    for command in list.chunks(HEADER + size) {
        let Some((block, data)) = well_formed(command, size, tag.blocks as u64) else {
            return Err(Refusal::at(20, count));
        };
        let held = &mut now[block * size..(block + 1) * size];
        // The part of the block that may change; it is empty outside the file.
        let start = to_set.start.saturating_sub(block * size).min(size);
        let end = to_set.end.saturating_sub(block * size).min(size);
        if data[..start] != held[..start] || data[end..] != held[end..] {
            return Err(Refusal::at(21, count));
        }
        held.copy_from_slice(data);
        match Tag::of(&now).map(|tag| tag.message(&now)) {
            Ok(reading) if reading.is_none() || reading == old || reading == Some(message) => {}
            _ => return Err(Refusal::at(22, count)),
        }
        count += 1;
    }

    match Tag::of(&now) {
        Ok(tag) if tag.message(&now) == Some(message) => Ok(count),
        _ => Err(Refusal::at(23, count)),
    }
}
