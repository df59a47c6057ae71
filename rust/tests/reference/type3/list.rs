//! Type 3: the write list, and the judge of foreign lists.

use super::codec::{well_formed, Limits};
use super::tag::{checksum, AttributeInformation};
use super::{BEING_WRITTEN, BLOCK, HEADER, MAX_COUNT, WRITE_FLAG};
use crate::reference::Refusal;

/// Tests 1 to 11.
fn writable_for(image: &[u8], message: &[u8]) -> Result<AttributeInformation, Refusal> {
    let information = AttributeInformation::of(image)?;
    if message.is_empty() {
        return Err(Refusal::new(9));
    }
    if !information.writable {
        return Err(Refusal::new(10));
    }
    if message.len() > information.capacity() {
        return Err(Refusal::new(11));
    }
    Ok(information)
}

/// The length of a command that lists `count` blocks.
pub fn command_len(count: usize) -> usize {
    HEADER + count * (2 + BLOCK)
}

/// Writes the commands that put `message` on the tag to `list`; returns how many there are. What
/// the tag already holds is left out.
pub fn write(
    image: &[u8],
    message: &[u8],
    idm: &[u8; 8],
    list: &mut [u8],
) -> Result<usize, Refusal> {
    let information = writable_for(image, message)?;
    let blocks = message.len().div_ceil(BLOCK);
    let width = MAX_COUNT.min(information.nbw as usize);

    // What the blocks after block 0 are to hold, and those of them that do not hold it yet.
    let mut new = vec![[0; BLOCK]; blocks];
    new.as_flattened_mut()[..message.len()].copy_from_slice(message);
    let old = image[BLOCK..].chunks_exact(BLOCK);
    let pairs = (1..).zip(&new).zip(old);
    let mut changed: Vec<Part> = Vec::with_capacity(blocks);
    changed.extend(pairs.filter_map(|(part, old)| (part.1 != old).then_some(part)));

    let shut = information.being_written;
    let data_commands = changed.len().div_ceil(width);
    let count = usize::from(!shut) + data_commands + 1;
    let size = (count - data_commands) * command_len(1)
        + data_commands * HEADER
        + changed.len() * (2 + BLOCK);
    let Some(mut rest) = list.get_mut(..size) else {
        return Err(Refusal::new(12));
    };
    let mut block0 = [0; BLOCK];
    block0.copy_from_slice(&image[..BLOCK]);
    if !shut {
        block0[WRITE_FLAG] = BEING_WRITTEN;
        seal(&mut block0);
        rest = put(rest, idm, &[(0, &block0)]);
    }
    for parts in changed.chunks(width) {
        rest = put(rest, idm, parts);
    }
    block0[WRITE_FLAG] = 0;
    block0[11..14].copy_from_slice(&(message.len() as u32).to_be_bytes()[1..]);
    seal(&mut block0);
    put(rest, idm, &[(0, &block0)]);
    Ok(count)
}

/// A block and what to store in it.
type Part<'a> = (usize, &'a [u8; BLOCK]);

/// Sets the checksum of block 0.
fn seal(block0: &mut [u8; BLOCK]) {
    let sum = checksum(block0);
    block0[14..].copy_from_slice(&sum);
}

/// Puts one command that writes these blocks; returns what is left of the list.
fn put<'a>(list: &'a mut [u8], idm: &[u8; 8], parts: &[Part]) -> &'a mut [u8] {
    let count = parts.len();
    let (command, rest) = list.split_at_mut(command_len(count));
    command[0] = 0x08;
    command[1..9].copy_from_slice(idm);
    command[9..12].copy_from_slice(&[0x01, 0x09, 0x00]);
    command[12] = count as u8;
    let (block_list, data) = command[HEADER..].split_at_mut(2 * count);
    let places = block_list
        .chunks_exact_mut(2)
        .zip(data.chunks_exact_mut(BLOCK));
    for ((element, data), &(block, bytes)) in places.zip(parts) {
        element[0] = 0x80;
        element[1] = block as u8;
        data.copy_from_slice(bytes);
    }
    rest
}

/// Judges a list that somebody else made for writing `message`; returns how many commands it has.
pub fn judge(image: &[u8], message: &[u8], idm: &[u8; 8], list: &[u8]) -> Result<usize, Refusal> {
    let information = writable_for(image, message)?;
    let old = information.message(image);
    let blocks = message.len().div_ceil(BLOCK);
    let limits = Limits {
        nbw: information.nbw as u64,
        nmaxb: information.nmaxb as u64,
    };
    let mut now = image.to_vec();
    let mut rest = list;
    let mut position = 0;

    while !rest.is_empty() {
        let Some(command) = well_formed(cut(rest), idm, limits) else {
            return Err(Refusal::at(20, position));
        };
        for (block, data) in command.parts() {
            let held = &now[block * BLOCK..(block + 1) * BLOCK];
            let kept = match block {
                0 => data[..9] == held[..9] && data[10] == held[10],
                _ => block <= blocks || data == held,
            };
            if !kept {
                return Err(Refusal::at(21, position));
            }
        }
        command.store(&mut now);
        match AttributeInformation::of(&now).map(|information| information.message(&now)) {
            Ok(reading) if reading.is_none() || reading == old || reading == Some(message) => {}
            _ => return Err(Refusal::at(22, position)),
        }
        rest = &rest[command.len()..];
        position += 1;
    }

    match AttributeInformation::of(&now) {
        Ok(information) if information.message(&now) == Some(message) => Ok(position),
        _ => Err(Refusal::at(23, position)),
    }
}

/// The first command of a list that is not empty; all of the list if that is too short for one.
fn cut(list: &[u8]) -> &[u8] {
    let size = match list.get(HEADER - 1) {
        Some(&count) => command_len(count as usize),
        None => HEADER,
    };
    list.get(..size).unwrap_or(list)
}
