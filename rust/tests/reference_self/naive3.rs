//! The naive form of docs/01-scope.md, with E1 and E4 of docs/02-change-requests.md, for Type 3, to
//! check the reference. It is as near to the words as possible and without regard to speed. Addresses are
//! tested one by one, and every cut is read from the start.

use std::collections::BTreeSet;

use crate::full_list::Full;
use crate::reference::Refusal;

/// What a tag gives: being written, Ln, writable.
pub fn read(image: &[u8]) -> Result<(bool, usize, bool), u8> {
    let len = image.len();
    if !len.is_multiple_of(16) || !(16..=4096).contains(&len) {
        return Err(1);
    }
    let at = |i: usize| image[i] as usize;
    if (0..14).map(at).sum::<usize>() != 256 * at(14) + at(15) {
        return Err(2);
    }
    if !(0x10..=0x1F).contains(&at(0)) {
        return Err(3);
    }
    if at(9) != 0 && at(9) != 0x0F || at(10) != 0 && at(10) != 1 || at(1) == 0 {
        return Err(4);
    }
    let nmaxb = 256 * at(3) + at(4);
    if 16 * (1 + nmaxb) > len {
        return Err(5);
    }
    let ln = 65_536 * at(11) + 256 * at(12) + at(13);
    if ln > 16 * nmaxb {
        return Err(7);
    }
    Ok((at(9) == 0x0F, ln, at(10) == 1 && at(2) >= 1))
}

fn message_on(image: &[u8]) -> Result<Vec<u8>, u8> {
    Ok(match read(image)? {
        (true, _, _) => Vec::new(),
        (false, ln, _) => image[16..16 + ln].to_vec(),
    })
}

/// The blocks and the data of a command if it is well formed on this tag.
pub fn well_formed<'a>(
    image: &[u8],
    idm: &[u8; 8],
    command: &'a [u8],
) -> Option<Vec<(usize, &'a [u8])>> {
    let w = image[2].min(8) as usize;
    let nmaxb = 256 * image[3] as usize + image[4] as usize;
    let b = *command.get(12)? as usize;
    let mut start = vec![0x08];
    start.extend(idm);
    start.extend([0x01, 0x09, 0x00, b as u8]);
    if command[..13] != start || b < 1 || b > w || command.len() != 13 + 18 * b {
        return None;
    }
    let mut parts = Vec::new();
    let mut named = BTreeSet::new();
    for i in 0..b {
        let (first, block) = (command[13 + 2 * i], command[14 + 2 * i] as usize);
        if first != 0x80 || block > nmaxb || !named.insert(block) {
            return None;
        }
        let data = 13 + 2 * b + 16 * i;
        parts.push((block, &command[data..data + 16]));
    }
    Some(parts)
}

/// Cuts a list into commands.
pub fn cut_list(list: &[u8]) -> Vec<&[u8]> {
    let mut commands = Vec::new();
    let mut at = 0;
    while at < list.len() {
        let size = match list.get(at + 12) {
            Some(&b) => 13 + 18 * b as usize,
            None => list.len() - at,
        };
        let end = list.len().min(at + size);
        commands.push(&list[at..end]);
        at = end;
    }
    commands
}

/// What writing and judging ask of a tag and a message before anything else.
fn ready(image: &[u8], message: &[u8]) -> Result<(), u8> {
    let (_, _, writable) = read(image)?;
    let nmaxb = 256 * image[3] as usize + image[4] as usize;
    if message.is_empty() {
        return Err(9);
    }
    if !writable {
        return Err(10);
    }
    if message.len() > 16 * nmaxb {
        return Err(11);
    }
    Ok(())
}

/// An image with another WriteFlag and the checksum that goes with it.
fn flagged(image: &[u8], write_flag: u8) -> Vec<u8> {
    let mut image = image.to_vec();
    image[9] = write_flag;
    let sum: usize = (0..14).map(|i| image[i] as usize).sum();
    image[14] = (sum / 256) as u8;
    image[15] = (sum % 256) as u8;
    image
}

/// Whether WriteFlag is already 0Fh, and the tag with WriteFlag 0Fh.
pub fn shut(image: &[u8]) -> (bool, Vec<u8>) {
    (image[9] == 0x0F, flagged(image, 0x0F))
}

pub fn full_list(image: &[u8], message: &[u8]) -> Result<Full, u8> {
    ready(image, message)?;
    let (k, n) = (message.len().div_ceil(16), message.len());
    let mut new = image.to_vec();
    new[11] = (n / 65_536) as u8;
    new[12] = (n / 256 % 256) as u8;
    new[13] = (n % 256) as u8;
    for i in 0..16 * k {
        new[16 + i] = *message.get(i).unwrap_or(&0x00);
    }
    let (is_shut, shut) = shut(image);
    Ok(Full {
        block_size: 16,
        guard: 0,
        is_shut,
        image: image.to_vec(),
        shut,
        new: flagged(&new, 0x00),
        to_set: [9].into_iter().chain(11..16 + 16 * k).collect(),
    })
}

pub fn judge(image: &[u8], message: &[u8], idm: &[u8; 8], list: &[u8]) -> Result<usize, Refusal> {
    ready(image, message).map_err(Refusal::new)?;
    let k = message.len().div_ceil(16);
    let protected = |address: usize| match address {
        0..=15 => address != 9 && !(11..=15).contains(&address),
        _ => address / 16 > k,
    };
    let old = message_on(image).unwrap();
    let mut cut = image.to_vec();
    let commands = cut_list(list);
    for (i, command) in commands.iter().enumerate() {
        let Some(parts) = well_formed(image, idm, command) else {
            return Err(Refusal::at(20, i));
        };
        let before = cut.clone();
        for (block, data) in parts {
            cut[16 * block..16 * block + 16].copy_from_slice(data);
        }
        if (0..cut.len()).any(|address| protected(address) && cut[address] != before[address]) {
            return Err(Refusal::at(21, i));
        }
        match message_on(&cut) {
            Ok(now) if now.is_empty() || now == old || now == message => {}
            _ => return Err(Refusal::at(22, i)),
        }
    }
    match message_on(&cut) {
        Ok(now) if now == message => Ok(commands.len()),
        _ => Err(Refusal::at(23, commands.len())),
    }
}
