//! Type 3: single commands, and the tag as a model that takes them.

use super::tag::AttributeInformation;
use super::{command_len, BLOCK, HEADER, MAX_COUNT};
use crate::reference::Refusal;

/// A write command. Only its first `count` blocks are used.
#[derive(Clone, Copy, Debug, PartialEq, Eq)]
pub struct Command {
    pub count: u64,
    pub blocks: [u64; 8],
    pub data: [u8; 128],
}

/// What the tag says about commands.
#[derive(Clone, Copy)]
pub struct Limits {
    pub nbw: u64,
    pub nmaxb: u64,
}

impl Limits {
    fn allow_count(&self, count: u64) -> bool {
        (1..=self.nbw.min(MAX_COUNT as u64)).contains(&count)
    }

    fn allow_block(&self, block: u64) -> bool {
        block <= self.nmaxb.min(255)
    }
}

/// The bytes of a well-formed command.
pub struct WellFormed<'a> {
    block_list: &'a [u8],
    data: &'a [u8],
}

impl<'a> WellFormed<'a> {
    /// Block numbers with their data.
    pub fn parts(&self) -> impl Iterator<Item = (usize, &'a [u8])> {
        let blocks = self
            .block_list
            .chunks_exact(2)
            .map(|element| element[1] as usize);
        blocks.zip(self.data.chunks_exact(BLOCK))
    }

    pub fn len(&self) -> usize {
        HEADER + self.block_list.len() + self.data.len()
    }

    pub fn store(&self, image: &mut [u8]) {
        for (block, data) in self.parts() {
            image[block * BLOCK..(block + 1) * BLOCK].copy_from_slice(data);
        }
    }
}

/// The parts of a command, if it is well formed; with bytes left over it is not.
pub fn well_formed<'a>(bytes: &'a [u8], idm: &[u8; 8], limits: Limits) -> Option<WellFormed<'a>> {
    let (header, rest) = bytes.split_at_checked(HEADER)?;
    let count = header[12] as usize;
    if header[0] != 0x08
        || header[1..9] != *idm
        || header[9..12] != [0x01, 0x09, 0x00]
        || !limits.allow_count(count as u64)
        || bytes.len() != command_len(count)
    {
        return None;
    }
    let (block_list, data) = rest.split_at(2 * count);
    for (i, element) in block_list.chunks_exact(2).enumerate() {
        let twice = block_list[..2 * i]
            .chunks_exact(2)
            .any(|n| n[1] == element[1]);
        if element[0] != 0x80 || !limits.allow_block(element[1] as u64) || twice {
            return None;
        }
    }
    Some(WellFormed { block_list, data })
}

/// Writes a command to the front of `bytes`; returns how many bytes it has.
pub fn encode(
    command: &Command,
    idm: &[u8; 8],
    nbw: u64,
    nmaxb: u64,
    bytes: &mut [u8],
) -> Result<usize, Refusal> {
    let limits = Limits { nbw, nmaxb };
    if !limits.allow_count(command.count) {
        return Err(Refusal::new(20));
    }
    let count = command.count as usize;
    let blocks = &command.blocks[..count];
    for (i, block) in blocks.iter().enumerate() {
        if !limits.allow_block(*block) || blocks[..i].contains(block) {
            return Err(Refusal::new(20));
        }
    }
    let Some(bytes) = bytes.get_mut(..command_len(count)) else {
        return Err(Refusal::new(12));
    };
    bytes[0] = 0x08;
    bytes[1..9].copy_from_slice(idm);
    bytes[9..12].copy_from_slice(&[0x01, 0x09, 0x00]);
    bytes[12] = count as u8;
    let (block_list, data) = bytes[HEADER..].split_at_mut(2 * count);
    for (element, &block) in block_list.chunks_exact_mut(2).zip(blocks) {
        element[0] = 0x80;
        element[1] = block as u8;
    }
    data.copy_from_slice(&command.data[..count * BLOCK]);
    Ok(bytes.len())
}

/// Reads one command into the front of `command`'s arrays.
pub fn decode(
    bytes: &[u8],
    idm: &[u8; 8],
    nbw: u64,
    nmaxb: u64,
    command: &mut Command,
) -> Result<(), Refusal> {
    let limits = Limits { nbw, nmaxb };
    let Some(read) = well_formed(bytes, idm, limits) else {
        return Err(Refusal::new(20));
    };
    command.count = (read.block_list.len() / 2) as u64;
    for (i, (block, data)) in read.parts().enumerate() {
        command.blocks[i] = block as u64;
        command.data[i * BLOCK..(i + 1) * BLOCK].copy_from_slice(data);
    }
    Ok(())
}

/// The tag takes one command.
pub fn model(image: &mut [u8], idm: &[u8; 8], command: &[u8]) -> Result<(), Refusal> {
    let information = AttributeInformation::of(image)?;
    let limits = Limits {
        nbw: information.nbw as u64,
        nmaxb: information.nmaxb as u64,
    };
    match well_formed(command, idm, limits) {
        Some(command) => {
            command.store(image);
            Ok(())
        }
        None => Err(Refusal::new(20)),
    }
}
