//! Type 6: single commands, and the tag as a model that takes them.

use super::tag::Tag;
use super::{FLAGS, HEADER, MAX_BLOCK, WRITE_SINGLE};
use crate::reference::Refusal;

/// A write command. Only as many bytes of `data` are used as a block has.
#[derive(Clone, Copy, Debug, PartialEq, Eq)]
pub struct Command {
    pub block: u64,
    pub data: [u8; MAX_BLOCK],
}

/// How many bytes a block has, if there are such blocks.
fn size_of_block(block_size: u64) -> Option<usize> {
    (1..=MAX_BLOCK as u64)
        .contains(&block_size)
        .then_some(block_size as usize)
}

/// Whether a command may write `block` on a tag of `blocks` blocks.
fn may_name(block: u64, blocks: u64) -> bool {
    block <= 255 && block < blocks
}

/// The block and the data of a command, if it is well formed; with bytes left over it is not.
pub fn well_formed(bytes: &[u8], block_size: usize, blocks: u64) -> Option<(usize, &[u8])> {
    match bytes {
        [FLAGS, WRITE_SINGLE, block, data @ ..]
            if data.len() == block_size && may_name(*block as u64, blocks) =>
        {
            Some((*block as usize, data))
        }
        _ => None,
    }
}

/// Writes a command to the front of `bytes`; returns how many bytes it has.
pub fn encode(
    command: &Command,
    block_size: u64,
    blocks: u64,
    bytes: &mut [u8],
) -> Result<usize, Refusal> {
    let size = match size_of_block(block_size) {
        Some(size) if may_name(command.block, blocks) => size,
        _ => return Err(Refusal::new(20)),
    };
    let Some(bytes) = bytes.get_mut(..HEADER + size) else {
        return Err(Refusal::new(12));
    };
    bytes[..HEADER].copy_from_slice(&[FLAGS, WRITE_SINGLE, command.block as u8]);
    bytes[HEADER..].copy_from_slice(&command.data[..size]);
    Ok(bytes.len())
}

/// Reads one command into the front of `command`'s data.
pub fn decode(
    bytes: &[u8],
    block_size: u64,
    blocks: u64,
    command: &mut Command,
) -> Result<(), Refusal> {
    let read = size_of_block(block_size).and_then(|size| well_formed(bytes, size, blocks));
    let Some((block, data)) = read else {
        return Err(Refusal::new(20));
    };
    command.block = block as u64;
    command.data[..data.len()].copy_from_slice(data);
    Ok(())
}

/// The tag takes one command.
pub fn model(image: &mut [u8], command: &[u8]) -> Result<(), Refusal> {
    let tag = Tag::of(image)?;
    match well_formed(command, tag.block_size, tag.blocks as u64) {
        Some((block, data)) => {
            let start = block * tag.block_size;
            image[start..start + tag.block_size].copy_from_slice(data);
            Ok(())
        }
        None => Err(Refusal::new(20)),
    }
}
