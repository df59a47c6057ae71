//! Type 2: single commands, and the tag as a model that takes them.

use super::tag::Tag;
use super::{BLOCK, COMMAND, WRITE};
use crate::reference::Refusal;

/// A write command.
#[derive(Clone, Copy, Debug, PartialEq, Eq)]
pub struct Command {
    pub block: u64,
    pub data: [u8; 4],
}

/// Whether a command may write `block` on a tag of `blocks` blocks.
fn may_name(block: u64, blocks: u64) -> bool {
    (4..=255).contains(&block) && block < blocks
}

/// Writes a command to the front of `bytes`; returns how many bytes it has.
pub fn encode(block: u64, data: &[u8; 4], blocks: u64, bytes: &mut [u8]) -> Result<usize, Refusal> {
    if !may_name(block, blocks) {
        return Err(Refusal::new(20));
    }
    let Some(bytes) = bytes.get_mut(..COMMAND) else {
        return Err(Refusal::new(12));
    };
    bytes[0] = WRITE;
    bytes[1] = block as u8;
    bytes[2..].copy_from_slice(data);
    Ok(COMMAND)
}

/// Reads one command; bytes left over are not well formed.
pub fn decode(bytes: &[u8], blocks: u64) -> Result<Command, Refusal> {
    match *bytes {
        [WRITE, block, a, b, c, d] if may_name(block as u64, blocks) => Ok(Command {
            block: block as u64,
            data: [a, b, c, d],
        }),
        _ => Err(Refusal::new(20)),
    }
}

/// The tag takes one command.
pub fn model(image: &mut [u8], command: &[u8]) -> Result<(), Refusal> {
    Tag::scan(image)?;
    let command = decode(command, (image.len() / BLOCK) as u64)?;
    let start = command.block as usize * BLOCK;
    image[start..start + BLOCK].copy_from_slice(&command.data);
    Ok(())
}
