//! Type 3: blocks of 16 bytes, the attribute information in block 0, the message from block 1 on.

mod codec;
mod list;
mod tag;

pub use codec::{decode, encode, model, Command};
pub use list::{command_len, judge, write};
pub use tag::read;

const BLOCK: usize = 16;
const MAX_IMAGE: usize = 4096;
/// The bytes of a command before its block list.
const HEADER: usize = 13;
/// The most blocks of a command.
const MAX_COUNT: usize = 8;

const WRITE_FLAG: usize = 9;
const BEING_WRITTEN: u8 = 0x0F;
