//! Type 2: blocks of 4 bytes, a capability container at 12 to 15, TLVs from 16 on.

mod codec;
mod list;
mod tag;

pub use codec::{decode, encode, model};
pub use list::{judge, write};
pub use tag::read;

const BLOCK: usize = 4;
const MAX_IMAGE: usize = 1024;
const DATA_START: usize = 16;
const COMMAND: usize = 6;
const WRITE: u8 = 0xA2;
const TERMINATOR: u8 = 0xFE;
