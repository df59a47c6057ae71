//! Type 6: blocks of 1 to 32 bytes, the container in bytes 0 to 7, the file with the message from
//! the next block on.

mod codec;
mod list;
mod tag;

pub use codec::{decode, encode, model, Command};
pub use list::{judge, write};
pub use tag::read;

const MAX_BLOCK: usize = 32;
const MAX_IMAGE: usize = 8192;
/// The bytes of the container.
const CONTAINER: usize = 8;
/// The bytes of NLEN, low byte first, at the front of the file.
const NLEN: usize = 2;
/// The bytes of a command before its data: flags, code, block number.
const HEADER: usize = 3;
const FLAGS: u8 = 0x02;
const WRITE_SINGLE: u8 = 0x21;
