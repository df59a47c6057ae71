//! Type 6 tags: up to 256 blocks of 1 to 32 bytes, images of 8 to 8,192 bytes.
//!
//! The tag's container says how many blocks there are and of what size; see [`block_size`] and
//! [`blocks`]. A command does not say it, so cutting a list into commands and the codec need the
//! numbers of the tag.

use crate::{answer, ffi, report, Refusal, Report};

/// The largest block size.
pub const BLOCK_MAX: usize = 32;

/// The length of the longest command.
pub const COMMAND_MAX: usize = 3 + BLOCK_MAX;

/// The length of the longest list that [`write()`] makes for any tag.
pub const LIST_MAX: usize = 256 * COMMAND_MAX;

/// The length of the longest image.
pub const IMAGE_MAX: usize = 8192;

/// A write command. It uses the first bytes of `data`, as many as the block size says.
#[derive(Clone, Copy, Debug, PartialEq, Eq)]
pub struct Command {
    /// The block.
    pub block: u64,
    /// The bytes to store in it.
    pub data: [u8; BLOCK_MAX],
}

/// The block size that an image states, from 1 to 32, whether or not the tag reads; `None` if the
/// image ends before byte 5, which states it.
///
/// ```
/// use zanfirotta::type6;
///
/// let image = [0x4E, 0x44, 0x45, 0x10, 0x1F, 0x03, 0x00, 0x1E];
/// assert_eq!(type6::block_size(&image), Some(4));
/// assert_eq!(type6::blocks(&image), Some(32));
/// assert_eq!(type6::block_size(&image[..5]), None);
/// ```
pub fn block_size(image: &[u8]) -> Option<u64> {
    image.get(5).map(|&byte| u64::from(byte % 32) + 1)
}

/// The number of blocks that an image states, from 1 to 256, whether or not the tag reads; `None`
/// if the image ends before byte 4, which states it.
pub fn blocks(image: &[u8]) -> Option<u64> {
    image.get(4).map(|&byte| u64::from(byte) + 1)
}

/// The length in bytes of a command for a tag with this block size.
///
/// ```
/// assert_eq!(zanfirotta::type6::command_len(4), 7);
/// ```
pub fn command_len(block_size: u64) -> usize {
    (block_size as usize).saturating_add(3)
}

/// The commands of a list for a tag with this block size, in order. What is left over at the end,
/// if it is too short for a command, comes last.
///
/// ```
/// use zanfirotta::type6;
///
/// let list = [0x02, 0x21, 4, 0, 0, 0x02, 0x21, 5, 1, 2, 0x02];
/// let mut commands = type6::commands(&list, 2);
/// assert_eq!(commands.next(), Some(&list[..5]));
/// assert_eq!(commands.next(), Some(&list[5..10]));
/// assert_eq!(commands.next(), Some(&list[10..]));
/// assert_eq!(commands.next(), None);
/// ```
pub fn commands(list: &[u8], block_size: u64) -> impl Iterator<Item = &[u8]> + Clone {
    list.chunks(command_len(block_size))
}

/// Reads a tag. A message starts two bytes into the first block after the container; see
/// [`Report::message`], which needs no gathered copy here.
///
/// # Errors
///
/// Refusals 1 to 5 and 7.
///
/// ```
/// use zanfirotta::{type6, Content};
///
/// // 32 blocks of 4 bytes; NLEN is 3.
/// let mut image = [0; 128];
/// image[..8].copy_from_slice(&[0x4E, 0x44, 0x45, 0x10, 0x1F, 0x03, 0x00, 0x1E]);
/// image[8..13].copy_from_slice(&[0x03, 0x00, 0xD0, 0x00, 0x00]);
/// let report = type6::read(&image)?;
/// assert_eq!(report.content, Content::Message);
/// assert_eq!((report.address, report.length), (10, 3));
/// assert_eq!(report.message(&image, &[]), [0xD0, 0x00, 0x00]);
/// assert_eq!(report.capacity, 118);
/// # Ok::<(), zanfirotta::Refusal>(())
/// ```
#[inline]
pub fn read(image: &[u8]) -> Result<Report, Refusal> {
    let mut out = [0; 6];
    answer(ffi::type6_read(image, &mut out))?;
    Ok(report(&out))
}

/// Writes the commands that put `message` on the tag to the front of `list`, end to end; returns
/// how many there are.
///
/// The first command writes the guard block, which holds NLEN, with NLEN zero. The last writes it
/// with all its new bytes, and those between write the other blocks. Rewriting wears a tag, so what
/// is already there is left out: the first command if NLEN is zero, and each other block that holds
/// its new bytes. The last command always stays.
///
/// # Errors
///
/// Refusals 1 to 5, 7, 9, 10, 14, 11 and 12; they are tested in this order.
///
/// ```
/// use zanfirotta::{type6, RefusalNumber};
///
/// let mut image = [0; 128];
/// image[..8].copy_from_slice(&[0x4E, 0x44, 0x45, 0x10, 0x1F, 0x03, 0x00, 0x1E]);
/// let mut list = [0; type6::LIST_MAX];
/// // NLEN is zero, and block 3 already holds the message's third byte.
/// assert_eq!(type6::write(&image, &[0xD0, 0x00, 0x00], &mut list), Ok(1));
/// assert_eq!(list[..7], [0x02, 0x21, 0x02, 0x03, 0x00, 0xD0, 0x00]);
///
/// // Over that message, another one takes three commands.
/// type6::model(&mut image, &list[..7])?;
/// let count = type6::write(&image, &[0xD0, 0x00, 0x01], &mut list)?;
/// assert_eq!(count, 3);
/// assert_eq!(list[..7], [0x02, 0x21, 0x02, 0x00, 0x00, 0xD0, 0x00]);
///
/// let size = type6::block_size(&image).unwrap();
/// for command in type6::commands(&list, size).take(count) {
///     type6::model(&mut image, command)?;
/// }
/// let report = type6::read(&image)?;
/// assert_eq!(report.message(&image, &[]), [0xD0, 0x00, 0x01]);
///
/// let refusal = type6::write(&image, &[0; 119], &mut list).unwrap_err();
/// assert_eq!(refusal.number, RefusalNumber::MessageTooLong);
/// # Ok::<(), zanfirotta::Refusal>(())
/// ```
pub fn write(image: &[u8], message: &[u8], list: &mut [u8]) -> Result<usize, Refusal> {
    answer(ffi::type6_write(image, message, list))
}

/// Judges whether a list, whoever made it, writes `message` safely; returns how many commands it
/// has.
///
/// # Errors
///
/// Refusals 1 to 5, 7, 9, 10, 14, 11, and 20 to 23; they are tested in this order.
///
/// ```
/// use zanfirotta::{type6, RefusalNumber};
///
/// let mut image = [0; 128];
/// image[..8].copy_from_slice(&[0x4E, 0x44, 0x45, 0x10, 0x1F, 0x03, 0x00, 0x1E]);
/// // A message that fits the first block of the file may come in one command.
/// let list = [0x02, 0x21, 0x02, 0x02, 0x00, 0xC0, 0x00];
/// assert_eq!(type6::judge(&image, &[0xC0, 0x00], &list), Ok(1));
///
/// // The flags are 02h.
/// let list = [0x04, 0x21, 0x02, 0x02, 0x00, 0xC0, 0x00];
/// let refusal = type6::judge(&image, &[0xC0, 0x00], &list).unwrap_err();
/// assert_eq!(refusal.number, RefusalNumber::MalformedCommand);
/// assert_eq!(refusal.position, Some(0));
/// ```
pub fn judge(image: &[u8], message: &[u8], list: &[u8]) -> Result<usize, Refusal> {
    answer(ffi::type6_judge(image, message, list))
}

/// The tag as a model: stores what one command says, protected or not.
///
/// # Errors
///
/// Refusals 1 to 5, 7 and 20.
///
/// ```
/// use zanfirotta::type6;
///
/// let mut image = [0; 128];
/// image[..8].copy_from_slice(&[0x4E, 0x44, 0x45, 0x10, 0x1F, 0x03, 0x00, 0x1E]);
/// type6::model(&mut image, &[0x02, 0x21, 0x05, 1, 2, 3, 4])?;
/// assert_eq!(image[20..24], [1, 2, 3, 4]);
/// # Ok::<(), zanfirotta::Refusal>(())
/// ```
#[inline]
pub fn model(image: &mut [u8], command: &[u8]) -> Result<(), Refusal> {
    answer(ffi::type6_model(image, command)).map(|_| ())
}

/// Writes a command for a tag of `blocks` blocks of `block_size` bytes to the front of `bytes`;
/// returns how many bytes it has.
///
/// # Errors
///
/// Refusals 12 and 20; 20 if the block size is not from 1 to 32.
///
/// ```
/// use zanfirotta::type6::{self, Command};
///
/// let mut command = Command { block: 5, data: [0; type6::BLOCK_MAX] };
/// command.data[..4].copy_from_slice(&[1, 2, 3, 4]);
/// let mut bytes = [0; type6::COMMAND_MAX];
/// assert_eq!(type6::encode(&command, 4, 32, &mut bytes), Ok(7));
/// assert_eq!(bytes[..7], [0x02, 0x21, 0x05, 1, 2, 3, 4]);
/// assert_eq!(type6::decode(&bytes[..7], 4, 32), Ok(command));
/// ```
pub fn encode(
    command: &Command,
    block_size: u64,
    blocks: u64,
    bytes: &mut [u8],
) -> Result<usize, Refusal> {
    answer(ffi::type6_encode(
        command.block,
        &command.data,
        block_size,
        blocks,
        bytes,
    ))
}

/// Reads one command for a tag of `blocks` blocks of `block_size` bytes. The bytes of `data` past
/// the block size are 00h.
///
/// # Errors
///
/// Refusal 20.
///
/// ```
/// use zanfirotta::{type6, RefusalNumber};
///
/// let refusal = type6::decode(&[0x02, 0x21, 0x20, 1, 2, 3, 4], 4, 32).unwrap_err();
/// assert_eq!(refusal.number, RefusalNumber::MalformedCommand);
/// ```
pub fn decode(bytes: &[u8], block_size: u64, blocks: u64) -> Result<Command, Refusal> {
    let mut command = Command {
        block: 0,
        data: [0; BLOCK_MAX],
    };
    answer(ffi::type6_decode(
        bytes,
        block_size,
        blocks,
        &mut command.block,
        &mut command.data,
    ))?;
    Ok(command)
}
