//! Type 2 tags: blocks of 4 bytes, images of 64 to 1,024 bytes.

use crate::{answer, ffi, report, Refusal, Report};

/// The length of a command.
pub const COMMAND: usize = 6;

/// The length of the longest list that [`write()`] makes for any tag.
pub const LIST_MAX: usize = COMMAND * 253;

/// The length of the longest image, which is more than that of the longest message.
pub const IMAGE_MAX: usize = 1024;

/// A write command.
#[derive(Clone, Copy, Debug, PartialEq, Eq)]
pub struct Command {
    /// The block, from 4 on.
    pub block: u64,
    /// The bytes to store in it.
    pub data: [u8; 4],
}

/// The commands of a list, in order. What is left over at the end, if it is too short for a
/// command, comes last.
///
/// ```
/// use zanfirotta::type2;
///
/// let list = [0xA2, 4, 3, 0, 0xFE, 0, 0xA2, 5, 0, 0xFE, 0, 0, 0xA2];
/// let mut commands = type2::commands(&list);
/// assert_eq!(commands.next(), Some(&list[..6]));
/// assert_eq!(commands.next(), Some(&list[6..12]));
/// assert_eq!(commands.next(), Some(&list[12..]));
/// assert_eq!(commands.next(), None);
/// ```
pub fn commands(list: &[u8]) -> impl Iterator<Item = &[u8]> + Clone {
    list.chunks(COMMAND)
}

/// Reads a tag. Only an interrupted message is copied, to the front of `gathered`; see
/// [`Report::message`].
///
/// # Errors
///
/// Refusals 1 to 8 and 13.
///
/// ```
/// use zanfirotta::{type2, Content};
///
/// let mut image = [0; 64];
/// image[12..22].copy_from_slice(&[0xE1, 0x10, 0x06, 0x00, 0x03, 0x03, 0xD0, 0x00, 0x00, 0xFE]);
/// let report = type2::read(&image, &mut [])?;
/// assert_eq!(report.content, Content::Message);
/// assert_eq!((report.address, report.length), (18, 3));
/// assert!(report.writable && !report.interrupted);
/// assert_eq!(report.capacity, 46);
/// # Ok::<(), zanfirotta::Refusal>(())
/// ```
#[inline]
pub fn read(image: &[u8], gathered: &mut [u8]) -> Result<Report, Refusal> {
    let mut out = [0; 6];
    answer(ffi::type2_read(image, gathered, &mut out))?;
    Ok(report(&out))
}

/// Writes the commands that put `message` on the tag to the front of `list`, end to end; returns
/// how many there are.
///
/// The first command writes the guard block, which holds the first length byte of the message TLV,
/// with that byte 00h. The last writes it with all its new bytes, and those between write the other
/// blocks. Rewriting wears a tag, so what is already there is left out: the first command if that
/// byte is 00h, and each other block that holds its new bytes. The last command always stays.
///
/// # Errors
///
/// Refusals 1 to 12.
///
/// ```
/// use zanfirotta::{type2, RefusalNumber};
///
/// let mut image = [0; 64];
/// image[12..19].copy_from_slice(&[0xE1, 0x10, 0x06, 0x00, 0x03, 0x00, 0xFE]);
/// let mut list = [0; type2::LIST_MAX];
/// // The tag is empty, so its first length byte is 00h.
/// assert_eq!(type2::write(&image, &[0xD0, 0x00, 0x00], &mut list), Ok(2));
/// assert_eq!(list[..6], [0xA2, 0x05, 0x00, 0xFE, 0x00, 0x00]);
/// assert_eq!(list[6..12], [0xA2, 0x04, 0x03, 0x03, 0xD0, 0x00]);
///
/// // A write that breaks off here goes on with the last command.
/// type2::model(&mut image, &list[..6])?;
/// assert_eq!(type2::write(&image, &[0xD0, 0x00, 0x00], &mut list), Ok(1));
///
/// let refusal = type2::write(&image, &[0; 47], &mut list).unwrap_err();
/// assert_eq!(refusal.number, RefusalNumber::MessageTooLong);
/// # Ok::<(), zanfirotta::Refusal>(())
/// ```
pub fn write(image: &[u8], message: &[u8], list: &mut [u8]) -> Result<usize, Refusal> {
    answer(ffi::type2_write(image, message, list))
}

/// Judges whether a list, whoever made it, writes `message` safely; returns how many commands it
/// has.
///
/// # Errors
///
/// Refusals 1 to 11 and 20 to 23.
///
/// ```
/// use zanfirotta::{type2, RefusalNumber};
///
/// let mut image = [0; 64];
/// image[12..19].copy_from_slice(&[0xE1, 0x10, 0x06, 0x00, 0x03, 0x00, 0xFE]);
/// let message = [0xD0, 0x00, 0x00];
/// let list = [
///     [0xA2, 0x05, 0x00, 0xFE, 0x00, 0x00],
///     [0xA2, 0x04, 0x03, 0x03, 0xD0, 0x00],
/// ];
/// assert_eq!(type2::judge(&image, &message, &list.concat()), Ok(2));
///
/// // The length first would show a message that is neither old nor new.
/// let list = [
///     [0xA2, 0x04, 0x03, 0x04, 0xD0, 0x00],
///     [0xA2, 0x05, 0x00, 0x01, 0xFE, 0x00],
/// ];
/// let refusal = type2::judge(&image, &[0xD0, 0x00, 0x00, 0x01], &list.concat()).unwrap_err();
/// assert_eq!(refusal.number, RefusalNumber::Misread);
/// assert_eq!(refusal.position, Some(0));
/// ```
pub fn judge(image: &[u8], message: &[u8], list: &[u8]) -> Result<usize, Refusal> {
    answer(ffi::type2_judge(image, message, list))
}

/// The tag as a model: stores what one command says, protected or not.
///
/// # Errors
///
/// Refusals 1 to 8 and 20.
///
/// ```
/// use zanfirotta::type2;
///
/// let mut image = [0; 64];
/// image[12..19].copy_from_slice(&[0xE1, 0x10, 0x06, 0x00, 0x03, 0x00, 0xFE]);
/// type2::model(&mut image, &[0xA2, 0x05, 1, 2, 3, 4])?;
/// assert_eq!(image[20..24], [1, 2, 3, 4]);
/// # Ok::<(), zanfirotta::Refusal>(())
/// ```
#[inline]
pub fn model(image: &mut [u8], command: &[u8]) -> Result<(), Refusal> {
    answer(ffi::type2_model(image, command)).map(|_| ())
}

/// Writes a command for a tag of `blocks` blocks to the front of `bytes`; returns how many bytes it
/// has.
///
/// # Errors
///
/// Refusals 12 and 20.
///
/// ```
/// use zanfirotta::type2::{self, Command};
///
/// let mut bytes = [0; type2::COMMAND];
/// let command = Command { block: 5, data: [1, 2, 3, 4] };
/// assert_eq!(type2::encode(&command, 16, &mut bytes), Ok(6));
/// assert_eq!(bytes, [0xA2, 0x05, 1, 2, 3, 4]);
/// assert_eq!(type2::decode(&bytes, 16), Ok(command));
/// ```
pub fn encode(command: &Command, blocks: u64, bytes: &mut [u8]) -> Result<usize, Refusal> {
    answer(ffi::type2_encode(
        command.block,
        &command.data,
        blocks,
        bytes,
    ))
}

/// Reads one command for a tag of `blocks` blocks.
///
/// # Errors
///
/// Refusal 20.
///
/// ```
/// use zanfirotta::{type2, RefusalNumber};
///
/// let refusal = type2::decode(&[0xA2, 0x10, 1, 2, 3, 4], 16).unwrap_err();
/// assert_eq!(refusal.number, RefusalNumber::MalformedCommand);
/// ```
pub fn decode(bytes: &[u8], blocks: u64) -> Result<Command, Refusal> {
    let mut command = Command {
        block: 0,
        data: [0; 4],
    };
    answer(ffi::type2_decode(
        bytes,
        blocks,
        &mut command.block,
        &mut command.data,
    ))?;
    Ok(command)
}
