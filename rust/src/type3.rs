//! Type 3 tags: blocks of 16 bytes, images of 16 to 4,096 bytes.
//!
//! `idm` is the eight-byte manufacturer number (IDm) that commands carry.

use crate::{answer, ffi, report, Refusal, Report};

/// The length of the longest list that [`write()`] makes for any tag.
pub const LIST_MAX: usize = 257 * (13 + 18);

/// The length of the longest command.
pub const COMMAND_MAX: usize = 13 + 18 * 8;

/// The length of the longest image.
pub const IMAGE_MAX: usize = 4096;

/// The length in bytes of the first command of a list. [`commands`] steps through a whole list.
///
/// # Errors
///
/// Refusal 20 if the list is empty or ends within that command.
///
/// ```
/// use zanfirotta::{type3, RefusalNumber};
///
/// // Byte 12 of a command says how many blocks it stores.
/// let mut list = [0; 60];
/// list[12] = 2;
/// assert_eq!(type3::command_len(&list), Ok(49));
/// let refusal = type3::command_len(&list[..48]).unwrap_err();
/// assert_eq!(refusal.number, RefusalNumber::MalformedCommand);
/// assert_eq!(refusal.position, Some(0));
/// ```
#[inline]
pub fn command_len(list: &[u8]) -> Result<usize, Refusal> {
    answer(ffi::type3_command_len(list))
}

/// The commands of a list, in order. What is left over at the end, if it is too short for its
/// command, comes last.
///
/// ```
/// use zanfirotta::type3;
///
/// let mut list = [0; 50];
/// list[12] = 1;
/// let mut commands = type3::commands(&list);
/// assert_eq!(commands.next(), Some(&list[..31]));
/// assert_eq!(commands.next(), Some(&list[31..44]));
/// assert_eq!(commands.next(), Some(&list[44..]));
/// assert_eq!(commands.next(), None);
/// ```
pub fn commands(list: &[u8]) -> Commands<'_> {
    Commands { rest: list }
}

/// The commands of a list; see [`commands`].
#[derive(Clone, Debug)]
pub struct Commands<'a> {
    rest: &'a [u8],
}

impl<'a> Iterator for Commands<'a> {
    type Item = &'a [u8];

    fn next(&mut self) -> Option<&'a [u8]> {
        if self.rest.is_empty() {
            return None;
        }
        let len = command_len(self.rest).unwrap_or(self.rest.len());
        let (command, rest) = self.rest.split_at(len);
        self.rest = rest;
        Some(command)
    }
}

impl core::iter::FusedIterator for Commands<'_> {}

/// A write command. It uses the first `count` entries of `blocks` and 16 · `count` bytes of `data`.
#[derive(Clone, Copy, Debug, PartialEq, Eq)]
pub struct Command {
    /// How many blocks it stores.
    pub count: u64,
    /// The numbers of the blocks.
    pub blocks: [u64; 8],
    /// The bytes to store in them, sixteen for each.
    pub data: [u8; 128],
}

impl Command {
    /// A command without blocks.
    pub const EMPTY: Command = Command {
        count: 0,
        blocks: [0; 8],
        data: [0; 128],
    };

    /// A command that writes these blocks; `None` if there are more than eight.
    ///
    /// ```
    /// use zanfirotta::type3::Command;
    ///
    /// let command = Command::new(&[(1, [7; 16]), (2, [8; 16])]).unwrap();
    /// assert_eq!(command.count, 2);
    /// assert_eq!(command.parts().nth(1), Some((2, &[8; 16][..])));
    /// ```
    pub fn new(parts: &[(u64, [u8; 16])]) -> Option<Command> {
        if parts.len() > 8 {
            return None;
        }
        let mut command = Command::EMPTY;
        command.count = parts.len() as u64;
        for (i, (block, data)) in parts.iter().enumerate() {
            command.blocks[i] = *block;
            command.data[16 * i..16 * i + 16].copy_from_slice(data);
        }
        Some(command)
    }

    /// The blocks with their data.
    pub fn parts(&self) -> impl Iterator<Item = (u64, &[u8])> {
        let count = self.count.min(8) as usize;
        self.blocks[..count]
            .iter()
            .copied()
            .zip(self.data.chunks_exact(16))
    }
}

/// Reads a tag. A message starts at 16; see [`Report::message`], which needs no gathered copy here.
///
/// # Errors
///
/// Refusals 1 to 5 and 7.
///
/// ```
/// use zanfirotta::{type3, Content};
///
/// let mut image = [0; 224];
/// image[..16].copy_from_slice(&[16, 4, 1, 0, 13, 0, 0, 0, 0, 0, 1, 0, 0, 35, 0, 0x46]);
/// let report = type3::read(&image)?;
/// assert_eq!(report.content, Content::Message);
/// assert_eq!(report.message(&image, &[]), [0; 35]);
/// assert_eq!(report.capacity, 208);
/// # Ok::<(), zanfirotta::Refusal>(())
/// ```
#[inline]
pub fn read(image: &[u8]) -> Result<Report, Refusal> {
    let mut out = [0; 6];
    answer(ffi::type3_read(image, &mut out))?;
    Ok(report(&out))
}

/// Writes the commands that put `message` on the tag to the front of `list`, end to end; returns
/// how many there are.
///
/// The first command writes block 0, the guard block, with WriteFlag 0Fh. The last writes it with
/// WriteFlag 00h and the new Ln, and those between write the blocks of the message. Rewriting wears
/// a tag, so what is already there is left out: the first command if WriteFlag is 0Fh, and each
/// block of the message that holds its new bytes. The blocks that remain go Nbw to a command, at
/// most eight, so a command may name blocks that are no neighbours. The last command always stays.
///
/// # Errors
///
/// Refusals 1 to 5, 7, and 9 to 12.
///
/// ```
/// use zanfirotta::type3;
///
/// let mut image = [0; 224];
/// image[..16].copy_from_slice(&[16, 4, 1, 0, 13, 0, 0, 0, 0, 0, 1, 0, 0, 35, 0, 0x46]);
/// let idm = [1, 2, 3, 4, 5, 6, 7, 8];
/// let mut list = [0; type3::LIST_MAX];
/// assert_eq!(type3::write(&image, &[7; 35], &idm, &mut list), Ok(5));
///
/// for command in type3::commands(&list).take(5) {
///     type3::model(&mut image, &idm, command)?;
/// }
/// let report = type3::read(&image)?;
/// assert_eq!(report.message(&image, &[]), [7; 35]);
///
/// // Of the three blocks of this message only the first changes.
/// let mut message = [7; 35];
/// message[0] = 8;
/// assert_eq!(type3::write(&image, &message, &idm, &mut list), Ok(3));
/// # Ok::<(), zanfirotta::Refusal>(())
/// ```
pub fn write(
    image: &[u8],
    message: &[u8],
    idm: &[u8; 8],
    list: &mut [u8],
) -> Result<usize, Refusal> {
    answer(ffi::type3_write(image, message, idm, list))
}

/// Judges whether a list, whoever made it, writes `message` safely; returns how many commands it
/// has.
///
/// # Errors
///
/// Refusals 1 to 5, 7, 9 to 11, and 20 to 23.
///
/// ```
/// use zanfirotta::{type3, RefusalNumber};
///
/// let mut image = [0; 224];
/// image[..16].copy_from_slice(&[16, 4, 1, 0, 13, 0, 0, 0, 0, 0, 1, 0, 0, 35, 0, 0x46]);
/// // The empty list does for a tag that reads as the message already.
/// assert_eq!(type3::judge(&image, &[0; 35], &[0; 8], &[]), Ok(0));
/// let refusal = type3::judge(&image, &[1; 35], &[0; 8], &[]).unwrap_err();
/// assert_eq!(refusal.number, RefusalNumber::Unfinished);
/// ```
pub fn judge(image: &[u8], message: &[u8], idm: &[u8; 8], list: &[u8]) -> Result<usize, Refusal> {
    answer(ffi::type3_judge(image, message, idm, list))
}

/// The tag as a model: stores what one command says, protected or not.
///
/// # Errors
///
/// Refusals 1 to 5, 7 and 20.
///
/// ```
/// use zanfirotta::type3::{self, Command};
///
/// let mut image = [0; 224];
/// image[..16].copy_from_slice(&[16, 4, 1, 0, 13, 0, 0, 0, 0, 0, 1, 0, 0, 35, 0, 0x46]);
/// let idm = [1, 2, 3, 4, 5, 6, 7, 8];
/// let mut bytes = [0; type3::COMMAND_MAX];
/// let command = Command::new(&[(3, [9; 16])]).unwrap();
/// let size = type3::encode(&command, &idm, 1, 13, &mut bytes)?;
/// type3::model(&mut image, &idm, &bytes[..size])?;
/// assert_eq!(image[48..64], [9; 16]);
/// # Ok::<(), zanfirotta::Refusal>(())
/// ```
#[inline]
pub fn model(image: &mut [u8], idm: &[u8; 8], command: &[u8]) -> Result<(), Refusal> {
    answer(ffi::type3_model(image, idm, command)).map(|_| ())
}

/// Writes a command to the front of `bytes`; returns how many bytes it has.
///
/// # Errors
///
/// Refusals 12 and 20.
///
/// ```
/// use zanfirotta::type3::{self, Command};
///
/// let idm = [1, 2, 3, 4, 5, 6, 7, 8];
/// let mut bytes = [0; type3::COMMAND_MAX];
/// let command = Command::new(&[(1, [7; 16]), (2, [8; 16])]).unwrap();
/// let size = type3::encode(&command, &idm, 4, 13, &mut bytes)?;
/// assert_eq!(size, 13 + 18 * 2);
/// assert_eq!(bytes[9..17], [0x01, 0x09, 0x00, 2, 0x80, 1, 0x80, 2]);
/// assert_eq!(type3::decode(&bytes[..size], &idm, 4, 13)?, command);
/// # Ok::<(), zanfirotta::Refusal>(())
/// ```
pub fn encode(
    command: &Command,
    idm: &[u8; 8],
    nbw: u64,
    nmaxb: u64,
    bytes: &mut [u8],
) -> Result<usize, Refusal> {
    let parts = (command.count, &command.blocks, &command.data);
    answer(ffi::type3_encode(parts, idm, nbw, nmaxb, bytes))
}

/// Reads one command.
///
/// # Errors
///
/// Refusal 20.
///
/// ```
/// use zanfirotta::{type3, RefusalNumber};
///
/// let refusal = type3::decode(&[0x08], &[0; 8], 1, 13).unwrap_err();
/// assert_eq!(refusal.number, RefusalNumber::MalformedCommand);
/// ```
pub fn decode(bytes: &[u8], idm: &[u8; 8], nbw: u64, nmaxb: u64) -> Result<Command, Refusal> {
    let mut command = Command::EMPTY;
    let parts = (&mut command.count, &mut command.blocks, &mut command.data);
    answer(ffi::type3_decode(bytes, idm, nbw, nmaxb, parts))?;
    Ok(command)
}
