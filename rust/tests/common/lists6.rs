//! Foreign command lists for Type 6 tags.

use super::tags6::{block_size, file, message_and_capacity};
use super::Rng;
use crate::reference::type6;

pub type Command = Vec<u8>;

/// Our list for a tag and a message; empty if writing is refused.
pub fn ours(image: &[u8], message: &[u8]) -> Vec<Command> {
    let size = block_size(image);
    let mut list = vec![0; 256 * 35];
    match type6::write(image, message, &mut list) {
        Ok(count) => split(&list[..count * (3 + size)], size),
        Err(_) => Vec::new(),
    }
}

/// Cuts a list for a tag of this block size into its commands.
pub fn split(list: &[u8], size: usize) -> Vec<Command> {
    list.chunks(3 + size).map(<[u8]>::to_vec).collect()
}

/// A command that writes these bytes.
pub fn write(block: usize, data: &[u8]) -> Command {
    let mut command = vec![0x02, 0x21, block as u8];
    command.extend(data);
    command
}

/// A command that writes what a block of the image holds.
fn idle(image: &[u8], block: usize) -> Command {
    let size = block_size(image);
    write(block, &image[block * size..(block + 1) * size])
}

/// How many blocks of an image a command can name.
fn blocks(image: &[u8]) -> usize {
    (image.len() / block_size(image)).min(256)
}

fn after(image: &[u8], list: &[Command]) -> Vec<u8> {
    let size = block_size(image);
    let mut image = image.to_vec();
    for command in list {
        let start = size * command[2] as usize;
        if let Some(block) = image.get_mut(start..start + size) {
            block.copy_from_slice(&command[3..]);
        }
    }
    image
}

/// Our list with nothing left out, as E2 has it or, if not `all`, with only its first command put
/// back. Empty if writing is refused.
pub fn whole(image: &[u8], message: &[u8], all: bool) -> Vec<Command> {
    let ours = ours(image, message);
    let Some(last) = ours.last() else {
        return ours;
    };
    let (new, guard) = (after(image, &ours), last[2] as usize);
    let end = (file(block_size(image)) + 1 + message.len()) / block_size(image);
    let blocks = (guard + 1..=end).map(|block| idle(&new, block));
    let mut list = vec![shut(&idle(image, guard))];
    list.extend(blocks.filter(|command| all || ours.contains(command)));
    list.push(last.clone());
    list
}

/// The commands that lead back from the end of a whole list to the tag handed in.
fn back(image: &[u8], list: &[Command]) -> Vec<Command> {
    let mut back = vec![shut(&list[list.len() - 1])];
    let blocks = list[1..].iter().map(|command| command[2] as usize);
    back.extend(blocks.map(|block| idle(image, block)));
    back
}

/// A command for the first block of the file, with NLEN zero.
fn shut(command: &[u8]) -> Command {
    let mut command = command.to_vec();
    command[3..5].fill(0);
    command
}

/// A list that is usually as good as ours.
fn good(rng: &mut Rng, image: &[u8], message: &[u8]) -> Vec<Command> {
    let mut list = whole(image, message, rng.percent(70));
    for _ in 0..rng.pick(&[0, 1, 1, 2, 3]) {
        if list.len() < 2 {
            break;
        }
        let end = list.len() - 1;
        match rng.below(11) {
            0 => rng.shuffle(&mut list[1..end]),
            1 => list[1..end].reverse(),
            2 => {
                // A command once more, right after itself.
                let at = rng.below(list.len());
                list.insert(at, list[at].clone());
            }
            3 if end > 1 => {
                // One of the middle commands again, still before the last.
                let again = list[rng.between(1, end - 1)].clone();
                list.insert(rng.between(1, end), again);
            }
            4 | 5 => {
                // A block is written with what it holds at that time: often one of the container.
                let at = rng.below(list.len() + 1);
                let now = after(image, &list[..at]);
                let block = match rng.below(3) {
                    0 => 0,
                    1 => blocks(image) - 1,
                    _ => rng.below(blocks(image)),
                };
                list.insert(at, idle(&now, block));
            }
            6 => {
                let mut whole = list.clone();
                whole.extend(back(image, &list));
                whole.extend(list);
                list = whole;
            }
            // The first command already with the other new bytes of its block.
            7 => list[0] = shut(&list[end]),
            // All in one command, if the first block takes all.
            8 if end == 1 => {
                list.remove(0);
            }
            9 if end > 1 => {
                // While the tag is shut, a block of the message holds something else for a time.
                let at = rng.between(1, end - 1);
                let mut other = list[at].clone();
                let size = other.len() - 3;
                let end = file(size) + 2 + message.len();
                let to_set = end.saturating_sub(size * other[2] as usize).min(size);
                other[3..3 + to_set].fill_with(|| rng.byte());
                list.insert(at, other);
            }
            _ => {
                // Without the first command: as good if the tag holds no message.
                if message_and_capacity(image).0.is_empty() {
                    list.remove(0);
                }
            }
        }
    }
    list
}

/// Damage to a list of commands.
fn spoil(rng: &mut Rng, image: &[u8], message: &[u8], list: &mut Vec<Command>) {
    if list.is_empty() {
        return;
    }
    let at = rng.below(list.len());
    let end = list.len() - 1;
    let set = |command: &mut Command, at: usize, value: u8| {
        if let Some(byte) = command.get_mut(at) {
            *byte = value;
        }
    };
    match rng.below(20) {
        0 => set(&mut list[at], 0, rng.pick(&[0x00, 0x04, 0x12, 0x22, 0x42])),
        1 => set(&mut list[at], 1, rng.pick(&[0x20, 0x22, 0x23, 0x24, 0x42])),
        2 => set(
            &mut list[at],
            2,
            rng.pick(&[0, 1, 255, blocks(image) as u8]),
        ),
        3 | 4 => {
            let byte = rng.below(list[at].len());
            list[at][byte] ^= 1 << rng.below(8);
        }
        5 => {
            // Another NLEN, perhaps.
            let command = rng.pick(&[0, end]);
            let value = rng.pick(&[0x00, 0x01, 0xFF, message.len() as u8]);
            set(&mut list[command], rng.pick(&[3, 4]), value);
        }
        6 => {
            list.remove(0);
        }
        7 => {
            list.remove(at);
        }
        8 => {
            list.pop();
        }
        9 => list.truncate(at),
        10 => list.swap(at, end),
        11 => list.swap(0, at),
        12 => {
            let block = rng.below(blocks(image));
            list.insert(at, write(block, &rng.bytes(block_size(image))));
        }
        13 | 14 => {
            // What a block holds but for one bit: of the container, after the message, anywhere.
            let block = match rng.below(3) {
                0 => 0,
                1 => list[at].get(2).map_or(0, |&block| block as usize),
                _ => rng.below(blocks(image)),
            };
            let mut command = idle(image, block.min(blocks(image) - 1));
            let byte = rng.between(3, command.len() - 1);
            command[byte] ^= 1 << rng.below(8);
            list.insert(at, command);
        }
        15 => {
            // The high byte of NLEN is left when the tag is shut.
            let high = image.get(file(block_size(image)) + 1);
            set(&mut list[0], 4, high.copied().unwrap_or(0));
        }
        // NLEN comes first.
        16 => list.rotate_right(1),
        // All in the last command, which may be too small for it.
        17 => *list = vec![list[end].clone()],
        18 => {
            // A command of another length: what follows is cut elsewhere.
            if rng.percent(50) {
                list[at].push(rng.byte());
            } else {
                list[at].pop();
            }
        }
        _ => rng.shuffle(list),
    }
}

/// A list of any kind, for the judge.
pub fn any(rng: &mut Rng, image: &[u8], message: &[u8]) -> Vec<u8> {
    let size = block_size(image);
    let mut list = match rng.below(16) {
        0 => ours(image, message),
        1 => Vec::new(),
        2 | 3 => {
            let (_, capacity) = message_and_capacity(image);
            let other = super::other_message(rng, message, capacity);
            ours(image, &other)
        }
        4 if blocks(image) > 0 => {
            let block = rng.below(blocks(image));
            vec![idle(image, block); rng.between(1, 3)]
        }
        _ => good(rng, image, message),
    };
    if blocks(image) > 0 {
        for _ in 0..rng.pick(&[0, 0, 0, 1, 1, 2]) {
            spoil(rng, image, message, &mut list);
        }
    }
    let mut bytes = list.concat();
    match rng.below(30) {
        0 => bytes.truncate(rng.below(bytes.len() + 1)),
        1 => bytes.extend(rng.tail(&[1, 3, size + 2, size + 3, size + 4])),
        2 => {
            bytes.pop();
        }
        3 if !bytes.is_empty() => {
            let at = rng.below(bytes.len());
            bytes[at] ^= 1 << rng.below(8);
        }
        _ => {}
    }
    bytes
}

/// One command of any kind, for the model.
pub fn command(rng: &mut Rng, image: &[u8], message: &[u8]) -> Vec<u8> {
    let size = block_size(image);
    let list = split(&any(rng, image, message), size);
    let mut command = match list.is_empty() {
        false => list[rng.below(list.len())].clone(),
        true => write(rng.below(256), &rng.bytes(size)),
    };
    match rng.below(16) {
        0 => command.truncate(rng.below(command.len() + 1)),
        1 => command.extend(rng.tail(&[1, size])),
        2 => command[0] = rng.pick(&[0x00, 0x04, 0x42]),
        3 => command = write(rng.below(256), &rng.bytes(size)),
        4 => command = write(image.len() / size, &rng.bytes(size)),
        5 => command = write(blocks(image).saturating_sub(1), &rng.bytes(size)),
        6 => command = write(0, &rng.bytes(size)),
        _ => {}
    }
    command
}
