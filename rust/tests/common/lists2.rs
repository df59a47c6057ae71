//! Foreign command lists for Type 2 tags.

use super::Rng;
use crate::reference::type2;

pub type Command = [u8; 6];

/// Our list for a tag and a message; empty if writing is refused.
pub fn ours(image: &[u8], message: &[u8]) -> Vec<Command> {
    let mut list = vec![0; 6 * 260];
    match type2::write(image, message, &mut list) {
        Ok(count) => split(&list[..6 * count]),
        Err(_) => Vec::new(),
    }
}

pub fn split(list: &[u8]) -> Vec<Command> {
    list.chunks_exact(6)
        .map(|command| command.try_into().unwrap())
        .collect()
}

/// A command that writes what a block of the image holds.
fn idle(image: &[u8], block: usize) -> Command {
    let held = &image[4 * block..4 * block + 4];
    [0xA2, block as u8, held[0], held[1], held[2], held[3]]
}

fn store(image: &mut [u8], command: &Command) {
    let start = 4 * command[1] as usize;
    if start + 4 <= image.len() {
        image[start..start + 4].copy_from_slice(&command[2..]);
    }
}

fn after(image: &[u8], list: &[Command]) -> Vec<u8> {
    let mut image = image.to_vec();
    list.iter().for_each(|command| store(&mut image, command));
    image
}

/// Our list with nothing left out or, if not `all`, with only its first command put back. On a tag
/// with areas, blocks without a byte to set may be in between. Empty if writing is refused.
fn whole(image: &[u8], message: &[u8], all: bool) -> Vec<Command> {
    let ours = ours(image, message);
    let Some(last) = ours.last() else {
        return ours;
    };
    let guard = last[1] as usize;
    let first = match ours[0] {
        first if first[1] == last[1] && ours.len() > 1 => first,
        _ => idle(image, guard), // it is shut already
    };
    let new = after(image, &ours);
    let named = ours.iter().map(|command| command[1] as usize);
    let end = named.fold(guard + message.len() / 4, usize::max);
    let blocks = (guard + 1..=end).map(|block| idle(&new, block));
    let mut list = vec![first];
    list.extend(blocks.filter(|command| all || ours.contains(command)));
    list.push(*last);
    list
}

/// The commands that lead back from the end of a whole list to the tag handed in.
fn back(image: &[u8], list: &[Command]) -> Vec<Command> {
    let (Some(first), Some(last)) = (list.first(), list.last()) else {
        return Vec::new();
    };
    // The byte that the first command sets to 00h is the first length byte.
    let held = idle(image, first[1] as usize);
    let length = (2..6).find(|&i| first[i] != held[i]);
    let mut back = Vec::new();
    let mut cleared = *last;
    if let Some(length) = length {
        cleared[length] = 0;
        back.push(cleared);
    } else {
        back.push(*first); // the tag handed in was empty
    }
    let middle = &list[1..list.len() - 1];
    back.extend(middle.iter().map(|c| idle(image, c[1] as usize)));
    back.push(held);
    back
}

/// A list that is usually as good as ours.
fn good(rng: &mut Rng, image: &[u8], message: &[u8]) -> Vec<Command> {
    let mut list = whole(image, message, rng.percent(70));
    if list.is_empty() {
        return list;
    }
    let blocks = image.len() / 4;
    for _ in 0..rng.pick(&[0, 1, 1, 2, 3]) {
        let end = list.len() - 1;
        match rng.below(8) {
            0 => rng.shuffle(&mut list[1..end]),
            1 => list[1..end].reverse(),
            2 => {
                // A command once more, right after itself.
                let at = rng.below(list.len());
                list.insert(at, list[at]);
            }
            3 => {
                // One of the middle commands again, still before the last.
                if end > 1 {
                    let again = list[rng.between(1, end - 1)];
                    let at = rng.between(1, end);
                    list.insert(at, again);
                }
            }
            4 | 5 => {
                // A block is written with what it holds at that time.
                let at = rng.below(list.len() + 1);
                let block = match rng.below(3) {
                    0 => blocks - 1 - rng.below(blocks.min(8)),
                    _ => rng.between(4, blocks - 1),
                };
                let now = after(image, &list[..at]);
                list.insert(at, idle(&now, block.max(4)));
            }
            6 => {
                let mut whole = list.clone();
                whole.extend(back(image, &list));
                whole.extend(&list);
                list = whole;
            }
            _ => {
                // The first command already with the other new bytes of its block.
                let (first, last) = (list[0], list[end]);
                let length = rng.between(2, 5);
                list[0] = last;
                list[0][length] = first[length];
            }
        }
    }
    if rng.percent(30) && list[0] == idle(image, list[0][1] as usize) {
        list.remove(0);
    }
    list
}

/// Damage to a list of commands.
fn spoil(rng: &mut Rng, image: &[u8], message: &[u8], list: &mut Vec<Command>) {
    if list.is_empty() {
        return;
    }
    let at = rng.below(list.len());
    match rng.below(16) {
        0 => list[at][0] = rng.byte(),
        1 => list[at][1] = rng.pick(&[0, 3, 4, 255, (image.len() / 4) as u8]),
        2 => list[at][1] = list[at][1].wrapping_add(1),
        3 | 4 => {
            let byte = rng.between(2, 5);
            list[at][byte] ^= 1 << rng.below(8);
        }
        5 => {
            // A length byte, perhaps.
            let end = rng.pick(&[0, list.len() - 1]);
            let byte = rng.between(2, 5);
            list[end][byte] = rng.pick(&[0x01, 0x02, 0xFE, 0xFF, message.len() as u8]);
        }
        6 => {
            list.remove(0);
        }
        7 => {
            list.remove(at);
        }
        8 => {
            list.pop();
        }
        9 => list.truncate(at),
        10 => {
            let end = list.len() - 1;
            list.swap(at, end);
        }
        11 => list.swap(0, at),
        12 => {
            let block = rng.below(image.len() / 4);
            let bytes = rng.bytes(4);
            list.insert(
                at,
                [0xA2, block as u8, bytes[0], bytes[1], bytes[2], bytes[3]],
            );
        }
        13 => list[at][rng.between(2, 5)] = 0xFE,
        14 => {
            // The bytes of the block, all kept but one.
            let mut command = idle(image, list[at][1] as usize % (image.len() / 4));
            command[rng.between(2, 5)] = rng.byte();
            list[at] = command;
        }
        _ => rng.shuffle(list),
    }
}

/// A list of any kind, for the judge.
pub fn any(rng: &mut Rng, image: &[u8], message: &[u8]) -> Vec<u8> {
    let mut list = match rng.below(16) {
        0 => ours(image, message),
        1 => Vec::new(),
        2 | 3 => {
            let (_, capacity) = super::tags2::message_and_capacity(image);
            let other = super::other_message(rng, message, capacity);
            ours(image, &other)
        }
        4 if image.len() >= 64 => {
            let block = rng.between(4, image.len() / 4 - 1);
            vec![idle(image, block % 256); rng.between(1, 3)]
        }
        _ => good(rng, image, message),
    };
    if image.len() >= 64 {
        for _ in 0..rng.pick(&[0, 0, 0, 1, 1, 2]) {
            spoil(rng, image, message, &mut list);
        }
    }
    let mut bytes = list.concat();
    match rng.below(40) {
        0 => bytes.truncate(rng.below(bytes.len() + 1)),
        1 => bytes.extend(rng.tail(&[1, 5, 6, 7])),
        2 if !bytes.is_empty() => {
            let at = rng.below(bytes.len());
            bytes[at] ^= 1 << rng.below(8);
        }
        _ => {}
    }
    bytes
}

/// One command of any kind, for the model.
pub fn command(rng: &mut Rng, image: &[u8], message: &[u8]) -> Vec<u8> {
    let list = any(rng, image, message);
    let mut command = match split(&list) {
        all if !all.is_empty() => all[rng.below(all.len())].to_vec(),
        _ => {
            let mut command = rng.bytes(6);
            command[0] = 0xA2;
            command
        }
    };
    match rng.below(12) {
        0 => command[1] = rng.byte(),
        1 => command[1] = (image.len() / 4).wrapping_sub(rng.below(3)) as u8,
        2 => command[1] = rng.between(2, 5) as u8,
        3 => command[0] = rng.byte(),
        4 => command.truncate(rng.below(6)),
        5 => command.extend(rng.tail(&[1, 6])),
        6 => command[2..].copy_from_slice(&rng.bytes(4)),
        _ => {}
    }
    command
}
