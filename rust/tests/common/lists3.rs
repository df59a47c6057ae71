//! Foreign command lists for Type 3 tags.

use super::kinds::{Kind, Type3};
use super::tags3::{message_and_capacity, seal};
use super::Rng;
use crate::reference::type3;

/// A command before it is laid out in bytes: what each block is to hold, in order.
pub type Command = Vec<(u8, [u8; 16])>;

pub fn bytes(idm: &[u8; 8], command: &Command) -> Vec<u8> {
    let mut bytes = vec![0x08];
    bytes.extend(idm);
    bytes.extend([0x01, 0x09, 0x00, command.len() as u8]);
    bytes.extend(command.iter().flat_map(|(block, _)| [0x80, *block]));
    bytes.extend(command.iter().flat_map(|(_, data)| *data));
    bytes
}

/// Cuts a list of well-formed commands into its commands.
pub fn split(list: &[u8]) -> Vec<Vec<u8>> {
    let mut commands = Vec::new();
    let mut rest = list;
    while !rest.is_empty() {
        let (command, after) = rest.split_at(type3::command_len(rest[12] as usize));
        commands.push(command.to_vec());
        rest = after;
    }
    commands
}

/// Our list for a tag and a message; empty if writing is refused.
pub fn our_bytes(image: &[u8], message: &[u8], idm: &[u8; 8]) -> Vec<u8> {
    let mut list = vec![0; 8000];
    let count = type3::write(image, message, idm, &mut list).unwrap_or(0);
    let mut size = 0;
    for _ in 0..count {
        size += type3::command_len(list[size + 12] as usize);
    }
    list.truncate(size);
    list
}

fn ours(image: &[u8], message: &[u8]) -> Vec<Command> {
    let kind = Type3 { idm: [0; 8] };
    let part = |(block, data): (usize, &[u8])| (block as u8, data.try_into().unwrap());
    split(&kind.ours(image, message))
        .iter()
        .map(|command| kind.parts(command).into_iter().map(part).collect())
        .collect()
}

fn held(image: &[u8], block: usize) -> (u8, [u8; 16]) {
    let data = image[16 * block..16 * block + 16].try_into().unwrap();
    (block as u8, data)
}

fn after(image: &[u8], list: &[Command]) -> Vec<u8> {
    let mut image = image.to_vec();
    for (block, data) in list.iter().flatten() {
        let start = 16 * *block as usize;
        if start + 16 <= image.len() {
            image[start..start + 16].copy_from_slice(data);
        }
    }
    image
}

/// Our list with nothing left out, as 01 has it or, if not `all`, with only its first command put
/// back. Empty if writing is refused.
fn whole(image: &[u8], message: &[u8], width: usize, all: bool) -> Vec<Command> {
    let ours = ours(image, message);
    let Some(last) = ours.last() else {
        return ours;
    };
    let mut shut = image.to_vec();
    shut[9] = 0x0F;
    seal(&mut shut);
    let new = after(image, &ours);
    let mut blocks: Command = (1..=message.len().div_ceil(16))
        .map(|block| held(&new, block))
        .collect();
    blocks.retain(|&part| all || part != held(image, part.0 as usize));
    let mut list = vec![vec![held(&shut, 0)]];
    list.extend(blocks.chunks(width).map(<[_]>::to_vec));
    list.push(last.clone());
    list
}

/// The commands that lead back from the end of a whole list to the tag handed in.
fn back(image: &[u8], list: &[Command]) -> Vec<Command> {
    let mut closing = after(image, list);
    closing[9] = 0x0F;
    seal(&mut closing);
    let mut back = vec![vec![held(&closing, 0)]];
    for command in &list[1..list.len() - 1] {
        let old = command
            .iter()
            .map(|(block, _)| held(image, *block as usize));
        back.push(old.collect());
    }
    back.push(vec![held(image, 0)]);
    back
}

/// A list that is usually as good as ours; `width` blocks go in a command.
fn good(rng: &mut Rng, image: &[u8], message: &[u8], width: usize) -> Vec<Command> {
    let mut list = whole(image, message, width, rng.percent(70));
    if list.is_empty() {
        return list;
    }
    let nmaxb = u16::from_be_bytes([image[3], image[4]]) as usize;
    for _ in 0..rng.pick(&[0, 1, 1, 2, 3]) {
        let end = list.len() - 1;
        match rng.below(10) {
            0 => rng.shuffle(&mut list[1..end]),
            1 => {
                // The data blocks in other commands and another order.
                let mut parts: Vec<_> = list[1..end].concat();
                if rng.percent(50) {
                    rng.shuffle(&mut parts);
                }
                let mut middle: Vec<Command> = Vec::new();
                for part in parts {
                    match middle.last_mut() {
                        Some(last)
                            if last.len() < width
                                && last.iter().all(|(block, _)| *block != part.0)
                                && rng.percent(60) =>
                        {
                            last.push(part)
                        }
                        _ => middle.push(vec![part]),
                    }
                }
                list.splice(1..end, middle);
            }
            2 => {
                let at = rng.below(list.len());
                list.insert(at, list[at].clone());
            }
            3 if end > 1 => {
                let again = list[rng.between(1, end - 1)].clone();
                list.insert(rng.between(1, end), again);
            }
            4 | 5 => {
                // Blocks are written with what they hold at that time.
                let at = rng.below(list.len() + 1);
                let now = after(image, &list[..at]);
                let block = rng.below(nmaxb + 1);
                list.insert(at, vec![held(&now, block)]);
            }
            6 => {
                let mut whole = list.clone();
                whole.extend(back(image, &list));
                whole.extend(list);
                list = whole;
            }
            7 => {
                // Clearing Ln together with setting WriteFlag: not our list, but a good one.
                list[0][0].1[11..14].fill(0);
                seal(&mut list[0][0].1);
            }
            8 if width > 1 && end > 1 => {
                // The last data blocks in one command with block 0.
                if list[end - 1].len() < width {
                    let data = list.remove(end - 1);
                    list[end - 1].extend(data);
                }
            }
            _ => {
                // The last block filled with something else.
                let last = (message.len().div_ceil(16), message.len() % 16);
                for (block, data) in list.iter_mut().flatten() {
                    if *block as usize == last.0 && last.1 > 0 {
                        data[rng.between(last.1, 15)] = rng.byte();
                    }
                }
            }
        }
    }
    if rng.percent(30) && list[0] == [held(image, 0)] {
        list.remove(0);
    }
    list
}

/// Damage to a list of commands.
fn spoil(rng: &mut Rng, image: &[u8], list: &mut Vec<Command>) {
    if list.is_empty() {
        return;
    }
    let at = rng.below(list.len());
    let end = list.len() - 1;
    match rng.below(17) {
        0 if !list[at].is_empty() => {
            list[at][0].0 = rng.pick(&[0, 1, list[at][0].0.wrapping_add(1), 255])
        }
        1 if !list[at].is_empty() => {
            let part = rng.below(list[at].len());
            list[at][part].1[rng.below(16)] ^= 1 << rng.below(8);
        }
        2 => {
            list.remove(0);
        }
        3 => {
            list.remove(at);
        }
        4 => {
            list.pop();
        }
        5 => list.truncate(at),
        6 => list.swap(at, end),
        7 => list.swap(0, at),
        8 if !list[at].is_empty() => {
            let part = list[at][rng.below(list[at].len())];
            list[at].push(part);
        }
        9 => list[at].clear(),
        10 | 11 => {
            // Another value for a byte of block 0, the checksum put right.
            for (block, data) in list[at].iter_mut() {
                if *block == 0 {
                    let byte = rng.pick(&[0, 1, 5, 9, 9, 10, 11, 12, 13, 13, 13]);
                    data[byte] = rng.pick(&[0x00, 0x01, 0x0F, 0x10, 0x11]);
                    seal(data);
                }
            }
        }
        12 => {
            let block = rng.below(image.len() / 16);
            let data = rng.bytes(16).try_into().unwrap();
            list.insert(at, vec![(block as u8, data)]);
        }
        13 => {
            let mut part = held(image, rng.below(image.len() / 16));
            part.1[rng.below(16)] ^= 1;
            list.insert(at, vec![part]);
        }
        14 => {
            let parts: Vec<_> = list.concat();
            *list = vec![parts.into_iter().take(9).collect()];
        }
        15 => {
            let data = list.remove(at);
            let to = at.min(list.len().saturating_sub(1));
            if let Some(command) = list.get_mut(to) {
                command.extend(data);
            }
        }
        _ => rng.shuffle(list),
    }
}

/// A list of any kind, for the judge.
pub fn any(rng: &mut Rng, image: &[u8], message: &[u8], idm: &[u8; 8]) -> Vec<u8> {
    let width = image.get(2).map_or(0, |&nbw| nbw.min(8)) as usize;
    let mut list = match rng.below(16) {
        0 => ours(image, message),
        1 => Vec::new(),
        2 | 3 => {
            let (_, capacity) = message_and_capacity(image);
            let other = super::other_message(rng, message, capacity);
            ours(image, &other)
        }
        4 if image.len() >= 16 => {
            let block = rng.below(image.len() / 16) % 256;
            vec![vec![held(image, block)]; rng.between(1, 3)]
        }
        _ => good(rng, image, message, width),
    };
    if image.len() >= 16 {
        for _ in 0..rng.pick(&[0, 0, 0, 1, 1, 2]) {
            spoil(rng, image, &mut list);
        }
    }
    let mut list: Vec<u8> = list
        .iter()
        .flat_map(|command| bytes(idm, command))
        .collect();
    match rng.below(30) {
        0 => list.truncate(rng.below(list.len() + 1)),
        1 => list.extend(rng.tail(&[1, 12, 13, 31])),
        2 | 3 if !list.is_empty() => {
            let at = rng.below(list.len());
            list[at] ^= 1 << rng.below(8);
        }
        4 if !list.is_empty() => list[rng.below(13)] = rng.byte(),
        _ => {}
    }
    list
}

/// One command of any kind, for the model.
pub fn command(rng: &mut Rng, image: &[u8], message: &[u8], idm: &[u8; 8]) -> Vec<u8> {
    let list = any(rng, image, message, idm);
    let mut commands = Vec::new();
    let mut rest = &list[..];
    while rest.len() >= 13 {
        let size = type3::command_len(rest[12] as usize).min(rest.len());
        commands.push(&rest[..size]);
        rest = &rest[size..];
    }
    let mut command = match commands.is_empty() {
        false => commands[rng.below(commands.len())].to_vec(),
        true => bytes(idm, &vec![(rng.byte(), [rng.byte(); 16])]),
    };
    match rng.below(20) {
        0 => command.truncate(rng.below(command.len() + 1)),
        1 => command.extend(rng.tail(&[1, 18])),
        2 | 3 if command.len() >= 15 => command[rng.below(15)] = rng.byte(),
        4 if command.len() >= 15 => {
            let nmaxb =
                u16::from_be_bytes([*image.get(3).unwrap_or(&0), *image.get(4).unwrap_or(&0)]);
            command[14] = nmaxb.wrapping_add(rng.pick(&[0, 1, 0xFFFF])) as u8;
        }
        _ => {}
    }
    command
}
