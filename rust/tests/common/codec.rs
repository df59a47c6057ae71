//! Random commands and bytes for the codec of each type.

use super::{lists3, Rng};
use crate::reference::type3::Command;
use crate::reference::type6;

pub struct Type2 {
    pub block: u64,
    pub data: [u8; 4],
    pub blocks: u64,
    /// The length of the buffer to encode into.
    pub buffer: usize,
    /// What is to be decoded.
    pub bytes: Vec<u8>,
}

pub fn type2(rng: &mut Rng) -> Type2 {
    let blocks = match rng.below(8) {
        0 => rng.pick(&[0, 1, 3, 4, 5, 255, 256, 257, 70_000, u64::MAX]),
        1 => rng.next(),
        2 => rng.below(20) as u64,
        _ => rng.between(16, 256) as u64,
    };
    let block = match rng.below(8) {
        0 => rng.pick(&[0, 3, 4, 5, 255, 256, 257, 260, 65_540, u64::MAX]),
        1 => rng.next(),
        2 => blocks.wrapping_sub(rng.below(3) as u64),
        3 => blocks.wrapping_add(rng.below(2) as u64),
        _ => rng.between(0, 50) as u64,
    };
    let data: [u8; 4] = rng.bytes(4).try_into().unwrap();
    let mut bytes = vec![0xA2, block as u8];
    bytes.extend(data);
    match rng.below(10) {
        0 => bytes.truncate(rng.below(7)),
        1 => bytes.push(rng.byte()),
        2 => bytes[0] = rng.byte(),
        _ => {}
    }
    let buffer = match rng.below(4) {
        0 => rng.below(6),
        1 => 6,
        _ => rng.between(6, 20),
    };
    Type2 {
        block,
        data,
        blocks,
        buffer,
        bytes,
    }
}

pub struct Type3 {
    pub command: Command,
    pub idm: [u8; 8],
    pub nbw: u64,
    pub nmaxb: u64,
    pub buffer: usize,
    pub bytes: Vec<u8>,
    /// What the place for the decoded command holds before the call.
    pub held: Command,
}

fn random_command(rng: &mut Rng) -> Command {
    let blocks: Vec<u64> = (0..8).map(|_| rng.next()).collect();
    Command {
        count: rng.next(),
        blocks: blocks.try_into().unwrap(),
        data: rng.bytes(128).try_into().unwrap(),
    }
}

pub fn type3(rng: &mut Rng) -> Type3 {
    let idm = rng.next().to_be_bytes();
    let nbw = match rng.below(8) {
        0 => rng.pick(&[0, 7, 8, 9, 255, 256, 70_000, u64::MAX]),
        1 => rng.next(),
        2 => 1,
        _ => rng.between(1, 9) as u64,
    };
    let nmaxb = match rng.below(8) {
        0 => rng.pick(&[0, 1, 254, 255, 256, 65_535, 70_000, u64::MAX]),
        1 => rng.next(),
        _ => rng.between(3, 255) as u64,
    };
    let mut command = random_command(rng);
    command.count = match rng.below(10) {
        0 => rng.pick(&[0, 8, 9, 16, 255, 256, 257, u64::MAX]),
        1 => nbw.saturating_add(1),
        _ => rng.between(1, 8).min(nbw as usize) as u64,
    };
    for i in 0..command.count.min(8) as usize {
        let limit = nmaxb.min(255) as usize;
        command.blocks[i] = match rng.below(60) {
            0 => rng.next(),
            1 => nmaxb.saturating_add(rng.below(2) as u64),
            2 => 256 + rng.below(3) as u64,
            3 => command.blocks[rng.below(8)],
            4 | 5 => rng.below(limit + 1) as u64,
            _ => ((i * 31 + rng.below(31)) % (limit + 1)) as u64,
        };
    }
    let parts: lists3::Command = (0..command.count.min(9) as usize)
        .map(|i| {
            let data: [u8; 16] = match command.data.get(16 * i..16 * i + 16) {
                Some(data) => data.try_into().unwrap(),
                None => [0; 16],
            };
            (command.blocks[i % 8] as u8, data)
        })
        .collect();
    let mut bytes = lists3::bytes(&idm, &parts);
    match rng.below(16) {
        0 => bytes.truncate(rng.below(bytes.len() + 1)),
        1 => bytes.push(rng.byte()),
        2 | 3 => {
            let at = rng.below(bytes.len().min(31));
            bytes[at] ^= 1 << rng.below(8);
        }
        _ => {}
    }
    let needed = bytes.len();
    let buffer = match rng.below(5) {
        0 => rng.below(needed + 1),
        1 => needed.saturating_sub(1),
        2 => needed,
        _ => needed + rng.below(200),
    };
    Type3 {
        command,
        idm,
        nbw,
        nmaxb,
        buffer,
        bytes,
        held: random_command(rng),
    }
}

pub struct Type6 {
    pub command: type6::Command,
    pub block_size: u64,
    pub blocks: u64,
    pub buffer: usize,
    pub bytes: Vec<u8>,
    /// What the place for the decoded command holds before the call.
    pub held: type6::Command,
}

pub fn type6(rng: &mut Rng) -> Type6 {
    let block_size = match rng.below(10) {
        0 => rng.pick(&[0, 33, 64, 255, 256, 260, 65_540, (1 << 32) + 4, u64::MAX]),
        1 => rng.next(),
        2 | 3 => rng.pick(&[1, 2, 31, 32]),
        _ => rng.between(1, 32) as u64,
    };
    let blocks = match rng.below(8) {
        0 => rng.pick(&[0, 1, 2, 255, 256, 257, 70_000, u64::MAX]),
        1 => rng.next(),
        2 => rng.below(20) as u64,
        3 | 4 => 256,
        _ => rng.between(16, 256) as u64,
    };
    let block = match rng.below(8) {
        0 => rng.pick(&[0, 1, 254, 255, 256, 257, 65_540, u64::MAX]),
        1 => rng.next(),
        2 => blocks.wrapping_sub(rng.below(3) as u64),
        3 => blocks.wrapping_add(rng.below(2) as u64),
        4 => rng.between(250, 256) as u64,
        _ => rng.below(50) as u64,
    };
    let mut random = |block| type6::Command {
        block,
        data: rng.bytes(32).try_into().unwrap(),
    };
    let (command, held) = (random(block), random(!block));
    // As many bytes as the low byte of the size says, as far as there are.
    let size = (block_size % 256).min(40) as usize;
    let mut bytes = vec![0x02, 0x21, block as u8];
    bytes.extend(command.data.iter().chain(&held.data).take(size));
    match rng.below(14) {
        0 => bytes.truncate(rng.below(bytes.len() + 1)),
        1 => bytes.push(rng.byte()),
        2 => bytes[0] = rng.pick(&[0x00, 0x04, 0x12, 0x22, 0x42]),
        3 => bytes[1] = rng.pick(&[0x20, 0x22, 0x23, 0x24]),
        4 => bytes[rng.below(2)] ^= 1 << rng.below(8),
        _ => {}
    }
    let buffer = match rng.below(5) {
        0 => rng.below(size + 4),
        1 => size + 2,
        2 => size + 3,
        _ => size + 3 + rng.below(40),
    };
    Type6 {
        command,
        block_size,
        blocks,
        buffer,
        bytes,
        held,
    }
}
