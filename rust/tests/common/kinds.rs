//! The types of tags for tests that are alike for all of them: tags to write, their blocks and
//! commands, and our list by the reference.

use super::{lists2, lists3, lists6, tags2, tags3, tags6, Rng};
use crate::reference::{type2, type3, type6, Refusal};

/// A type of tag, with what a caller states besides.
pub trait Kind: Sized {
    /// A tag that is meant to read, and often to be writable.
    fn tag(rng: &mut Rng) -> (Self, Vec<u8>);
    fn message_and_capacity(&self, image: &[u8]) -> (Vec<u8>, usize);

    /// Writing, by the reference.
    fn write(&self, image: &[u8], message: &[u8], list: &mut [u8]) -> Result<usize, Refusal>;
    /// Our list, by the reference; empty if writing is refused.
    fn ours(&self, image: &[u8], message: &[u8]) -> Vec<u8>;
    /// A list of any kind, for the judge.
    fn foreign(&self, rng: &mut Rng, image: &[u8], message: &[u8]) -> Vec<u8>;

    fn block_size(&self) -> usize;
    /// Cuts a list of well-formed commands into its commands.
    fn split(&self, list: &[u8]) -> Vec<Vec<u8>>;
    /// The blocks that a command names, with their data.
    fn parts<'a>(&self, command: &'a [u8]) -> Vec<(usize, &'a [u8])>;
    /// The command that writes these blocks.
    fn command(&self, parts: &[(usize, &[u8])]) -> Vec<u8>;

    /// Stores what a command says, without a model.
    fn store(&self, image: &mut [u8], command: &[u8]) {
        let size = self.block_size();
        for (block, data) in self.parts(command) {
            image[size * block..size * (block + 1)].copy_from_slice(data);
        }
    }

    /// The tag after all commands of a list.
    fn after(&self, image: &[u8], list: &[u8]) -> Vec<u8> {
        let mut image = image.to_vec();
        for command in self.split(list) {
            self.store(&mut image, &command);
        }
        image
    }
}

pub struct Type2;

impl Kind for Type2 {
    fn tag(rng: &mut Rng) -> (Self, Vec<u8>) {
        let image = match rng.below(20) {
            0 | 1 => tags2::defaults()[rng.below(4)].clone(),
            2 => tags2::crowded(rng, 170),
            _ => tags2::valid(rng),
        };
        (Type2, image)
    }

    fn message_and_capacity(&self, image: &[u8]) -> (Vec<u8>, usize) {
        tags2::message_and_capacity(image)
    }

    fn write(&self, image: &[u8], message: &[u8], list: &mut [u8]) -> Result<usize, Refusal> {
        type2::write(image, message, list)
    }

    fn ours(&self, image: &[u8], message: &[u8]) -> Vec<u8> {
        lists2::ours(image, message).concat()
    }

    fn foreign(&self, rng: &mut Rng, image: &[u8], message: &[u8]) -> Vec<u8> {
        lists2::any(rng, image, message)
    }

    fn block_size(&self) -> usize {
        4
    }

    fn split(&self, list: &[u8]) -> Vec<Vec<u8>> {
        list.chunks(6).map(<[u8]>::to_vec).collect()
    }

    fn parts<'a>(&self, command: &'a [u8]) -> Vec<(usize, &'a [u8])> {
        vec![(command[1] as usize, &command[2..])]
    }

    fn command(&self, parts: &[(usize, &[u8])]) -> Vec<u8> {
        let [(block, data)] = parts else {
            panic!("one block a command")
        };
        [&[0xA2, *block as u8], *data].concat()
    }
}

pub struct Type3 {
    pub idm: [u8; 8],
}

impl Kind for Type3 {
    fn tag(rng: &mut Rng) -> (Self, Vec<u8>) {
        let idm = rng.next().to_be_bytes();
        let image = match rng.below(20) {
            0 | 1 => tags3::default(),
            _ => tags3::valid(rng),
        };
        (Type3 { idm }, image)
    }

    fn message_and_capacity(&self, image: &[u8]) -> (Vec<u8>, usize) {
        tags3::message_and_capacity(image)
    }

    fn write(&self, image: &[u8], message: &[u8], list: &mut [u8]) -> Result<usize, Refusal> {
        type3::write(image, message, &self.idm, list)
    }

    fn ours(&self, image: &[u8], message: &[u8]) -> Vec<u8> {
        lists3::our_bytes(image, message, &self.idm)
    }

    fn foreign(&self, rng: &mut Rng, image: &[u8], message: &[u8]) -> Vec<u8> {
        lists3::any(rng, image, message, &self.idm)
    }

    fn block_size(&self) -> usize {
        16
    }

    fn split(&self, list: &[u8]) -> Vec<Vec<u8>> {
        lists3::split(list)
    }

    fn parts<'a>(&self, command: &'a [u8]) -> Vec<(usize, &'a [u8])> {
        let (block_list, data) = command[13..].split_at(2 * command[12] as usize);
        let blocks = block_list.chunks(2).map(|element| element[1] as usize);
        blocks.zip(data.chunks(16)).collect()
    }

    fn command(&self, parts: &[(usize, &[u8])]) -> Vec<u8> {
        let part = |&(block, data): &(usize, &[u8])| (block as u8, data.try_into().unwrap());
        lists3::bytes(&self.idm, &parts.iter().map(part).collect())
    }
}

pub struct Type6 {
    pub block_size: usize,
}

impl Type6 {
    /// The kind of an image, by the block size that it states.
    pub fn of(image: &[u8]) -> Self {
        let block_size = tags6::block_size(image);
        Type6 { block_size }
    }
}

impl Kind for Type6 {
    fn tag(rng: &mut Rng) -> (Self, Vec<u8>) {
        let image = match rng.below(20) {
            0 | 1 => tags6::default(),
            _ => tags6::writable(rng),
        };
        (Type6::of(&image), image)
    }

    fn message_and_capacity(&self, image: &[u8]) -> (Vec<u8>, usize) {
        tags6::message_and_capacity(image)
    }

    fn write(&self, image: &[u8], message: &[u8], list: &mut [u8]) -> Result<usize, Refusal> {
        type6::write(image, message, list)
    }

    fn ours(&self, image: &[u8], message: &[u8]) -> Vec<u8> {
        lists6::ours(image, message).concat()
    }

    fn foreign(&self, rng: &mut Rng, image: &[u8], message: &[u8]) -> Vec<u8> {
        lists6::any(rng, image, message)
    }

    fn block_size(&self) -> usize {
        self.block_size
    }

    fn split(&self, list: &[u8]) -> Vec<Vec<u8>> {
        lists6::split(list, self.block_size)
    }

    fn parts<'a>(&self, command: &'a [u8]) -> Vec<(usize, &'a [u8])> {
        vec![(command[2] as usize, &command[3..])]
    }

    fn command(&self, parts: &[(usize, &[u8])]) -> Vec<u8> {
        let [(block, data)] = parts else {
            panic!("one block a command")
        };
        lists6::write(*block, data)
    }
}
