//! A list in full, a block at a time, as 01 and E2 have it, and what E4 leaves of it: the naive
//! form, to check the reference.

use std::collections::BTreeSet;

pub struct Full {
    pub block_size: usize,
    /// The block of the first and of the last command.
    pub guard: usize,
    /// 02's condition under which the first command is left out.
    pub is_shut: bool,
    /// The tag handed in, the tag after the first command alone, and the tag when all is written.
    pub image: Vec<u8>,
    pub shut: Vec<u8>,
    pub new: Vec<u8>,
    /// The bytes to set.
    pub to_set: BTreeSet<usize>,
}

impl Full {
    fn block<'a>(&self, image: &'a [u8], block: usize) -> (usize, &'a [u8]) {
        let start = self.block_size * block;
        (block, &image[start..start + self.block_size])
    }

    fn differs(&self, block: usize) -> bool {
        self.block(&self.image, block) != self.block(&self.new, block)
    }

    /// The blocks and data of each command that is left, `w` blocks to a command in the middle.
    pub fn left(&self, w: usize) -> Vec<Vec<(usize, &[u8])>> {
        let mut list = vec![vec![self.block(&self.shut, self.guard)]];
        if self.is_shut {
            list.clear();
        }
        let touched: BTreeSet<usize> = self.to_set.iter().map(|a| a / self.block_size).collect();
        let mut remaining = Vec::new();
        for block in touched {
            if block != self.guard && self.differs(block) {
                remaining.push(self.block(&self.new, block));
            }
        }
        list.extend(remaining.chunks(w).map(<[_]>::to_vec));
        list.push(vec![self.block(&self.new, self.guard)]);
        list
    }

    /// How many commands are left: one if the first stays, r/w rounded up, and one. r counts the
    /// blocks of the image other than the guard block whose new bytes differ.
    pub fn count(&self, w: usize) -> usize {
        let blocks = 0..self.image.len() / self.block_size;
        let r = blocks.filter(|&block| block != self.guard && self.differs(block));
        usize::from(!self.is_shut) + r.count().div_ceil(w) + 1
    }
}
