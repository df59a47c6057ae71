//! Tags that hold a part of the message already, for tests of what a list leaves out (E4): as a
//! write that broke off leaves them, or an older message that is much the same.

use super::kinds::Kind;
use super::{fitting_message, Rng};

/// A tag, a message that it takes, and the tag when all is written.
pub struct Rewrite<K> {
    pub kind: K,
    pub message: Vec<u8>,
    pub before: Vec<u8>,
    pub after: Vec<u8>,
    /// The guard block, and the other blocks that change.
    guard: usize,
    others: Vec<usize>,
}

impl<K: Kind> Rewrite<K> {
    pub fn random(rng: &mut Rng) -> Self {
        loop {
            let (kind, before) = K::tag(rng);
            let (old, capacity) = kind.message_and_capacity(&before);
            if capacity == 0 {
                continue;
            }
            let message = fitting_message(rng, &old, capacity);
            if let Some(rewrite) = Rewrite::new(kind, before, message) {
                return rewrite;
            }
        }
    }

    /// `None` if writing is refused.
    fn new(kind: K, before: Vec<u8>, message: Vec<u8>) -> Option<Self> {
        let list = kind.ours(&before, &message);
        let guard = kind.parts(kind.split(&list).last()?)[0].0;
        let after = kind.after(&before, &list);
        let size = kind.block_size();
        let blocks = before.chunks(size).zip(after.chunks(size)).enumerate();
        let changes = blocks.filter(|&(block, (old, new))| block != guard && old != new);
        let others = changes.map(|(block, _)| block).collect();
        Some(Rewrite {
            kind,
            message,
            before,
            after,
            guard,
            others,
        })
    }

    /// A tag with its guard block shut. The first command does that, unless the block is shut.
    fn shut(&self, image: &[u8]) -> Vec<u8> {
        let commands = self.kind.split(&self.kind.ours(image, &self.message));
        let mut image = image.to_vec();
        match &commands[..] {
            [first, _, ..] if self.kind.parts(first)[0].0 == self.guard => {
                self.kind.store(&mut image, first);
            }
            _ => {}
        }
        image
    }

    /// The tags on the way, in any order of the writes: the guard block as it was, shut, shut with
    /// its other bytes new, and written; with each choice of the other blocks that is of interest.
    /// Written on, each ends as `after`. Those that do not read are left out.
    pub fn halfway(&self, rng: &mut Rng) -> Vec<Vec<u8>> {
        let guards = [
            self.before.clone(),
            self.shut(&self.before),
            self.shut(&self.after),
            self.after.clone(),
        ];
        let count = self.others.len();
        let random: Vec<bool> = self.others.iter().map(|_| rng.percent(50)).collect();
        let choices: [&dyn Fn(usize) -> bool; 8] = [
            &|_| false,
            &|_| true,
            &|i| i == 0,
            &|i| i != 0,
            &|i| i + 1 == count,
            &|i| i + 1 != count,
            &|i| i < count / 2,
            &|i| random[i],
        ];
        let size = self.kind.block_size();
        let mut tags = Vec::new();
        for guard in &guards {
            for is_there in choices {
                let mut tag = self.before.clone();
                let mut copy = |from: &[u8], block: usize| {
                    let bytes = size * block..size * (block + 1);
                    tag[bytes.clone()].copy_from_slice(&from[bytes]);
                };
                copy(guard, self.guard);
                for (i, &block) in self.others.iter().enumerate() {
                    if is_there(i) {
                        copy(&self.after, block);
                    }
                }
                tags.push(tag);
            }
        }
        tags.retain(|tag| !self.kind.ours(tag, &self.message).is_empty());
        tags
    }

    /// Tags that hold nearly this message, open and shut: one with a byte changed, one shorter by a
    /// byte, one longer by a byte.
    pub fn near(&self, rng: &mut Rng) -> Vec<Vec<u8>> {
        let message = &self.message;
        let last = message.len() - 1;
        let mut messages = vec![message[..last].to_vec(), message.clone()];
        messages[1].push(rng.byte());
        for at in [0, last / 2, last, rng.below(last + 1)] {
            let mut changed = message.clone();
            changed[at] ^= 1 << rng.below(8);
            messages.push(changed);
        }
        let mut tags = Vec::new();
        for message in messages {
            let list = self.kind.ours(&self.before, &message);
            if !list.is_empty() {
                let open = self.kind.after(&self.before, &list);
                tags.push(self.shut(&open));
                tags.push(open);
            }
        }
        tags
    }
}
