//! Lays out the TLVs of random Type 2 tags.

use super::tags2::END;
use super::Rng;

/// Lays out TLVs the way a walk will find them.
pub struct Layout {
    pub image: Vec<u8>,
    pub place: usize,
    pub end: usize,
    pub skip: Vec<bool>,
}

impl Layout {
    /// A layout that starts at 16 in an image with this container size.
    pub fn new(image: Vec<u8>, size: usize) -> Self {
        Layout {
            image,
            place: 16,
            end: 16 + 8 * size,
            skip: vec![false; END],
        }
    }

    fn settle(&mut self) {
        while self.place < self.end && self.skip[self.place] {
            self.place += 1;
        }
    }

    /// Whether the byte found room.
    pub fn put(&mut self, byte: u8) -> bool {
        self.settle();
        if self.place < self.end {
            self.image[self.place] = byte;
            self.place += 1;
            true
        } else {
            false
        }
    }

    pub fn put_all(&mut self, bytes: &[u8]) -> bool {
        bytes.iter().all(|&byte| self.put(byte))
    }

    pub fn free(&self) -> usize {
        (self.place..self.end).filter(|&a| !self.skip[a]).count()
    }

    /// A control TLV whose area starts at `wish` or, if none can say that, before it.
    pub fn control(&mut self, rng: &mut Rng, wish: usize, size: u8) -> bool {
        let lock = rng.percent(40);
        let mut best = (1, 0, usize::MAX);
        for power in 1..16 {
            let page = (wish >> power).min(15);
            let offset = (wish - (page << power)).min(15);
            let gap = wish - (page << power) - offset;
            if gap < best.2 || (gap == best.2 && rng.percent(50)) {
                best = (power, page << 4 | offset, gap);
            }
        }
        let high = if lock {
            rng.between(1, 15)
        } else {
            rng.below(16)
        };
        let value = [best.1 as u8, size, (high << 4 | best.0) as u8];
        let done = self.put_all(&[if lock { 1 } else { 2 }, 3]) && self.put_all(&value);
        let start = ((best.1 >> 4) << best.0) + (best.1 & 15);
        let bytes = match (size, lock) {
            (0, false) => 256,
            (0, true) => 32,
            (size, false) => size as usize,
            (size, true) => (size as usize).div_ceil(8),
        };
        for address in start.max(self.place)..(start + bytes).min(END) {
            self.skip[address] = true;
        }
        done
    }

    pub fn length(&mut self, n: usize) -> bool {
        if n <= 254 {
            self.put(n as u8)
        } else {
            self.put_all(&[0xFF, (n >> 8) as u8, n as u8])
        }
    }

    pub fn other(&mut self, rng: &mut Rng) -> bool {
        let kind = match rng.byte() {
            byte @ (0x00..=0x03 | 0xFE) => byte | 0x40,
            byte => byte,
        };
        let n = match rng.below(12) {
            0 => 254,
            1 => rng.between(255, 300),
            2 => 0,
            _ => rng.below(12),
        };
        let n = n.min(self.free().saturating_sub(4));
        self.put(kind) && self.length(n) && (0..n).all(|_| self.put(rng.byte()))
    }

    pub fn area(&mut self, rng: &mut Rng) -> bool {
        // Five bytes for the TLV itself; then the place where the next type byte would be.
        self.settle();
        let next = self.place + 5;
        let wish = match rng.below(12) {
            0..=3 => next + rng.below(5),
            4..=6 => next + rng.below(40),
            7 => rng.below(END),
            8 => self.end.saturating_sub(rng.below(12)),
            9 => self.image.len() + rng.below(4),
            10 => rng.between(END, 15 << 15),
            _ => self.place.saturating_sub(rng.below(20)),
        };
        let size = match rng.below(10) {
            0 => 0,
            1 => rng.byte(),
            2 => rng.between(8, 40) as u8,
            _ => rng.between(1, 9) as u8,
        };
        self.control(rng, wish, size)
    }
}
