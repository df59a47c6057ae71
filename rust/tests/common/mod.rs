//! Seeded random cases for the tests: tags, messages, foreign command lists, records, URIs; and
//! small helpers.

#![allow(dead_code, unused_imports)]

pub mod codec;
mod guarded;
pub mod kinds;
pub mod layout2;
pub mod lists2;
pub mod lists3;
pub mod lists6;
pub mod records;
pub mod rewrites;
pub mod tables;
pub mod tags2;
pub mod tags3;
pub mod tags6;
pub mod uris;

pub use guarded::Guarded;

use crate::reference::Refusal;

/// SplitMix64: small, seeded, good enough for test cases.
pub struct Rng(u64);

impl Rng {
    /// The generator of case `index` of the test with this seed.
    pub fn case(seed: u64, index: u64) -> Self {
        let mut rng = Rng(seed.wrapping_mul(0x2545_F491_4F6C_DD1D) ^ index);
        rng.next();
        rng
    }

    pub fn next(&mut self) -> u64 {
        self.0 = self.0.wrapping_add(0x9E37_79B9_7F4A_7C15);
        let mut z = self.0;
        z = (z ^ (z >> 30)).wrapping_mul(0xBF58_476D_1CE4_E5B9);
        z = (z ^ (z >> 27)).wrapping_mul(0x94D0_49BB_1331_11EB);
        z ^ (z >> 31)
    }

    pub fn byte(&mut self) -> u8 {
        self.next() as u8
    }

    /// A number below `limit`; 0 if `limit` is 0.
    pub fn below(&mut self, limit: usize) -> usize {
        if limit == 0 {
            0
        } else {
            (self.next() % limit as u64) as usize
        }
    }

    /// A number from `low` to `high`, both included.
    pub fn between(&mut self, low: usize, high: usize) -> usize {
        low + self.below(high - low + 1)
    }

    pub fn percent(&mut self, chance: usize) -> bool {
        self.below(100) < chance
    }

    pub fn pick<T: Copy>(&mut self, from: &[T]) -> T {
        from[self.below(from.len())]
    }

    pub fn bytes(&mut self, count: usize) -> Vec<u8> {
        (0..count).map(|_| self.byte()).collect()
    }

    /// Random bytes, as many as one of these numbers says.
    pub fn tail(&mut self, counts: &[usize]) -> Vec<u8> {
        let count = self.pick(counts);
        self.bytes(count)
    }

    pub fn shuffle<T>(&mut self, items: &mut [T]) {
        for i in (1..items.len()).rev() {
            items.swap(i, self.below(i + 1));
        }
    }
}

/// How often each answer came: index 0 is success, else the refusal number.
pub struct Tally {
    name: &'static str,
    counts: [u64; 40],
    extra: Vec<(&'static str, u64)>,
}

impl Tally {
    pub fn new(name: &'static str) -> Self {
        Tally {
            name,
            counts: [0; 40],
            extra: Vec::new(),
        }
    }

    pub fn add<T>(&mut self, answer: &Result<T, Refusal>) {
        let index = match answer {
            Ok(_) => 0,
            Err(refusal) => refusal.number as usize,
        };
        self.counts[index] += 1;
    }

    /// Counts a further property of a case.
    pub fn note(&mut self, what: &'static str, holds: bool) {
        match self.extra.iter_mut().find(|(name, _)| *name == what) {
            Some((_, count)) => *count += holds as u64,
            None => self.extra.push((what, holds as u64)),
        }
    }

    pub fn print(&self) {
        let mut line = format!("{:<14} accepted {}", self.name, self.counts[0]);
        for (number, count) in self.counts.iter().enumerate().skip(1) {
            if *count > 0 {
                line += &format!(", {number}: {count}");
            }
        }
        for (what, count) in &self.extra {
            line += &format!(", {what} {count}");
        }
        println!("{line}");
    }

    /// Prints the counts. Fails if one of `expected` (0: success) is rarer than `least`, if any
    /// other answer came, or if a noted property is rare.
    pub fn expect(&self, expected: &[usize], least: u64) {
        self.print();
        for (number, &count) in self.counts.iter().enumerate() {
            if expected.contains(&number) {
                assert!(
                    count >= least,
                    "{}: answer {number} is rare: {count}",
                    self.name
                );
            } else {
                assert!(
                    count == 0,
                    "{}: answer {number} came {count} times",
                    self.name
                );
            }
        }
        for (what, count) in &self.extra {
            assert!(*count >= least, "{}: '{what}' is rare: {count}", self.name);
        }
    }
}

pub fn hex(bytes: &[u8]) -> String {
    bytes.iter().map(|byte| format!("{byte:02X} ")).collect()
}

/// The version byte of a Type 2 or Type 3 tag that is meant to read: often 10h, else any with the
/// same major version.
pub fn version(rng: &mut Rng) -> u8 {
    match rng.below(3) {
        0 => rng.between(0x11, 0x1F) as u8,
        _ => 0x10,
    }
}

/// The version byte of a damaged tag: often one next to a limit.
pub fn damaged_version(rng: &mut Rng) -> u8 {
    match rng.below(3) {
        0 => rng.byte(),
        _ => rng.pick(&[0x00, 0x01, 0x0F, 0x1F, 0x20, 0x21]),
    }
}

/// The length of a message to write, with the boundaries often: `old` is the length of the
/// message on the tag, `capacity` the greatest length that fits.
pub fn message_len(rng: &mut Rng, old: usize, capacity: usize) -> usize {
    match rng.below(22) {
        0 => 0,
        1 | 2 => 1,
        3 => rng.between(2, 4),
        4 | 5 => rng.between(253, 257),
        6 | 7 => capacity,
        8 => capacity.saturating_sub(rng.between(0, 3)),
        9 => capacity + 1,
        10 => capacity + rng.between(2, 2000),
        11 => old,
        12 => 16 * rng.between(1, 8) + rng.between(0, 2),
        13..=16 => rng.between(1, 60).min(capacity),
        _ => rng.below(capacity + 1),
    }
}

/// A message to write on a tag that holds `old`: often new, sometimes the old one or near it.
pub fn message(rng: &mut Rng, old: &[u8], capacity: usize) -> Vec<u8> {
    let kind = if old.is_empty() { 4 } else { rng.below(12) };
    match kind {
        0 => old.to_vec(),
        1 => {
            let mut near = old.to_vec();
            if !near.is_empty() {
                let at = rng.below(near.len());
                near[at] ^= 1 << rng.below(8);
            }
            near
        }
        2 => {
            let mut longer = old.to_vec();
            longer.extend(rng.bytes(3));
            longer
        }
        3 => old[..rng.below(old.len() + 1)].to_vec(),
        _ => {
            let len = message_len(rng, old.len(), capacity);
            contents(rng, len)
        }
    }
}

/// The bytes of a new message: random, or all the same.
fn contents(rng: &mut Rng, len: usize) -> Vec<u8> {
    match rng.below(4) {
        0 => vec![rng.pick(&[0x00, 0x03, 0xFE, 0xFF]); len],
        _ => rng.bytes(len),
    }
}

/// A message other than this one that fits, often of the same length or a byte shorter.
fn other_message(rng: &mut Rng, message: &[u8], capacity: usize) -> Vec<u8> {
    let len = match rng.below(3) {
        0 => message.len(),
        1 => message.len().saturating_sub(1),
        _ => message_len(rng, message.len(), capacity),
    };
    rng.bytes(len.min(capacity))
}

/// A message that fits. Long ones are rare, for tests in which every cut costs a whole list.
pub fn fitting_message(rng: &mut Rng, old: &[u8], capacity: usize) -> Vec<u8> {
    if !old.is_empty() && rng.percent(10) {
        return old.to_vec();
    }
    let len = message_len(rng, old.len(), capacity).clamp(1, capacity);
    let most = if rng.percent(5) { capacity } else { 80 };
    contents(rng, len.min(most))
}

/// The length of a buffer for a call that writes `needed` bytes: enough, exact or too short.
pub fn buffer_len(rng: &mut Rng, needed: usize) -> usize {
    match rng.below(8) {
        0 => needed.saturating_sub(1),
        1 => rng.below(needed + 1),
        2 => 0,
        3 | 4 => needed,
        5 => needed + 1,
        _ => needed + rng.below(200),
    }
}
