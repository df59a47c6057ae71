//! Buffers to pass to a call, of bytes or of numbers, with guards around them.

use super::Rng;

/// A buffer to pass to a call, between guard bytes or guard numbers.
#[derive(Clone, Debug, PartialEq, Eq)]
pub struct Guarded<T = u8> {
    whole: Vec<T>,
    start: usize,
    end: usize,
}

impl Guarded {
    pub fn random(rng: &mut Rng, len: usize) -> Self {
        let contents = rng.bytes(len);
        Guarded::holding(rng, &contents)
    }

    pub fn holding(rng: &mut Rng, contents: &[u8]) -> Self {
        let start = rng.between(1, 24);
        let after = rng.between(1, 24);
        let mut whole = rng.bytes(start + contents.len() + after);
        let end = start + contents.len();
        whole[start..end].copy_from_slice(contents);
        Guarded { whole, start, end }
    }
}

impl Guarded<u64> {
    /// So many random numbers.
    pub fn numbers(rng: &mut Rng, len: usize) -> Self {
        let start = rng.between(1, 8);
        let end = start + len;
        let len = end + rng.between(1, 8);
        let whole = (0..len).map(|_| rng.next()).collect();
        Guarded { whole, start, end }
    }
}

impl<T> Guarded<T> {
    pub fn slice(&self) -> &[T] {
        &self.whole[self.start..self.end]
    }

    pub fn lend(&mut self) -> &mut [T] {
        &mut self.whole[self.start..self.end]
    }
}
