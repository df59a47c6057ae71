//! Tables of records to write: seven numbers a record, and the bytes in which the parts lie.

use super::records::{self, Record};
use super::Rng;

/// TNFs that no record has, some of them with a low byte that would do.
pub const WRONG_TNFS: [u64; 11] = [
    6,
    7,
    8,
    255,
    256,
    257,
    65_536,
    (1 << 32) + 1,
    1 << 63,
    (1 << 63) + 4,
    u64::MAX,
];

pub struct Table {
    pub numbers: Vec<u64>,
    pub bytes: Vec<u8>,
}

impl Table {
    /// A list of records. The parts lie in order or shuffled, often with other bytes between.
    pub fn of(rng: &mut Rng, list: &[Record]) -> Self {
        let (mut numbers, mut parts) = (Vec::new(), Vec::new());
        for record in list {
            for (i, part) in [&record.kind, &record.id, &record.payload]
                .into_iter()
                .enumerate()
            {
                parts.push((numbers.len() + 1 + 2 * i, part));
            }
            numbers.extend([record.tnf as u64, 0, 0, 0, 0, 0, 0]);
        }
        if rng.percent(50) {
            rng.shuffle(&mut parts);
        }
        let gaps = rng.pick(&[0, 0, 30]);
        let mut bytes = Vec::new();
        for (at, part) in parts {
            if rng.percent(gaps) {
                bytes.extend(rng.tail(&[1, 2, 9]));
            }
            numbers[at] = bytes.len() as u64;
            numbers[at + 1] = part.len() as u64;
            bytes.extend(part);
        }
        if rng.percent(gaps) {
            bytes.extend(rng.tail(&[1, 2, 9]));
        }
        Table { numbers, bytes }
    }

    /// Parts anywhere in the same few bytes: they overlap.
    fn overlapping(rng: &mut Rng) -> Self {
        let bytes = rng.tail(&[0, 1, 2, 9, 40, 254, 255, 256, 257, 300]);
        let mut numbers = Vec::new();
        for _ in 0..rng.pick(&[1, 1, 2, 3, 5, 16]) {
            numbers.push(rng.between(1, 4) as u64);
            for most in [rng.pick(&[3, 255]), rng.pick(&[0, 3, 255]), bytes.len()] {
                let any = rng.below(most + 1);
                let len = rng.pick(&[0, any, any, most]).min(bytes.len());
                let at = rng.below(bytes.len() - len + 1);
                numbers.extend([at as u64, len as u64]);
            }
        }
        Table { numbers, bytes }
    }

    /// Room enough for the message, if there is one.
    pub fn room(&self) -> usize {
        let len = |&len: &u64| self.bytes.len().min(len as usize);
        let record = |n: &[u64]| 7 + len(&n[2]) + len(&n[4]) + len(&n[6]);
        self.numbers.chunks_exact(7).map(record).sum()
    }

    /// A number of the kind to which a table is sensitive.
    fn number(&self, rng: &mut Rng) -> u64 {
        let len = self.bytes.len() as u64;
        match rng.below(8) {
            0 => rng.next(),
            1 => u64::MAX - rng.below(4) as u64,
            2 => len + rng.below(3) as u64,
            3 => len.saturating_sub(rng.below(3) as u64),
            4 => rng.pick(&[255, 256, 65_535, 65_536]),
            5 => rng.pick(&[u32::MAX as u64, 1 << 32, (1 << 32) + 1, 1 << 63]),
            6 => rng.pick(&WRONG_TNFS),
            _ => rng.below(8) as u64,
        }
    }

    /// Changes a number, a part, or how many numbers there are.
    fn damage(&mut self, rng: &mut Rng) {
        let records = self.numbers.len() / 7;
        if records == 0 {
            return self.numbers.extend(rng.pick(&[&[][..], &[0; 7], &[1; 3]]));
        }
        let start = 7 * rng.below(records);
        let (at, len) = rng.pick(&[(1, 2), (3, 4), (5, 6)]);
        let (at, len) = (start + at, start + len);
        let end = self.bytes.len() as u64;
        match rng.below(14) {
            0 => self.numbers[start + rng.below(7)] = self.number(rng),
            1 | 2 => self.numbers[start] = rng.pick(&WRONG_TNFS),
            3 => self.numbers[start] = rng.pick(&[0, 5]),
            // At the end, or a byte past it.
            4 | 5 => {
                self.numbers[len] = rng.pick(&[0, 0, 1]);
                self.numbers[at] = end + rng.below(2) as u64 - self.numbers[len].min(end);
            }
            // The end of the part is a small number, but for 2^64.
            6 | 7 => {
                self.numbers[at] = u64::MAX - rng.below(300) as u64;
                self.numbers[len] = rng.pick(&[1, 2, 255, 300]);
            }
            8 => {
                self.numbers[at] = rng.below(4) as u64;
                self.numbers[len] = u64::MAX - rng.below(8) as u64;
            }
            9 => self.numbers[len] = self.numbers[len].wrapping_add(1),
            10 => self.numbers.truncate(rng.below(7 * records)),
            11 => self.numbers.truncate(7 * rng.below(records)),
            12 => {
                let more = rng.between(1, 6);
                self.numbers.extend((0..more).map(|_| rng.below(3) as u64));
            }
            _ => {
                let more = self.numbers.repeat(17usize.div_ceil(records));
                self.numbers = more[..7 * rng.between(17, more.len() / 7)].to_vec();
            }
        }
    }

    /// Any table: of a list, of overlapping parts, damaged, or of random numbers.
    pub fn any(rng: &mut Rng) -> Self {
        let mut table = match rng.below(3) {
            0 => Table::overlapping(rng),
            _ => {
                let list = records::list(rng);
                Table::of(rng, &list)
            }
        };
        match rng.below(20) {
            0 => {
                let len = rng.pick(&[0, 1, 6, 7, 8, 14, 112, 113, 119]);
                table.numbers = (0..len).map(|_| table.number(rng)).collect();
            }
            1..=6 => table.damage(rng),
            7 => {
                table.damage(rng);
                table.damage(rng);
            }
            _ => {}
        }
        table
    }
}
