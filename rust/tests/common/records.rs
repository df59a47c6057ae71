//! Records to test with: lists of them, and messages in any form or damaged.

use super::Rng;

/// The flags of the header byte; the TNF is in its low three bits.
pub const MB: u8 = 0x80;
pub const ME: u8 = 0x40;
pub const CF: u8 = 0x20;
pub const SR: u8 = 0x10;
pub const IL: u8 = 0x08;

/// A record as bytes.
#[derive(Clone, Debug, PartialEq, Eq)]
pub struct Record {
    pub tnf: u8,
    pub kind: Vec<u8>,
    pub id: Vec<u8>,
    pub payload: Vec<u8>,
}

impl Record {
    /// A record of random bytes whose type, ID and payload have these lengths.
    pub fn sized(rng: &mut Rng, tnf: u8, [kind, id, payload]: [usize; 3]) -> Self {
        Record {
            tnf,
            kind: rng.bytes(kind),
            id: rng.bytes(id),
            payload: rng.bytes(payload),
        }
    }

    /// Any record that a message can have.
    pub fn random(rng: &mut Rng) -> Self {
        let tnf = rng.below(6) as u8;
        let kind = match tnf {
            0 | 5 => 0,
            _ => type_len(rng),
        };
        let (id, payload) = match tnf {
            0 => (0, 0),
            _ if rng.percent(60) => (0, payload_len(rng)),
            _ => (type_len(rng), payload_len(rng)),
        };
        Record::sized(rng, tnf, [kind, id, payload])
    }

    /// The header byte of the shortest form, without MB and ME.
    pub fn header(&self) -> u8 {
        let sr = if self.payload.len() <= 255 { SR } else { 0 };
        let il = if self.id.is_empty() { 0 } else { IL };
        self.tnf | sr | il
    }

    /// The bytes of the record under this header byte, whose SR and IL decide which lengths there
    /// are. Of a length that does not fit, the low bytes are taken.
    pub fn under(&self, header: u8) -> Vec<u8> {
        let [a, b, c, d] = (self.payload.len() as u32).to_be_bytes();
        let mut bytes = vec![header, self.kind.len() as u8];
        match header & SR {
            0 => bytes.extend([a, b, c, d]),
            _ => bytes.push(d),
        }
        if header & IL != 0 {
            bytes.push(self.id.len() as u8);
        }
        bytes.extend(&self.kind);
        bytes.extend(&self.id);
        bytes.extend(&self.payload);
        bytes
    }
}

/// The length of a type or an ID.
fn type_len(rng: &mut Rng) -> usize {
    match rng.below(16) {
        0 | 1 => 0,
        2 => rng.between(253, 255),
        _ => rng.between(1, 12),
    }
}

fn payload_len(rng: &mut Rng) -> usize {
    match rng.below(400) {
        0 => rng.between(65_534, 65_537),
        1..=20 => rng.between(253, 258),
        21..=30 => rng.between(259, 1200),
        31..=90 => 0,
        _ => rng.between(1, 40),
    }
}

/// A list that a message can have.
pub fn list(rng: &mut Rng) -> Vec<Record> {
    let count = match rng.below(12) {
        0 => 16,
        1 => rng.between(5, 15),
        2..=5 => 1,
        _ => rng.between(2, 4),
    };
    (0..count).map(|_| Record::random(rng)).collect()
}

/// A message, and where its records start.
pub struct Message {
    pub bytes: Vec<u8>,
    pub starts: Vec<usize>,
}

impl Message {
    /// The message of a list: in the shortest form, or with some lengths that it does without.
    pub fn of(rng: &mut Rng, list: &[Record]) -> Self {
        let (long, id_length) = rng.pick(&[(0, 0), (0, 0), (30, 30), (0, 50), (50, 0)]);
        let (mut bytes, mut starts) = (Vec::new(), Vec::new());
        for (i, record) in list.iter().enumerate() {
            let mut header = record.header();
            if i == 0 {
                header |= MB;
            }
            if i + 1 == list.len() {
                header |= ME;
            }
            if rng.percent(long) {
                header &= !SR;
            }
            if rng.percent(id_length) {
                header |= IL;
            }
            starts.push(bytes.len());
            bytes.extend(record.under(header));
        }
        Message { bytes, starts }
    }

    /// Changes something at one of the records, or at the end.
    fn damage(&mut self, rng: &mut Rng) {
        let start = rng.pick(&self.starts);
        let bytes = &mut self.bytes;
        if start + 6 > bytes.len() {
            return bytes.extend(rng.tail(&[1, 3, 6]));
        }
        match rng.below(16) {
            0 | 1 => bytes[start] ^= 1 << rng.below(8),
            2 => bytes[start] = rng.byte(),
            3 => bytes[start] ^= rng.pick(&[MB, ME, MB | ME]),
            4 | 5 => bytes[start] = (bytes[start] & 0xF8) | rng.pick(&[0, 5, 6, 7]),
            6 => bytes[start] ^= rng.pick(&[SR, IL, SR | IL]),
            7 => bytes[start + rng.between(1, 5)] = rng.pick(&[0x00, 0x01, 0x80, 0xFF]),
            8 => {
                let at = start + rng.between(1, 5);
                bytes[at] = bytes[at].wrapping_add(rng.pick(&[1, 0xFF]));
            }
            9 | 10 => bytes[start + 2..start + 6].fill(rng.pick(&[0x00, 0x7F, 0xFF, 0xFF])),
            11 => bytes.truncate(bytes.len() - 1),
            12 => bytes.truncate(start + rng.below(7)),
            13 => bytes.push(rng.byte()),
            14 => bytes.extend(Record::random(rng).under(ME | SR | IL | 1)),
            _ => bytes.extend_from_within(start..),
        }
    }
}

/// More than sixteen records. One of the first may be at fault, or what follows the sixteenth.
fn crowd(rng: &mut Rng) -> Vec<u8> {
    let count = rng.between(17, 20);
    let list: Vec<Record> = (0..count).map(|_| Record::random(rng)).collect();
    let mut message = Message::of(rng, &list);
    let at = match rng.below(4) {
        0 => message.starts[15],
        1 => message.starts[rng.below(16)],
        _ => message.starts[16],
    };
    match rng.below(4) {
        0 => message.bytes[at] = rng.byte(),
        1 => message.bytes[at] ^= rng.pick(&[MB, ME, CF]),
        2 => message.bytes.truncate(at + rng.below(4)),
        _ => {}
    }
    message.bytes
}

/// Bytes that are often lengths and headers.
fn noise(rng: &mut Rng) -> Vec<u8> {
    let len = rng.pick(&[0, 1, 2, 3, 3, 4, 5, 6, 7, 8, 20, 300]);
    let mut bytes = match rng.below(3) {
        0 => rng.bytes(len),
        _ => (0..len)
            .map(|_| rng.pick(&[0x00, 0x01, 0x02, 0x11, 0x51, 0xD1, 0xFF]))
            .collect(),
    };
    if let Some(header) = bytes.first_mut() {
        *header |= rng.pick(&[0x00, MB, MB | ME | SR]);
    }
    bytes
}

/// A message to read: in any form, damaged, too many records, or noise.
pub fn any(rng: &mut Rng) -> Vec<u8> {
    match rng.below(20) {
        0 | 1 => noise(rng),
        2 | 3 => crowd(rng),
        kind => {
            let list = list(rng);
            let mut message = Message::of(rng, &list);
            let damages = if kind < 12 { rng.between(1, 2) } else { 0 };
            for _ in 0..damages {
                message.damage(rng);
            }
            message.bytes
        }
    }
}
