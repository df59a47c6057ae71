//! Type 2: the write list, and the judge of foreign lists.

use super::tag::Tag;
use super::{decode, BLOCK, COMMAND, TERMINATOR, WRITE};
use crate::reference::Refusal;

/// Where the bytes to set are.
struct Plan {
    /// The usable addresses after the type byte. The first `used` of them are to be set; all other
    /// bytes are protected.
    places: Vec<usize>,
    used: usize,
}

impl Plan {
    /// Tests 1 to 11 and, if they pass, the plan.
    fn new(image: &[u8], message: &[u8]) -> Result<Self, Refusal> {
        let tag = Tag::scan(image)?;
        let n = message.len();
        if n == 0 {
            return Err(Refusal::new(9));
        }
        if !tag.writable {
            return Err(Refusal::new(10));
        }
        let places = tag.places();
        let header_len = header_len(n);
        if places.len() < header_len || places.len() - header_len < n {
            return Err(Refusal::new(11));
        }
        let used = places.len().min(header_len + n + 1);
        Ok(Plan { places, used })
    }

    /// The image when all is written.
    fn written(&self, image: &[u8], message: &[u8]) -> Vec<u8> {
        let n = message.len();
        let long = [0xFF, (n >> 8) as u8, n as u8];
        let header = &long[3 - header_len(n)..];
        let (header_places, rest) = self.places.split_at(header.len());
        let (message_places, rest) = rest.split_at(n);
        let mut new = image.to_vec();
        let mut set = |places: &[usize], bytes: &[u8]| {
            for (&address, &byte) in places.iter().zip(bytes) {
                new[address] = byte;
            }
        };
        set(header_places, header);
        set(message_places, message);
        set(rest, &[TERMINATOR]); // nothing if no place is left
        new
    }
}

/// How many bytes the length of a message of `n` bytes takes.
fn header_len(n: usize) -> usize {
    if n <= 254 {
        1
    } else {
        3
    }
}

/// Writes the commands that put `message` on the tag to `list`; returns how many there are. What
/// the tag already holds is left out.
pub fn write(image: &[u8], message: &[u8], list: &mut [u8]) -> Result<usize, Refusal> {
    let plan = Plan::new(image, message)?;
    let new = plan.written(image, message);
    let (length, end) = (plan.places[0], plan.places[plan.used - 1]);
    let (guard, last) = (length / BLOCK, end / BLOCK);

    // The guard block comes last, whether it changes or not.
    let mut order = Vec::with_capacity(last - guard + 1);
    order.extend((guard + 1..=last).filter(|&b| held(image, b) != held(&new, b)));
    order.push(guard);

    let shut = image[length] == 0;
    let count = usize::from(!shut) + order.len();
    let Some(mut list) = list.get_mut(..COMMAND * count) else {
        return Err(Refusal::new(12));
    };
    if !shut {
        let mut data = *held(image, guard);
        data[length % BLOCK] = 0;
        let (first, rest) = list.split_at_mut(COMMAND);
        put(first, guard, &data);
        list = rest;
    }
    for (command, block) in list.chunks_exact_mut(COMMAND).zip(order) {
        put(command, block, held(&new, block));
    }
    Ok(count)
}

/// What a block of the image holds.
fn held(image: &[u8], block: usize) -> &[u8; BLOCK] {
    image[block * BLOCK..].first_chunk().expect("whole blocks")
}

fn put(command: &mut [u8], block: usize, data: &[u8; BLOCK]) {
    command[0] = WRITE;
    command[1] = block as u8;
    command[2..].copy_from_slice(data);
}

/// Judges a list that somebody else made for writing `message`; returns how many commands it has.
///
/// The bytes up to the type byte and those at skipped addresses are protected. So, as long as the
/// list is good, only the length and the value of the message TLV have to be read again.
pub fn judge(image: &[u8], message: &[u8], list: &[u8]) -> Result<usize, Refusal> {
    let plan = Plan::new(image, message)?;
    let mut to_set = vec![false; image.len()];
    for &address in &plan.places[..plan.used] {
        to_set[address] = true;
    }
    let mut now = image.to_vec();
    let old = bytes_at(image, value_places(image, &plan.places).unwrap_or(&[]));

    let mut count = 0;
    for bytes in list.chunks(COMMAND) {
        let Ok(command) = decode(bytes, (image.len() / BLOCK) as u64) else {
            return Err(Refusal::at(20, count));
        };
        let start = command.block as usize * BLOCK;
        for (address, byte) in (start..).zip(command.data) {
            if !to_set[address] && now[address] != byte {
                return Err(Refusal::at(21, count));
            }
        }
        now[start..start + BLOCK].copy_from_slice(&command.data);
        let good = value_places(&now, &plan.places).is_some_and(|value| {
            value.is_empty() || holds(&now, value, message) || holds(&now, value, &old)
        });
        if !good {
            return Err(Refusal::at(22, count));
        }
        count += 1;
    }

    match value_places(&now, &plan.places) {
        Some(value) if holds(&now, value, message) => Ok(count),
        _ => Err(Refusal::at(23, count)),
    }
}

/// The places of the message's bytes, given the usable places after the type byte; none if the
/// tag is refused.
fn value_places<'a>(image: &[u8], places: &'a [usize]) -> Option<&'a [usize]> {
    let byte = |i: usize| places.get(i).map(|&address| image[address]);
    match byte(0)? {
        0xFF => match u16::from_be_bytes([byte(1)?, byte(2)?]) {
            long @ 255..=65_534 => places.get(3..3 + long as usize),
            _ => None,
        },
        short => places.get(1..1 + short as usize),
    }
}

fn bytes_at(image: &[u8], places: &[usize]) -> Vec<u8> {
    places.iter().map(|&address| image[address]).collect()
}

fn holds(image: &[u8], places: &[usize], message: &[u8]) -> bool {
    if places.len() != message.len() {
        return false;
    }
    match (places.first(), places.last()) {
        (Some(&first), Some(&last)) if last - first < places.len() => {
            image[first..=last] == *message
        }
        _ => places
            .iter()
            .zip(message)
            .all(|(&a, &byte)| image[a] == byte),
    }
}
