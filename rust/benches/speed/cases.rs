//! The tags and messages of the benchmark.

use zanfirotta::{type2, type3, type6};

pub const IDM: [u8; 8] = [0x01, 0x2E, 0x45, 0x76, 0xBA, 0x12, 0x34, 0x56];

/// The bytes of old and of new messages.
const OLD: u8 = 0x5A;
const NEW: u8 = 0xD1;

#[derive(Clone, Copy)]
pub enum Kind {
    Type2,
    Type3,
    Type6,
}

use Kind::{Type2, Type3, Type6};

/// A message to write on a tag.
pub struct Case {
    pub name: &'static str,
    pub kind: Kind,
    pub image: Vec<u8>,
    pub message: Vec<u8>,
    /// Whether the tag holds a part of the message already.
    pub is_rewrite: bool,
}

impl Case {
    /// The commands of our list.
    pub fn commands(&self) -> Vec<Vec<u8>> {
        let (image, message) = (&self.image, &self.message);
        let mut list = vec![0; type6::LIST_MAX]; // the longest of any type
        let count = match self.kind {
            Type2 => type2::write(image, message, &mut list),
            Type3 => type3::write(image, message, &IDM, &mut list),
            Type6 => type6::write(image, message, &mut list),
        };
        let commands: &mut dyn Iterator<Item = &[u8]> = match self.kind {
            Type2 => &mut type2::commands(&list),
            Type3 => &mut type3::commands(&list),
            Type6 => &mut type6::commands(&list, type6::block_size(image).expect("a container")),
        };
        let count = count.expect("the message fits");
        commands.take(count).map(<[u8]>::to_vec).collect()
    }

    /// The tag after the first half of these commands.
    fn halfway(&self) -> Vec<u8> {
        let mut image = self.image.clone();
        let commands = self.commands();
        for command in &commands[..commands.len() / 2] {
            let taken = match self.kind {
                Type2 => type2::model(&mut image, command),
                Type3 => type3::model(&mut image, &IDM, command),
                Type6 => type6::model(&mut image, command),
            };
            taken.expect("a command of ours");
        }
        image
    }
}

/// A Type 2 image with `data` from 16 on.
fn image2(len: usize, data: &[u8]) -> Vec<u8> {
    let mut image = vec![0; len];
    image[12..16].copy_from_slice(&[0xE1, 0x10, ((len - 16) / 8) as u8, 0x00]);
    image[16..16 + data.len()].copy_from_slice(data);
    image
}

/// A Type 2 image of 1,024 bytes with this message; `before` comes before its TLV.
fn image2_with(before: &[u8], message: &[u8]) -> Vec<u8> {
    let [high, low] = (message.len() as u16).to_be_bytes();
    let start = [before, &[0x03, 0xFF, high, low]].concat();
    image2(1024, &[&start, message, &[0xFE]].concat())
}

/// A Type 2 image of 1,024 bytes with memory areas of these sizes, each from 512 on, where 0 stands for
/// 256. The message of 240 bytes begins before them and goes on behind them.
fn image2_across(sizes: impl Iterator<Item = u8>) -> Vec<u8> {
    let controls = sizes.flat_map(|size| [0x02, 0x03, 0x80, size, 0x06]);
    let data: Vec<u8> = controls.chain([0x03, 240]).collect();
    let mut image = image2(1024, &data);
    image[16 + data.len()..].fill(OLD);
    image
}

/// A Type 3 image with this message, which fills all blocks after block 0.
fn image3_with(nbw: u8, message: &[u8]) -> Vec<u8> {
    let [high, low] = ((message.len() / 16) as u16).to_be_bytes();
    let [_, a, b, c] = (message.len() as u32).to_be_bytes();
    let block = [0x10, 4, nbw, high, low, 0, 0, 0, 0, 0, 1, a, b, c];
    let sum: u16 = block.iter().map(|&byte| byte as u16).sum();
    [&block, &sum.to_be_bytes()[..], message].concat()
}

/// A Type 6 image with this message, which fills all blocks after the container.
fn image6_with(size: usize, message: &[u8]) -> Vec<u8> {
    let container = 8usize.div_ceil(size);
    let max_len = (2 + message.len()) / size;
    let blocks = container + max_len;
    let mut image = vec![OLD; container * size];
    image[..4].copy_from_slice(b"NDE\x10");
    image[4..8].copy_from_slice(&[(blocks - 1) as u8, (size - 1) as u8, 0x00, max_len as u8]);
    image.extend((message.len() as u16).to_le_bytes());
    image.extend(message);
    image
}

/// Messages that are written whole: no block of the tag holds its new bytes, but for the last one of
/// the tag with 1,000 bytes of message, which holds FEh alone.
fn whole() -> Vec<Case> {
    let case = |name, kind, image, message: &[u8]| Case {
        name,
        kind,
        image,
        message: message.to_vec(),
        is_rewrite: false,
    };
    let short = [0x03, 0x03, 0xD0, 0x00, 0x00, 0xFE];
    let small = image2(64, &short);
    let mut nulls = image2(1024, &[]);
    nulls[1000..1006].copy_from_slice(&short);

    // Memory areas past the walk and outside the image, some of them overlapping.
    let mut areas = Vec::new();
    for i in 0..190 {
        let (start, power) = if i % 2 == 0 { (0xFF, 6) } else { (0xF0, 12) };
        areas.extend([0x02, 0x03, start - (i % 3) as u8, 0x04, power]);
    }
    areas.extend([0x03, 0x04, 0xD0, 0x00, 0x00, 0x00, 0xFE]);
    let areas = image2(1024, &areas);
    // 256 bytes, 255, and so on down to 161.
    let shrinking = image2_across((0..96).map(|i: u8| i.wrapping_neg()));

    let plain = image2_with(&[], &[OLD; 1000]);
    // An area of 16 bytes at 960, behind the message.
    let before_area = image2_with(&[0x02, 0x03, 0xF0, 0x10, 0x06], &[OLD; 930]);
    let full3 = |nbw, len| image3_with(nbw, &vec![OLD; len]);
    let full6 = |size, len| image6_with(size, &vec![OLD; len]);
    vec![
        case(
            "2: 64 bytes, 3 of message",
            Type2,
            small.clone(),
            &[0xD1, 0x01, 0x02],
        ),
        case("2: 64 bytes, full", Type2, small, &[NEW; 46]),
        case("2: 1,024 bytes of NULL TLVs", Type2, nulls, &[NEW; 20]),
        case("2: 1,024 bytes, 190 areas", Type2, areas, &[NEW; 40]),
        case(
            "2: 60 areas of 256 bytes",
            Type2,
            image2_across([0; 60].into_iter()),
            &[NEW; 240],
        ),
        case("2: 96 shrinking areas", Type2, shrinking, &[NEW; 240]),
        case("2: 1,000 bytes of message", Type2, plain, &[NEW; 1000]),
        case(
            "2: 930 bytes, an area behind",
            Type2,
            before_area,
            &[NEW; 930],
        ),
        case("3: 14 blocks, Nbw 1", Type3, full3(1, 208), &[NEW; 208]),
        case("3: 256 blocks, Nbw 1", Type3, full3(1, 4080), &[NEW; 4080]),
        case("3: 256 blocks, Nbw 8", Type3, full3(8, 4080), &[NEW; 4080]),
        case("6: 64 bytes, blocks of 4", Type6, full6(4, 54), &[NEW; 54]),
        case(
            "6: 8,192 bytes, blocks of 32",
            Type6,
            full6(32, 8158),
            &[NEW; 8158],
        ),
    ]
}

/// A message that differs in a byte in its middle from the one on the tag; and a write that broke
/// off after half of its commands.
fn rewrites(
    names: [&'static str; 2],
    kind: Kind,
    len: usize,
    image_with: impl Fn(&[u8]) -> Vec<u8>,
) -> [Case; 2] {
    let mut old = vec![NEW; len];
    old[len / 2] = OLD;
    let case = |name, image| Case {
        name,
        kind,
        image,
        message: vec![NEW; len],
        is_rewrite: true,
    };
    let broken_off = case("", image_with(&vec![OLD; len])).halfway();
    [case(names[0], image_with(&old)), case(names[1], broken_off)]
}

pub fn all() -> Vec<Case> {
    let mut cases = whole();
    let names = ["2: 1,000 bytes, one changed", "2: 1,000 bytes, goes on"];
    cases.extend(rewrites(names, Type2, 1000, |old| image2_with(&[], old)));
    let names = ["3: Nbw 1, one byte changed", "3: Nbw 1, goes on"];
    cases.extend(rewrites(names, Type3, 4080, |old| image3_with(1, old)));
    let names = ["3: Nbw 8, one byte changed", "3: Nbw 8, goes on"];
    cases.extend(rewrites(names, Type3, 4080, |old| image3_with(8, old)));
    let names = ["6: 8,192 bytes, one changed", "6: 8,192 bytes, goes on"];
    cases.extend(rewrites(names, Type6, 8158, |old| image6_with(32, old)));
    cases
}
