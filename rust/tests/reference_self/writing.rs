//! The reference's write lists against the naive form: 01's and E2's, with what E4 leaves out.

use crate::common::kinds::{Kind, Type2, Type3, Type6};
use crate::common::rewrites::Rewrite;
use crate::common::{buffer_len, hex, message, tags2, tags3, tags6, Guarded, Rng, Tally};
use crate::full_list::Full;
use crate::reference::{type2, type3, type6, Refusal};
use crate::{naive2, naive3, naive6, CASES};

/// A type of tag with its naive form.
trait Naive: Kind {
    /// Any image, and a message to write on it.
    fn case(rng: &mut Rng) -> (Self, Vec<u8>, Vec<u8>);
    fn full_list(&self, image: &[u8], message: &[u8]) -> Result<Full, u8>;
    /// How many blocks go to a command.
    fn width(&self, _image: &[u8]) -> usize {
        1
    }
    /// For a tag that reads: 02's condition for the first command, and the tag after it.
    fn shut(image: &[u8]) -> Option<(bool, Vec<u8>)>;
    /// The reference's judge.
    fn judge(&self, image: &[u8], message: &[u8], list: &[u8]) -> Result<usize, Refusal>;
}

impl Naive for Type2 {
    fn case(rng: &mut Rng) -> (Self, Vec<u8>, Vec<u8>) {
        let image = tags2::any(rng);
        let (old, capacity) = tags2::message_and_capacity(&image);
        let message = message(rng, &old, capacity);
        (Type2, image, message)
    }

    fn full_list(&self, image: &[u8], message: &[u8]) -> Result<Full, u8> {
        naive2::full_list(image, message)
    }

    fn shut(image: &[u8]) -> Option<(bool, Vec<u8>)> {
        let tag = naive2::read(image).ok()?;
        Some(naive2::shut(image, &tag))
    }

    fn judge(&self, image: &[u8], message: &[u8], list: &[u8]) -> Result<usize, Refusal> {
        type2::judge(image, message, list)
    }
}

impl Naive for Type3 {
    fn case(rng: &mut Rng) -> (Self, Vec<u8>, Vec<u8>) {
        let image = tags3::any(rng);
        let idm = rng.next().to_be_bytes();
        let (old, capacity) = tags3::message_and_capacity(&image);
        let message = message(rng, &old, capacity);
        (Type3 { idm }, image, message)
    }

    fn full_list(&self, image: &[u8], message: &[u8]) -> Result<Full, u8> {
        naive3::full_list(image, message)
    }

    fn width(&self, image: &[u8]) -> usize {
        image[2].min(8) as usize
    }

    fn shut(image: &[u8]) -> Option<(bool, Vec<u8>)> {
        naive3::read(image).ok()?;
        Some(naive3::shut(image))
    }

    fn judge(&self, image: &[u8], message: &[u8], list: &[u8]) -> Result<usize, Refusal> {
        type3::judge(image, message, &self.idm, list)
    }
}

impl Naive for Type6 {
    fn case(rng: &mut Rng) -> (Self, Vec<u8>, Vec<u8>) {
        let image = tags6::for_lists(rng);
        let (old, capacity) = tags6::message_and_capacity(&image);
        let message = tags6::message(rng, &image, &old, capacity);
        (Type6::of(&image), image, message)
    }

    fn full_list(&self, image: &[u8], message: &[u8]) -> Result<Full, u8> {
        naive6::full_list(image, message)
    }

    fn shut(image: &[u8]) -> Option<(bool, Vec<u8>)> {
        let tag = naive6::read(image).ok()?;
        Some(naive6::shut(image, &tag))
    }

    fn judge(&self, image: &[u8], message: &[u8], list: &[u8]) -> Result<usize, Refusal> {
        type6::judge(image, message, list)
    }
}

/// Our list is the naive one, byte for byte, and so are the refusals. The count is 01's less what
/// is left out. The list is accepted and ends in the new image; a refusal leaves the buffer as it
/// was.
fn compare<T: Naive>(tally: &mut Tally, rng: &mut Rng, kind: &T, image: &[u8], message: &[u8]) {
    let naive = kind.full_list(image, message);
    let expected = naive.as_ref().map_or(Vec::new(), |full| {
        let commands = full.left(kind.width(image)).into_iter();
        commands.flat_map(|parts| kind.command(&parts)).collect()
    });
    let len = buffer_len(rng, expected.len());
    let mut list = Guarded::random(rng, len);
    let mut wanted = list.clone();
    let answer = kind.write(image, message, list.lend());
    tally.add(&answer);
    let wanted_answer = match &naive {
        Err(number) => Err(Refusal::new(*number)),
        Ok(_) if len < expected.len() => Err(Refusal::new(12)),
        Ok(full) => {
            wanted.lend()[..expected.len()].copy_from_slice(&expected);
            Ok(full.count(kind.width(image)))
        }
    };
    assert_eq!(answer, wanted_answer, "{} {}", hex(image), hex(message));
    assert!(list == wanted, "{} {}", hex(image), hex(message));

    if let Ok(full) = &naive {
        let count = full.count(kind.width(image));
        assert_eq!(kind.judge(image, message, &expected), Ok(count));
        assert!(kind.after(image, &expected) == full.new);
        assert_eq!(kind.message_and_capacity(&full.new).0, message);
    }
}

fn any_tag<T: Naive>(name: &'static str, seed: u64, expected: &[usize]) {
    let mut tally = Tally::new(name);
    for index in 0..CASES {
        let mut rng = Rng::case(seed, index);
        let (kind, image, message) = T::case(&mut rng);
        compare(&mut tally, &mut rng, &kind, &image, &message);
    }
    tally.expect(expected, 100);
}

#[test]
fn type2_lists() {
    any_tag::<Type2>(
        "type2 write",
        3,
        &[0, 1, 2, 3, 4, 5, 6, 7, 8, 9, 10, 11, 12],
    );
}

#[test]
fn type3_lists() {
    any_tag::<Type3>("type3 write", 4, &[0, 1, 2, 3, 4, 5, 7, 9, 10, 11, 12]);
}

#[test]
fn type6_lists() {
    any_tag::<Type6>("type6 write", 12, &[0, 1, 2, 3, 4, 5, 7, 9, 10, 11, 12, 14]);
}

/// Tags that hold a part of the message already.
fn rewrites<T: Naive>(name: &'static str, seed: u64) {
    let mut tally = Tally::new(name);
    for index in 0..CASES / 40 {
        let mut rng = Rng::case(seed, index);
        let rewrite = Rewrite::<T>::random(&mut rng);
        let (kind, message) = (&rewrite.kind, &rewrite.message);
        let mut images = rewrite.halfway(&mut rng);
        images.extend(rewrite.near(&mut rng));
        for image in images {
            compare(&mut tally, &mut rng, kind, &image, message);
            let full = kind.full_list(&image, message).unwrap();
            let count = full.count(kind.width(&image));
            tally.note("one command", count == 1);
            tally.note("first and last", count == 2 && !full.is_shut);
            tally.note("going on", full.is_shut && count > 2);
        }
    }
    tally.expect(&[0, 12], 100);
}

#[test]
fn type2_rewrites() {
    rewrites::<Type2>("type2 rewrites", 16);
}

#[test]
fn type3_rewrites() {
    rewrites::<Type3>("type3 rewrites", 17);
}

#[test]
fn type6_rewrites() {
    rewrites::<Type6>("type6 rewrites", 18);
}

/// On every tag that reads, 02's condition for the first command is that it would change nothing.
fn first_command<T: Naive>(name: &'static str, seed: u64) {
    let mut tally = Tally::new(name);
    for index in 0..CASES {
        let (_, image, _) = T::case(&mut Rng::case(seed, index));
        if let Some((is_shut, after)) = T::shut(&image) {
            assert_eq!(is_shut, after == image, "{}", hex(&image));
            tally.note("left out", is_shut);
            tally.note("stays", !is_shut);
        }
    }
    tally.expect(&[], 1000);
}

#[test]
fn first_command_is_left_out_exactly_if_it_would_change_nothing() {
    first_command::<Type2>("type2 first", 19);
    first_command::<Type3>("type3 first", 20);
    first_command::<Type6>("type6 first", 21);
}
