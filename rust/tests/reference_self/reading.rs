//! The reference's reading against the naive form.

use crate::common::{buffer_len, hex, tags2, tags3, tags6, Guarded, Rng, Tally};
use crate::reference::{type2, type3, type6, Content, Refusal};
use crate::{naive2, naive3, naive6, CASES};

/// Reading against the naive form.
#[test]
fn type2_read_is_as_the_page_says() {
    let mut tally = Tally::new("type2 read");
    for index in 0..CASES {
        let mut rng = Rng::case(1, index);
        let image = tags2::any(&mut rng);
        let needed = tags2::message_and_capacity(&image).0.len();
        let len = buffer_len(&mut rng, needed);
        let mut gathered = Guarded::random(&mut rng, len);
        let mut expected = gathered.clone();
        let answer = type2::read(&image, gathered.lend());
        tally.add(&answer);
        let naive = naive2::read(&image);
        let interrupted = match (answer, naive) {
            (Err(refusal), Err(number)) => {
                assert_eq!(refusal, Refusal::new(number), "{}", hex(&image));
                false
            }
            (Ok(answer), Ok(tag)) => {
                let message: Vec<u8> = tag.value.iter().map(|&a| image[a]).collect();
                let address = *tag.value.first().unwrap_or(&0);
                let gap = tag.value.windows(2).any(|pair| pair[0] + 1 != pair[1]);
                assert_eq!(answer.content == Content::Empty, message.is_empty());
                assert_eq!(answer.address, address as u64);
                assert_eq!(answer.length, message.len() as u64);
                assert_eq!(answer.interrupted, gap);
                assert_eq!(answer.writable, tag.writable);
                if gap {
                    expected.lend()[..message.len()].copy_from_slice(&message);
                }
                assert_eq!(answer.message(&image, gathered.slice()), message);
                let greatest = (0..1024).rfind(|&n| naive2::fits(n, tag.usable.len()));
                assert_eq!(greatest, Some(answer.capacity as usize));
                gap
            }
            (Err(refusal), Ok(tag)) => {
                assert_eq!(refusal, Refusal::new(13));
                assert!(tag.value.windows(2).any(|pair| pair[0] + 1 != pair[1]));
                assert!(gathered.slice().len() < tag.value.len());
                false
            }
            (answer, _) => panic!("{answer:?} for {}", hex(&image)),
        };
        assert!(gathered == expected);
        tally.note("interrupted", interrupted);
        tally.note("empty", answer.is_ok_and(|a| a.content == Content::Empty));
        tally.note("read-only", answer.is_ok_and(|a| !a.writable));
    }
    tally.expect(&[0, 1, 2, 3, 4, 5, 6, 7, 8, 13], 100);
}

#[test]
fn type3_read_is_as_the_page_says() {
    let mut tally = Tally::new("type3 read");
    for index in 0..CASES {
        let image = tags3::any(&mut Rng::case(2, index));
        let answer = type3::read(&image);
        tally.add(&answer);
        match (answer, naive3::read(&image)) {
            (Err(refusal), Err(number)) => assert_eq!(refusal, Refusal::new(number)),
            (Ok(answer), Ok((being_written, ln, writable))) => {
                let nmaxb = 256 * image[3] as u64 + image[4] as u64;
                let expected = match (being_written, ln) {
                    (true, _) => (Content::BeingWritten, 0, 0),
                    (false, 0) => (Content::Empty, 0, 0),
                    (false, ln) => (Content::Message, 16, ln as u64),
                };
                assert_eq!((answer.content, answer.address, answer.length), expected);
                assert_eq!((answer.interrupted, answer.writable), (false, writable));
                assert_eq!(answer.capacity, 16 * nmaxb);
            }
            (answer, naive) => panic!("{answer:?} {naive:?} for {}", hex(&image)),
        }
        for (what, content) in [
            ("empty", Content::Empty),
            ("being written", Content::BeingWritten),
        ] {
            tally.note(what, answer.is_ok_and(|a| a.content == content));
        }
    }
    tally.expect(&[0, 1, 2, 3, 4, 5, 7], 100);
}

#[test]
fn type6_read_is_as_the_page_says() {
    let mut tally = Tally::new("type6 read");
    for index in 0..CASES {
        let image = tags6::any(&mut Rng::case(11, index));
        let answer = type6::read(&image);
        tally.add(&answer);
        match (answer, naive6::read(&image)) {
            (Err(refusal), Err(number)) => assert_eq!(refusal, Refusal::new(number)),
            (Ok(answer), Ok(tag)) => {
                let expected = match tag.nlen {
                    0 => (Content::Empty, 0, 0),
                    nlen => (Content::Message, tag.file as u64 + 2, nlen as u64),
                };
                assert_eq!((answer.content, answer.address, answer.length), expected);
                assert_eq!((answer.interrupted, answer.writable), (false, tag.writable));
                assert_eq!(answer.capacity, tag.m as u64);
            }
            (answer, _) => panic!("{answer:?} for {}", hex(&image)),
        }
        tally.note("empty", answer.is_ok_and(|a| a.content == Content::Empty));
        tally.note("read-only", answer.is_ok_and(|a| !a.writable));
    }
    tally.expect(&[0, 1, 2, 3, 4, 5, 7], 100);
}
