//! The reference's codec loses nothing, and its model stores exactly the well-formed commands.

use crate::common::{codec, lists2, lists3, lists6, message, tags2, tags3, tags6};
use crate::common::{Guarded, Rng, Tally};
use crate::reference::{type2, type3, type6, Refusal};
use crate::{naive2, naive3, naive6, CASES};

#[test]
fn type2_codec() {
    let mut encoded = Tally::new("type2 encode");
    let mut decoded = Tally::new("type2 decode");
    for index in 0..CASES {
        let mut rng = Rng::case(7, index);
        let case = codec::type2(&mut rng);
        let mut bytes = Guarded::random(&mut rng, case.buffer);
        let before = bytes.clone();
        let answer = type2::encode(case.block, &case.data, case.blocks, bytes.lend());
        encoded.add(&answer);
        let named = case.block >= 4 && case.block < case.blocks && case.block <= 255;
        match answer {
            Ok(size) => {
                assert!(named && size == 6);
                assert_eq!(bytes.slice()[..2], [0xA2, case.block as u8]);
                assert_eq!(bytes.slice()[2..6], case.data);
                assert_eq!(bytes.slice()[6..], before.slice()[6..]);
                let back = type2::decode(&bytes.slice()[..6], case.blocks).unwrap();
                assert_eq!((back.block, back.data), (case.block, case.data));
            }
            Err(refusal) => {
                let number = if named { 12 } else { 20 };
                assert_eq!(refusal, Refusal::new(number));
                assert!(bytes == before);
            }
        }
        let answer = type2::decode(&case.bytes, case.blocks);
        decoded.add(&answer);
        if let Ok(command) = answer {
            let mut bytes = [0; 6];
            type2::encode(command.block, &command.data, case.blocks, &mut bytes).unwrap();
            assert_eq!(case.bytes, bytes);
        }
    }
    encoded.expect(&[0, 12, 20], 500);
    decoded.expect(&[0, 20], 500);
}

#[test]
fn type3_codec() {
    let mut encoded = Tally::new("type3 encode");
    let mut decoded = Tally::new("type3 decode");
    for index in 0..CASES {
        let mut rng = Rng::case(8, index);
        let case = codec::type3(&mut rng);
        let mut bytes = Guarded::random(&mut rng, case.buffer);
        let before = bytes.clone();
        let answer = type3::encode(&case.command, &case.idm, case.nbw, case.nmaxb, bytes.lend());
        encoded.add(&answer);
        match answer {
            Ok(size) => {
                let count = case.command.count as usize;
                assert_eq!(size, 13 + 18 * count);
                assert_eq!(bytes.slice()[size..], before.slice()[size..]);
                let mut back = case.held;
                let sent = &bytes.slice()[..size];
                type3::decode(sent, &case.idm, case.nbw, case.nmaxb, &mut back).unwrap();
                assert_eq!(back.count, case.command.count);
                assert_eq!(back.blocks[..count], case.command.blocks[..count]);
                assert_eq!(back.blocks[count..], case.held.blocks[count..]);
                assert_eq!(back.data[..16 * count], case.command.data[..16 * count]);
                assert_eq!(back.data[16 * count..], case.held.data[16 * count..]);
            }
            Err(refusal) => {
                assert!(refusal == Refusal::new(20) || refusal == Refusal::new(12));
                assert!(bytes == before);
            }
        }
        let mut read = case.held;
        let answer = type3::decode(&case.bytes, &case.idm, case.nbw, case.nmaxb, &mut read);
        decoded.add(&answer);
        match answer {
            Ok(()) => {
                let mut bytes = [0; 157];
                let size =
                    type3::encode(&read, &case.idm, case.nbw, case.nmaxb, &mut bytes).unwrap();
                assert_eq!(case.bytes, bytes[..size]);
            }
            Err(_) => assert!(read == case.held),
        }
    }
    encoded.expect(&[0, 12, 20], 500);
    decoded.expect(&[0, 20], 500);
}

#[test]
fn type6_codec() {
    let mut encoded = Tally::new("type6 encode");
    let mut decoded = Tally::new("type6 decode");
    for index in 0..CASES {
        let mut rng = Rng::case(14, index);
        let case = codec::type6(&mut rng);
        let (block_size, blocks) = (case.block_size, case.blocks);
        let mut bytes = Guarded::random(&mut rng, case.buffer);
        let before = bytes.clone();
        let answer = type6::encode(&case.command, block_size, blocks, bytes.lend());
        encoded.add(&answer);
        let block = case.command.block;
        let named = (1..=32).contains(&block_size) && block < blocks && block <= 255;
        match answer {
            Ok(len) => {
                let size = block_size as usize;
                assert!(named && len == 3 + size);
                let (sent, rest) = bytes.slice().split_at(len);
                assert_eq!(sent[..3], [0x02, 0x21, block as u8]);
                assert_eq!(sent[3..], case.command.data[..size]);
                assert_eq!(rest, &before.slice()[len..]);
                let mut back = case.held;
                type6::decode(sent, block_size, blocks, &mut back).unwrap();
                assert_eq!(back.block, block);
                assert_eq!(back.data[..size], case.command.data[..size]);
                assert_eq!(back.data[size..], case.held.data[size..]);
            }
            Err(refusal) => {
                let number = if named { 12 } else { 20 };
                assert_eq!(refusal, Refusal::new(number));
                assert!(bytes == before);
            }
        }
        let mut read = case.held;
        let answer = type6::decode(&case.bytes, block_size, blocks, &mut read);
        decoded.add(&answer);
        match answer {
            Ok(()) => {
                let mut bytes = [0; 35];
                let len = type6::encode(&read, block_size, blocks, &mut bytes).unwrap();
                assert_eq!(case.bytes, bytes[..len]);
            }
            Err(_) => assert!(read == case.held),
        }
    }
    encoded.expect(&[0, 12, 20], 500);
    decoded.expect(&[0, 20], 500);
}

#[test]
fn type2_model() {
    let mut tally = Tally::new("type2 model");
    for index in 0..CASES {
        let mut rng = Rng::case(9, index);
        let mut image = tags2::any(&mut rng);
        let (old, capacity) = tags2::message_and_capacity(&image);
        let message = message(&mut rng, &old, capacity);
        let command = lists2::command(&mut rng, &image, &message);
        let before = image.clone();
        let answer = type2::model(&mut image, &command);
        tally.add(&answer);
        let mut expected = before.clone();
        let number = match naive2::read(&before) {
            Err(number) => number,
            Ok(_)
                if command.len() == 6
                    && command[0] == 0xA2
                    && (4..before.len() / 4).contains(&(command[1] as usize)) =>
            {
                let start = 4 * command[1] as usize;
                expected[start..start + 4].copy_from_slice(&command[2..]);
                0
            }
            Ok(_) => 20,
        };
        assert_eq!(answer.map_or_else(|refusal| refusal.number, |()| 0), number);
        assert_eq!(image, expected);
    }
    tally.expect(&[0, 1, 2, 3, 4, 5, 6, 7, 8, 20], 100);
}

#[test]
fn type3_model() {
    let mut tally = Tally::new("type3 model");
    for index in 0..CASES {
        let mut rng = Rng::case(10, index);
        let mut image = tags3::any(&mut rng);
        let idm = rng.next().to_be_bytes();
        let (old, capacity) = tags3::message_and_capacity(&image);
        let message = message(&mut rng, &old, capacity);
        let command = lists3::command(&mut rng, &image, &message, &idm);
        let before = image.clone();
        let answer = type3::model(&mut image, &idm, &command);
        tally.add(&answer);
        let mut expected = before.clone();
        let refusal = match naive3::read(&before) {
            Err(refusal) => refusal,
            Ok(_) => match naive3::well_formed(&before, &idm, &command) {
                None => 20,
                Some(parts) => {
                    for (block, data) in parts {
                        expected[16 * block..16 * block + 16].copy_from_slice(data);
                    }
                    0
                }
            },
        };
        assert_eq!(
            answer.map_or_else(|refusal| refusal.number, |()| 0),
            refusal
        );
        assert_eq!(image, expected);
    }
    tally.expect(&[0, 1, 2, 3, 4, 5, 7, 20], 100);
}

#[test]
fn type6_model() {
    let mut tally = Tally::new("type6 model");
    for index in 0..CASES {
        let mut rng = Rng::case(15, index);
        let mut image = tags6::any(&mut rng);
        let (old, capacity) = tags6::message_and_capacity(&image);
        let message = tags6::message(&mut rng, &image, &old, capacity);
        let command = lists6::command(&mut rng, &image, &message);
        let before = image.clone();
        let answer = type6::model(&mut image, &command);
        tally.add(&answer);
        let mut expected = before.clone();
        let refusal = match naive6::read(&before) {
            Err(refusal) => refusal,
            Ok(tag) => match naive6::well_formed(&tag, &command) {
                None => 20,
                Some(block) => {
                    let start = tag.size * block;
                    expected[start..start + tag.size].copy_from_slice(&command[3..]);
                    0
                }
            },
        };
        assert_eq!(
            answer.map_or_else(|refusal| refusal.number, |()| 0),
            refusal
        );
        assert_eq!(image, expected);
    }
    tally.expect(&[0, 1, 2, 3, 4, 5, 7, 20], 100);
}
