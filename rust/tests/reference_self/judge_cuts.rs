//! The reference's judge against the naive form, and cuts of accepted lists.

use crate::common::{lists2, lists3, lists6, message, tags2, tags3, tags6, Rng, Tally};
use crate::reference::{type2, type3, type6};
use crate::{naive2, naive3, naive6, CASES};

/// The judge against the naive form. Along the cuts of an accepted list the model follows, and from
/// every cut writing afresh ends where our list ends.
#[test]
fn type2_judge_and_cuts() {
    let mut tally = Tally::new("type2 judge");
    let mut cuts = 0;
    for index in 0..CASES {
        let mut rng = Rng::case(5, index);
        let image = tags2::for_lists(&mut rng);
        let (old, capacity) = tags2::message_and_capacity(&image);
        let message = message(&mut rng, &old, capacity);
        let list = lists2::any(&mut rng, &image, &message);
        let answer = type2::judge(&image, &message, &list);
        tally.add(&answer);
        assert_eq!(
            answer,
            naive2::judge(&image, &message, &list),
            "case {index}"
        );
        if answer.is_err() || !rng.percent(20) {
            continue;
        }
        let end = run2(&image, &lists2::ours(&image, &message));
        let mut cut = image.clone();
        for command in lists2::split(&list).iter().map(Some).chain([None]) {
            cuts += 1;
            let again = run2(&cut, &lists2::ours(&cut, &message));
            assert!(again == end, "case {index}");
            if let Some(command) = command {
                type2::model(&mut cut, command).unwrap();
            }
        }
        assert_eq!(tags2::message_and_capacity(&end).0, message);
    }
    println!("type2 cuts     {cuts}");
    tally.expect(&[0, 1, 2, 3, 4, 5, 6, 7, 8, 9, 10, 11, 20, 21, 22, 23], 100);
}

fn run2(image: &[u8], list: &[lists2::Command]) -> Vec<u8> {
    let mut image = image.to_vec();
    for command in list {
        type2::model(&mut image, command).unwrap();
    }
    image
}

#[test]
fn type3_judge_and_cuts() {
    let mut tally = Tally::new("type3 judge");
    let mut cuts = 0;
    for index in 0..CASES {
        let mut rng = Rng::case(6, index);
        let image = tags3::for_lists(&mut rng);
        let idm = rng.next().to_be_bytes();
        let (old, capacity) = tags3::message_and_capacity(&image);
        let message = message(&mut rng, &old, capacity);
        let list = lists3::any(&mut rng, &image, &message, &idm);
        let answer = type3::judge(&image, &message, &idm, &list);
        tally.add(&answer);
        assert_eq!(
            answer,
            naive3::judge(&image, &message, &idm, &list),
            "case {index}"
        );
        if answer.is_err() || !rng.percent(20) {
            continue;
        }
        let end = run3(&image, &message, &idm);
        let mut cut = image.clone();
        let commands = lists3::split(&list);
        for command in commands.iter().map(Some).chain([None]) {
            cuts += 1;
            assert!(run3(&cut, &message, &idm) == end, "case {index}");
            if let Some(command) = command {
                type3::model(&mut cut, &idm, command).unwrap();
            }
        }
        assert_eq!(tags3::message_and_capacity(&end).0, message);
    }
    println!("type3 cuts     {cuts}");
    tally.expect(&[0, 1, 2, 3, 4, 5, 7, 9, 10, 11, 20, 21, 22, 23], 100);
}

fn run3(image: &[u8], message: &[u8], idm: &[u8; 8]) -> Vec<u8> {
    let mut end = image.to_vec();
    for command in lists3::split(&lists3::our_bytes(image, message, idm)) {
        type3::model(&mut end, idm, &command).unwrap();
    }
    end
}

#[test]
fn type6_judge_and_cuts() {
    let mut tally = Tally::new("type6 judge");
    let mut cuts = 0;
    for index in 0..CASES {
        let mut rng = Rng::case(13, index);
        let image = tags6::for_lists(&mut rng);
        let (old, capacity) = tags6::message_and_capacity(&image);
        let message = tags6::message(&mut rng, &image, &old, capacity);
        let list = lists6::any(&mut rng, &image, &message);
        let answer = type6::judge(&image, &message, &list);
        tally.add(&answer);
        assert_eq!(
            answer,
            naive6::judge(&image, &message, &list),
            "case {index}"
        );
        if answer.is_err() || !rng.percent(20) {
            continue;
        }
        let end = run6(&image, &message);
        let mut cut = image.clone();
        let commands = lists6::split(&list, tags6::block_size(&image));
        for command in commands.iter().map(Some).chain([None]) {
            cuts += 1;
            assert!(run6(&cut, &message) == end, "case {index}");
            if let Some(command) = command {
                type6::model(&mut cut, command).unwrap();
            }
        }
        assert_eq!(tags6::message_and_capacity(&end).0, message);
    }
    println!("type6 cuts     {cuts}");
    tally.expect(&[0, 1, 2, 3, 4, 5, 7, 9, 10, 11, 14, 20, 21, 22, 23], 100);
}

fn run6(image: &[u8], message: &[u8]) -> Vec<u8> {
    let mut end = image.to_vec();
    for command in lists6::ours(image, message) {
        type6::model(&mut end, &command).unwrap();
    }
    end
}
