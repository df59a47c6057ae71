//! The cuts of accepted lists, ours and foreign, with the verified library. The model follows cut
//! by cut, and every cut reads as the old message, as none or as the new one. Writing afresh from a
//! cut ends in the same image as our uninterrupted list.

#[cfg(not(zanfirotta_archive))]
compile_error!("libzanfirotta.a is missing: run `rt lib` in crates/zanfirotta");

mod common;
mod reference;
#[path = "cuts/types.rs"]
mod types;

use common::rewrites::Rewrite;
use common::{fitting_message, Rng};
use types::{Type, Type2, Type3, Type6};

/// Accepted lists of each type in the normal run, and in the long one (`-- --ignored`).
const SUBSET: u64 = 2_000;
const WHOLE: u64 = 20_000;
/// Tags of each type whose message is rewritten, with all that lies between, likewise.
const REWRITES_SUBSET: u64 = 500;
const REWRITES_WHOLE: u64 = 5_000;

/// Follows one accepted list; returns how many cuts it has.
fn follow(tag: &impl Type, rng: &mut Rng, image: &[u8], message: &[u8], list: &[u8]) -> u64 {
    let old = tag.message(image).unwrap();
    let ours = tag.list(image, message);
    let mut end = image.to_vec();
    for command in tag.commands(&ours) {
        assert!(tag.model(&mut end, &command));
    }
    assert_eq!(tag.message(&end).as_deref(), Some(message));

    let commands = tag.commands(list);
    assert_eq!(commands, tag.split(list));
    let mut cut = image.to_vec(); // by the model
    let mut expected = image.to_vec(); // by storing
    for command in commands.iter().map(Some).chain([None]) {
        let now = tag.message(&cut).unwrap();
        assert!(now.is_empty() || now == old || now == message);

        // Writing afresh.
        let afresh = tag.list(&cut, message);
        assert_eq!(afresh, tag.ours(&cut, message));
        let mut again = cut.clone();
        for command in tag.commands(&afresh) {
            assert!(tag.model(&mut again, &command));
        }
        assert!(again == end, "writing afresh ends elsewhere");

        // A call that is refused changes nothing.
        let mut bad = command.unwrap_or(&ours).clone();
        bad.push(rng.byte());
        if rng.percent(50) {
            bad[0] ^= 1 << rng.below(8);
        }
        assert!(!tag.model(&mut cut, &bad));
        assert!(cut == expected);

        if let Some(command) = command {
            assert!(tag.model(&mut cut, command));
            tag.store(&mut expected, command);
            assert!(cut == expected, "the model does not follow");
        }
    }
    assert_eq!(tag.message(&cut).as_deref(), Some(message));
    commands.len() as u64 + 1
}

fn run<T: Type>(name: &str, lists: u64, seed: u64) {
    let (mut done, mut foreign, mut rewritten, mut not_1_0, mut cuts) = (0, 0, 0, 0, 0);
    for index in 0.. {
        if done == lists {
            break;
        }
        let mut rng = Rng::case(seed, index);
        let (tag, image) = T::tag(&mut rng);
        let (old, capacity) = tag.message_and_capacity(&image);
        if capacity == 0 {
            continue;
        }
        let message = fitting_message(&mut rng, &old, capacity);
        let list = if rng.percent(20) {
            tag.ours(&image, &message)
        } else {
            tag.foreign(&mut rng, &image, &message)
        };
        let Some(count) = tag.judge(&image, &message, &list) else {
            continue;
        };
        assert_eq!(count, tag.commands(&list).len());
        cuts += follow(&tag, &mut rng, &image, &message, &list);
        done += 1;
        foreign += (list != tag.ours(&image, &message)) as u64;
        rewritten += !old.is_empty() as u64;
        not_1_0 += T::VERSION.is_some_and(|at| image[at] != 0x10) as u64;
    }
    println!("{name} lists {done}, of them foreign {foreign}, over an old message {rewritten}, not 1.0 {not_1_0}, cuts {cuts}");
    assert!(foreign >= lists / 3 && rewritten >= lists / 8);
    assert!(T::VERSION.is_none() || not_1_0 >= lists / 8);
}

/// Our lists on tags that hold a part of the message already (E4). Where a write broke off, or its
/// commands came in another order, the end is that of the write from the start.
fn rewrites<T: Type>(name: &str, cases: u64, seed: u64) {
    let (mut lists, mut cuts) = (0, 0);
    for index in 0..cases {
        let mut rng = Rng::case(seed, index);
        let rewrite = Rewrite::<T>::random(&mut rng);
        let (tag, message) = (&rewrite.kind, &rewrite.message);
        let halfway = rewrite.halfway(&mut rng);
        for image in &halfway {
            let list = tag.list(image, message);
            assert!(tag.after(image, &list) == rewrite.after);
        }
        for image in halfway.into_iter().chain(rewrite.near(&mut rng)) {
            let list = tag.list(&image, message);
            assert_eq!(
                tag.judge(&image, message, &list),
                Some(tag.split(&list).len())
            );
            cuts += follow(tag, &mut rng, &image, message, &list);
            lists += 1;
        }
    }
    println!("{name} rewrites {lists}, cuts {cuts}");
}

#[test]
fn type2_subset() {
    run::<Type2>("type2", SUBSET, 41);
}

#[test]
fn type3_subset() {
    run::<Type3>("type3", SUBSET, 42);
}

#[test]
fn type6_subset() {
    run::<Type6>("type6", SUBSET, 43);
}

#[test]
fn type2_rewrites() {
    rewrites::<Type2>("type2", REWRITES_SUBSET, 44);
}

#[test]
fn type3_rewrites() {
    rewrites::<Type3>("type3", REWRITES_SUBSET, 45);
}

#[test]
fn type6_rewrites() {
    rewrites::<Type6>("type6", REWRITES_SUBSET, 46);
}

#[test]
#[ignore = "long"]
fn type2_whole() {
    run::<Type2>("type2", WHOLE, 41);
    rewrites::<Type2>("type2", REWRITES_WHOLE, 44);
}

#[test]
#[ignore = "long"]
fn type3_whole() {
    run::<Type3>("type3", WHOLE, 42);
    rewrites::<Type3>("type3", REWRITES_WHOLE, 45);
}

#[test]
#[ignore = "long"]
fn type6_whole() {
    run::<Type6>("type6", WHOLE, 43);
    rewrites::<Type6>("type6", REWRITES_WHOLE, 46);
}
