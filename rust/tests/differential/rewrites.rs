//! What a list leaves out (E4): the library against the reference on tags that hold a part of the
//! message already, with buffers that are long enough by a byte or short by one.

use zanfirotta::Refusal;

use crate::common::kinds::{Kind, Type2, Type3, Type6};
use crate::common::rewrites::Rewrite;
use crate::common::{Guarded, Rng, Tally};
use crate::{plain, same, same_buffers};

/// Fewer cases than for an operation, because each has about forty tags.
const REDUCED: u64 = 20;

pub fn type2(cases: u64) {
    run::<Type2>("type2 rewrites", cases, 27, |_, image, message, list| {
        zanfirotta::type2::write(image, message, list)
    });
}

pub fn type3(cases: u64) {
    run::<Type3>("type3 rewrites", cases, 37, |kind, image, message, list| {
        zanfirotta::type3::write(image, message, &kind.idm, list)
    });
}

pub fn type6(cases: u64) {
    run::<Type6>("type6 rewrites", cases, 67, |_, image, message, list| {
        zanfirotta::type6::write(image, message, list)
    });
}

/// Every tag between a random one and the same with a message written on it.
fn run<K: Kind>(
    name: &'static str,
    cases: u64,
    seed: u64,
    write: impl Fn(&K, &[u8], &[u8], &mut [u8]) -> Result<usize, Refusal>,
) {
    let mut tally = Tally::new(name);
    for index in 0..cases / REDUCED {
        let mut rng = Rng::case(seed, index);
        let rewrite = Rewrite::<K>::random(&mut rng);
        let (kind, message) = (&rewrite.kind, &rewrite.message[..]);
        let mut images = rewrite.halfway(&mut rng);
        images.extend(rewrite.near(&mut rng));
        for image in images {
            let ours = kind.ours(&image, message);
            let needed = ours.len();
            for len in [needed, needed - 1, needed + 1, rng.below(needed)] {
                let mut wanted = Guarded::random(&mut rng, len);
                let mut list = wanted.clone();
                let expected = kind.write(&image, message, wanted.lend());
                let got = plain(write(kind, &image, message, list.lend()));
                same(index, &got, &expected, &[&image, message]);
                same_buffers(index, &list, &wanted, &[&image, message]);
                assert_eq!(expected.is_ok(), len >= needed);
                tally.add(&expected);
            }
            let commands = kind.split(&ours);
            let blocks = commands.iter().flat_map(|command| kind.parts(command));
            let blocks: Vec<usize> = blocks.map(|(block, _)| block).collect();
            let is_open = !kind.message_and_capacity(&image).0.is_empty();
            tally.note("one command", commands.len() == 1);
            tally.note("shut and last", is_open && commands.len() == 2);
            tally.note("going on", !is_open && commands.len() > 2);
            let gap = blocks.windows(2).any(|pair| pair[0] + 1 < pair[1]);
            tally.note("blocks left out between", gap);
        }
    }
    tally.expect(&[0, 12], cases / 20);
}
