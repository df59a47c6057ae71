//! The library against the reference on tags whose areas lie over each other: two areas in every
//! position, and many of them one over the other.

use zanfirotta::type2::LIST_MAX;

use crate::common::layout2::Layout;
use crate::common::tags2::{plain as tag, END};
use crate::common::Tally;
use crate::reference::type2;
use crate::{plain, read_answer, same};

/// A first address and a size in bytes, at most 256.
type Area = (usize, usize);

/// A tag with memory control TLVs for these areas and then, at the addresses that they leave, NULL TLVs
/// and a message TLV of `n` bytes.
fn tag_with(len: usize, areas: &[Area], nulls: usize, n: usize) -> Vec<u8> {
    let size = (len - 16) / 8;
    let mut layout = Layout::new(tag(len, size as u8, &[]), size);
    for &(start, size) in areas {
        let power = if start < 256 { 4 } else { 6 };
        let place = (start >> power << 4) + start % (1 << power);
        let value = [place as u8, size as u8, power];
        assert!(start % (1 << power) < 16 && place < 256);
        layout.put_all(&[0x02, 0x03]);
        layout.put_all(&value);
        for address in start.max(layout.place)..(start + size).min(END) {
            layout.skip[address] = true;
        }
    }
    layout.put_all(&vec![0x00; nulls]);
    let _ = layout.put(0x03) && layout.length(n) && (0..n).all(|i| layout.put(i as u8));
    layout.put(0xFE);
    layout.image
}

/// Compares every call on this tag. The message to write has one byte more than the tag's own.
fn same_on(tally: &mut Tally, index: u64, image: &[u8], n: usize) {
    let (mut gathered, mut wanted) = ([0xCC; END], [0xCC; END]);
    let expected = type2::read(image, &mut wanted);
    let got = zanfirotta::type2::read(image, &mut gathered);
    same(index, &plain(got.map(read_answer)), &expected, &[image]);
    same(index, &gathered, &wanted, &[image]);
    tally.add(&expected);
    tally.note("interrupted", expected.is_ok_and(|a| a.interrupted));

    let message: Vec<u8> = (0..=n).map(|i| !i as u8).collect();
    let (mut list, mut wanted) = ([0xCC; LIST_MAX], [0xCC; LIST_MAX]);
    let expected = type2::write(image, &message, &mut wanted);
    let got = plain(zanfirotta::type2::write(image, &message, &mut list));
    same(index, &got, &expected, &[image, &message]);
    same(index, &list, &wanted, &[image, &message]);
    tally.add(&expected);

    let Ok(count) = expected else { return };
    let list = &list[..6 * count];
    let got = plain(zanfirotta::type2::judge(image, &message, list));
    same(index, &got, &Ok(count), &[image, &message, list]);
    let (mut image, mut wanted) = (image.to_vec(), image.to_vec());
    for command in list.chunks(6) {
        assert!(type2::model(&mut wanted, command).is_ok());
        assert!(zanfirotta::type2::model(&mut image, command).is_ok());
        same(index, &image, &wanted, &[command]);
    }
    let read = zanfirotta::type2::read(&image, &mut gathered).expect("the new message");
    assert_eq!(read.message(&image, &gathered), message);
}

/// Two areas: one behind the other, overlapping, one inside the other, the same; some reach the end of
/// the data area or lie past it.
pub fn every_two() {
    let starts = || (25..=32).chain(59..=64);
    let areas = || starts().flat_map(|start| (1..=8).map(move |size| (start, size)));
    let mut tally = Tally::new("two areas");
    for (index, first) in areas().enumerate() {
        for second in areas() {
            let image = tag_with(64, &[first, second], 0, 8);
            same_on(&mut tally, index as u64, &image, 8);
        }
    }
    tally.expect(&[0], 1000);
}

/// Up to 96 areas at the same place. The message TLV begins up to five bytes before them, or behind them.
pub fn every_stack() {
    let forms: [fn(usize, usize) -> Area; 6] = [
        |_, _| (512, 256),
        // Each an address shorter than the one before; each an address longer.
        |_, i| (512, 256 - i),
        |n, i| (512, 256 - n + i),
        // Each an address farther on; each inside the one before, up to sixteen; one behind the other.
        |_, i| (512 + i % 16, 256),
        |_, i| (512 + i % 16, 256 - 2 * (i % 16)),
        |_, i| (512 + i % 16, 1),
    ];
    let mut tally = Tally::new("many areas");
    for form in forms {
        for n in 0..=96 {
            let areas: Vec<Area> = (0..n).map(|i| form(n, i)).collect();
            for place in 507..=512 {
                let image = tag_with(1024, &areas, place - 16 - 5 * n, 20);
                same_on(&mut tally, n as u64, &image, 20);
            }
        }
    }
    tally.expect(&[0], 1000);
}
