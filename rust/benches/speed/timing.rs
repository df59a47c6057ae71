//! Times two calls against each other, in turn, and prints the medians.

use std::time::Instant;

use zanfirotta::type6;

use crate::cases::Case;
use crate::reference::ndef::TABLE;

const RUNS: usize = 301;
/// A run should take about this long.
const NANOSECONDS: f64 = 50_000.0;

/// The buffers that a call may write to.
pub struct Buffers {
    pub image: Vec<u8>,
    pub gathered: Vec<u8>,
    pub list: Vec<u8>,
    /// For the records of a message.
    pub table: [u64; TABLE],
}

impl Buffers {
    fn new(image: &[u8]) -> Self {
        Buffers {
            image: image.to_vec(),
            gathered: vec![0; 4096],
            list: vec![0; type6::LIST_MAX], // the longest of any type
            table: [0; TABLE],
        }
    }

    fn clear(&mut self, image: &[u8]) {
        self.image.copy_from_slice(image);
        self.gathered.fill(0);
        self.list.fill(0);
        self.table.fill(0);
    }
}

/// One run: nanoseconds for a call.
fn run(calls: usize, image: &[u8], buffers: &mut Buffers, call: &dyn Fn(&mut Buffers)) -> f64 {
    buffers.clear(image);
    let start = Instant::now();
    for _ in 0..calls {
        call(buffers);
    }
    start.elapsed().as_nanos() as f64 / calls as f64
}

fn median(mut times: Vec<f64>) -> f64 {
    times.sort_by(f64::total_cmp);
    times[times.len() / 2]
}

/// Times both on a tag. Reading and the model do not go by the message, so they are not timed again
/// on a tag that holds a part of it.
pub fn compare(
    case: &Case,
    operation: &str,
    library: &dyn Fn(&mut Buffers),
    reference: &dyn Fn(&mut Buffers),
) {
    if case.is_rewrite && ["read", "model"].contains(&operation) {
        return;
    }
    compare_on(&case.image, case.name, operation, library, reference);
}

/// Times both and prints a line of the table.
pub fn compare_on(
    image: &[u8],
    name: &str,
    operation: &str,
    library: &dyn Fn(&mut Buffers),
    reference: &dyn Fn(&mut Buffers),
) {
    let mut buffers = Buffers::new(image);
    let mut calls = |call| {
        let once = (0..5).map(|_| run(1, image, &mut buffers, call));
        let once = once.fold(f64::INFINITY, f64::min);
        (NANOSECONDS / once.max(1.0)).clamp(1.0, 5_000.0) as usize
    };
    let (library_calls, reference_calls) = (calls(library), calls(reference));
    let (mut library_times, mut reference_times) = (Vec::new(), Vec::new());
    for _ in 0..RUNS {
        library_times.push(run(library_calls, image, &mut buffers, library));
        reference_times.push(run(reference_calls, image, &mut buffers, reference));
    }
    let (library, reference) = (median(library_times), median(reference_times));
    println!(
        "| {name:<28} | {operation:<7} | {library:>12.1} | {reference:>12.1} | {:>6.2} |",
        library / reference
    );
}
