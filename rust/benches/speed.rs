//! How long the verified library takes, compared with the reference on the same inputs.
//!
//! `cargo bench --bench speed`. Both are built for release. A run clears the buffers that are
//! written to, then times a number of calls; the table shows the median of all runs. With
//! `-- lists` the table shows how many commands and blocks the lists write, in place of times.

#[cfg(not(zanfirotta_archive))]
compile_error!("libzanfirotta.a is missing: run `rt lib` in crates/zanfirotta");

#[path = "speed/cases.rs"]
mod cases;
#[path = "speed/records.rs"]
mod records;
#[path = "../tests/reference/mod.rs"]
mod reference;
#[path = "speed/timing.rs"]
mod timing;
#[path = "speed/uris.rs"]
mod uris;

use std::env;
use std::hint::black_box;

use cases::{Case, Kind, IDM};
use timing::compare;
use zanfirotta::{type2, type3, type6};

fn type2(case: &Case) {
    let (image, message) = (&case.image[..], &case.message[..]);
    let commands = case.commands();
    let (list, command) = (commands.concat(), &commands[commands.len() / 2][..]);
    assert_eq!(type2::judge(image, message, &list), Ok(commands.len()));

    compare(
        case,
        "read",
        &|b| {
            let _ = black_box(type2::read(black_box(image), &mut b.gathered));
        },
        &|b| {
            let _ = black_box(reference::type2::read(black_box(image), &mut b.gathered));
        },
    );
    compare(
        case,
        "write",
        &|b| {
            let _ = black_box(type2::write(black_box(image), message, &mut b.list));
        },
        &|b| {
            let _ = black_box(reference::type2::write(
                black_box(image),
                message,
                &mut b.list,
            ));
        },
    );
    compare(
        case,
        "judge",
        &|_| {
            let _ = black_box(type2::judge(black_box(image), message, &list));
        },
        &|_| {
            let _ = black_box(reference::type2::judge(black_box(image), message, &list));
        },
    );
    compare(
        case,
        "model",
        &|b| {
            let _ = black_box(type2::model(black_box(&mut b.image), command));
        },
        &|b| {
            let _ = black_box(reference::type2::model(black_box(&mut b.image), command));
        },
    );
}

fn type3(case: &Case) {
    let (image, message) = (&case.image[..], &case.message[..]);
    let commands = case.commands();
    let (list, command) = (commands.concat(), &commands[commands.len() / 2][..]);
    let judged = type3::judge(image, message, &IDM, &list);
    assert_eq!(judged, Ok(commands.len()));

    compare(
        case,
        "read",
        &|_| {
            let _ = black_box(type3::read(black_box(image)));
        },
        &|_| {
            let _ = black_box(reference::type3::read(black_box(image)));
        },
    );
    compare(
        case,
        "write",
        &|b| {
            let list = &mut b.list;
            let _ = black_box(type3::write(black_box(image), message, &IDM, list));
        },
        &|b| {
            let list = &mut b.list;
            let _ = black_box(reference::type3::write(
                black_box(image),
                message,
                &IDM,
                list,
            ));
        },
    );
    compare(
        case,
        "judge",
        &|_| {
            let _ = black_box(type3::judge(black_box(image), message, &IDM, &list));
        },
        &|_| {
            let _ = black_box(reference::type3::judge(
                black_box(image),
                message,
                &IDM,
                &list,
            ));
        },
    );
    compare(
        case,
        "model",
        &|b| {
            let image = black_box(&mut b.image);
            let _ = black_box(type3::model(image, &IDM, command));
        },
        &|b| {
            let image = black_box(&mut b.image);
            let _ = black_box(reference::type3::model(image, &IDM, command));
        },
    );
}

fn type6(case: &Case) {
    let (image, message) = (&case.image[..], &case.message[..]);
    let commands = case.commands();
    let (list, command) = (commands.concat(), &commands[commands.len() / 2][..]);
    assert_eq!(type6::judge(image, message, &list), Ok(commands.len()));

    compare(
        case,
        "read",
        &|_| {
            let _ = black_box(type6::read(black_box(image)));
        },
        &|_| {
            let _ = black_box(reference::type6::read(black_box(image)));
        },
    );
    compare(
        case,
        "write",
        &|b| {
            let _ = black_box(type6::write(black_box(image), message, &mut b.list));
        },
        &|b| {
            let list = &mut b.list;
            let _ = black_box(reference::type6::write(black_box(image), message, list));
        },
    );
    compare(
        case,
        "judge",
        &|_| {
            let _ = black_box(type6::judge(black_box(image), message, &list));
        },
        &|_| {
            let _ = black_box(reference::type6::judge(black_box(image), message, &list));
        },
    );
    compare(
        case,
        "model",
        &|b| {
            let _ = black_box(type6::model(black_box(&mut b.image), command));
        },
        &|b| {
            let _ = black_box(reference::type6::model(black_box(&mut b.image), command));
        },
    );
}

/// How many commands and blocks the lists write.
fn print_lists(cases: &[Case]) {
    println!("| tag                          | commands | blocks |");
    println!("|------------------------------|----------|--------|");
    for case in cases {
        let commands = case.commands();
        let blocks: usize = match case.kind {
            Kind::Type3 => commands.iter().map(|command| command[12] as usize).sum(),
            _ => commands.len(),
        };
        println!(
            "| {:<28} | {:>8} | {blocks:>6} |",
            case.name,
            commands.len()
        );
    }
}

fn main() {
    let cases = cases::all();
    if env::args().any(|argument| argument == "lists") {
        return print_lists(&cases);
    }
    println!("| tag                          | call    | library ns   | reference ns |  ratio |");
    println!("|------------------------------|---------|--------------|--------------|--------|");
    for case in &cases {
        match case.kind {
            Kind::Type2 => type2(case),
            Kind::Type3 => type3(case),
            Kind::Type6 => type6(case),
        }
    }
    records::all();
    uris::all();
}
