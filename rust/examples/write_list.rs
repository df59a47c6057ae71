//! Reads a Type 2 image and a message from two files and prints the write list, or one line with
//! the refusal's number.
//!
//! ```text
//! cargo run --example write_list -- tag.bin message.bin
//! ```
//!
//! Without arguments the files are `tag.bin` and `message.bin`; a file that can't be opened
//! counts as empty.

#[cfg(not(zanfirotta_archive))]
compile_error!("libzanfirotta.a is missing: run `rt lib` in crates/zanfirotta");

use std::{env, fs};

use zanfirotta::type2;

fn main() {
    let mut files = env::args().skip(1);
    let mut file = |default: &str| {
        let name = files.next().unwrap_or_else(|| default.to_string());
        fs::read(name).unwrap_or_default()
    };
    let image = file("tag.bin");
    let message = file("message.bin");

    let mut list = [0; type2::LIST_MAX];
    match type2::write(&image, &message, &mut list) {
        Ok(count) => {
            println!("{count} commands");
            for command in type2::commands(&list).take(count) {
                let bytes: Vec<String> = command.iter().map(|byte| format!("{byte:02X}")).collect();
                println!("{}", bytes.join(" "));
            }
        }
        Err(refusal) => println!("refused {}", refusal.number as u8),
    }
}
