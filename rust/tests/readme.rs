//! Compiles and runs what README.md, the header and examples/c show, and calls every function of
//! the header from C. The Rust lines of README.md are a doc test of the crate.

#![cfg(zanfirotta_archive)]

use std::fs;
use std::path::{Path, PathBuf};
use std::process::Command;

fn top() -> PathBuf {
    Path::new(env!("CARGO_MANIFEST_DIR")).join("..")
}

/// The lines of README.md between fences with this label and the next fences, block by block.
fn blocks(label: &str) -> Vec<String> {
    let readme = fs::read_to_string(top().join("README.md")).unwrap();
    let start = format!("```{label}\n");
    let behind = readme.split(&start).skip(1);
    let block = |rest: &str| rest.split_once("```").expect("its end").0.to_string();
    behind.map(block).collect()
}

/// A C program in which `lines` are the body of a function that takes a tag. Its `main` passes an
/// image that has `front` at address `at` and 00h elsewhere.
fn program(before: &str, lines: &str, size: usize, at: usize, front: &str) -> String {
    format!(
        "#include <stdio.h>
#include \"zanfirotta.h\"
{before}
static int run(const uint8_t *image, size_t image_len)
{{
{lines}
return 0;
}}
int main(void)
{{
    uint8_t image[{size}] = {{0}};
    static const uint8_t front[] = {{{front}}};
    for (size_t i = 0; i < sizeof front; i++)
        image[{at} + i] = front[i];
    return run(image, sizeof image);
}}
"
    )
}

/// A C function of this name that prints bytes.
fn printer(name: &str) -> String {
    format!(
        "static void {name}(const uint8_t *bytes, size_t len)
{{
    for (size_t i = 0; i < len; i++)
        printf(\"%02X\", bytes[i]);
    printf(\"\\n\");
}}
"
    )
}

/// Writes a C program to a file, compiles it with the archive and runs it; returns what it prints.
fn run_text(name: &str, text: &str) -> String {
    let source = Path::new(env!("CARGO_TARGET_TMPDIR")).join(format!("{name}.c"));
    fs::write(&source, text).unwrap();
    run_c(name, &source)
}

/// Compiles a C program with the archive and runs it; returns what it prints.
fn run_c(name: &str, source: &Path) -> String {
    let archive = std::env::var_os("ZANFIROTTA_LIB_DIR")
        .map_or(top().join("crates/zanfirotta/out"), PathBuf::from)
        .join("libzanfirotta.a");
    let program = Path::new(env!("CARGO_TARGET_TMPDIR")).join(name);
    let compiled = Command::new("cc")
        .args(["-std=c99", "-Wall", "-Wextra", "-Werror", "-I"])
        .arg(top().join("include"))
        .arg(source)
        .arg(archive)
        .arg("-o")
        .arg(&program)
        .status()
        .expect("cc runs");
    assert!(compiled.success(), "{name} does not compile");
    let run = Command::new(&program).output().expect("it runs");
    assert!(run.status.success(), "{name} fails: {}", run.status);
    String::from_utf8(run.stdout).unwrap()
}

#[test]
fn rattle_lines_are_the_crate() {
    let source = fs::read_to_string(top().join("crates/first_use/src/lib.rt")).unwrap();
    assert_eq!(blocks("rattle"), [source]);
}

/// `send` prints, and the message is that of the specimen.
#[test]
fn c_lines_of_the_readme_write_the_sample() {
    let lines = blocks("c").remove(0);
    let lines = lines
        .strip_prefix("#include \"zanfirotta.h\"\n")
        .expect("the header");
    let message = "static const uint8_t message[3] = {0xD0};\nenum { message_len = 3 };\n";
    let before = printer("send") + message;
    let front = "0xE1, 0x10, 0x06, 0x00, 0x03, 0x00, 0xFE";
    assert_eq!(
        run_text("readme", &program(&before, lines, 64, 12, front)),
        "A20500FE0000\nA2040303D000\n"
    );
}

/// `show` prints text. The tag has the poster that the Rust lines show.
#[test]
fn c_lines_of_the_readme_show_an_address() {
    let lines = blocks("c").remove(1);
    let show = "static void show(const uint8_t *bytes, uint64_t len)
{
    printf(\"%.*s\\n\", (int)len, (const char *)bytes);
}
";
    let front = "0xE1, 0x10, 0x06, 0x00, 0x03, 0x20, 0xD1, 2, 0x1B, 'S', 'p', \
        0x91, 1, 5, 'T', 2, 'e', 'n', 'H', 'i', \
        0x51, 1, 0x0E, 'U', 4, 'e', 'x', 'a', 'm', 'p', 'l', 'e', '.', 'o', 'r', 'g', '/', '7', 0xFE";
    assert_eq!(
        run_text("address", &program(show, &lines, 64, 12, front)),
        "https://example.org/7\n"
    );
}

fn header() -> String {
    fs::read_to_string(top().join("include/zanfirotta.h")).unwrap()
}

/// The lines of C in a comment of the header, from this one on.
fn header_lines(first: &str) -> String {
    header()
        .lines()
        .skip_while(|line| !line.contains(first))
        .map_while(|line| line.strip_prefix(" *     "))
        .map(|line| format!("{line}\n"))
        .collect()
}

/// The lines in the header's first comment; `show` prints.
#[test]
fn c_lines_of_the_header_read_a_tag() {
    let lines = header_lines("zan_report report;");
    let front = "16, 4, 1, 0, 2, 0, 0, 0, 0, 0, 1, 0, 0, 3, 0, 0x1B, 0xD0, 0x00, 0x00";
    assert_eq!(
        run_text("header", &program(&printer("show"), &lines, 48, 0, front)),
        "D00000\n"
    );
}

/// The lines at `zan_ndef_read`; `show` prints the payloads of two records.
#[test]
fn c_lines_of_the_header_read_records() {
    let message = "const uint8_t *message = image;\nsize_t message_len = image_len;\n";
    let lines = message.to_string() + &header_lines("uint64_t records[ZAN_NDEF_TABLE];");
    let front = "0x91, 1, 2, 'T', 'h', 'i', 0x51, 1, 3, 'T', 'b', 'y', 'e'";
    assert_eq!(
        run_text("records", &program(&printer("show"), &lines, 13, 0, front)),
        "6869\n627965\n"
    );
}

/// A program with the header compiles without a warning as C89, C99, C11, C17 and C++17.
#[test]
fn header_is_clean() {
    let languages = [
        ("c", "c89"),
        ("c", "c99"),
        ("c", "c11"),
        ("c", "c17"),
        ("c++", "c++17"),
    ];
    for (language, standard) in languages {
        let clean = Command::new("cc")
            .args(["-x", language, &format!("-std={standard}")])
            .args(["-Wall", "-Wextra", "-pedantic", "-Werror", "-fsyntax-only"])
            .arg("-I")
            .arg(top().join("include"))
            .arg(top().join("rust/tests/c/calls.c"))
            .status()
            .expect("cc runs");
        assert!(clean.success(), "not clean as {standard}");
    }
}

#[test]
fn c_example_runs() {
    let printed = run_c("write_tag", &top().join("examples/c/write_tag.c"));
    for (number, capacity) in [(2, 46), (3, 208), (6, 54)] {
        let count = format!("Type {number}: 3 commands\n");
        let length = format!("length 8 of at most {capacity}\n");
        assert!(printed.contains(&count), "{printed}");
        assert!(printed.contains(&length), "{printed}");
    }
}

#[test]
fn every_function_is_called_from_c() {
    let calls = top().join("rust/tests/c/calls.c");
    let text = fs::read_to_string(&calls).unwrap();
    let header = header();
    let declared: Vec<&str> = header
        .lines()
        .filter_map(|line| line.strip_prefix("uint64_t zan_"))
        .filter_map(|line| line.split_once('(').map(|(name, _)| name))
        .collect();
    assert_eq!(declared.len(), 24);
    for name in declared {
        assert!(text.contains(&format!("zan_{name}(")), "zan_{name}");
    }
    run_c("calls", &calls);
}
