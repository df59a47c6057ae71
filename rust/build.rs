//! Finds the archive of the verified library and links it.

use std::env;
use std::path::PathBuf;

fn main() {
    println!("cargo:rerun-if-changed=build.rs");
    println!("cargo:rerun-if-env-changed=ZANFIROTTA_LIB_DIR");
    println!("cargo:rustc-check-cfg=cfg(zanfirotta_archive)");

    let here = PathBuf::from(env::var_os("CARGO_MANIFEST_DIR").expect("cargo sets it"));
    let given = env::var_os("ZANFIROTTA_LIB_DIR");
    let dir = match &given {
        Some(dir) => here.join(dir),
        None => here.join("../crates/zanfirotta/out"),
    };
    let archive = dir.join("libzanfirotta.a");
    println!("cargo:rerun-if-changed={}", archive.display());

    if archive.is_file() {
        println!("cargo:rustc-link-search=native={}", dir.display());
        println!("cargo:rustc-link-lib=static=zanfirotta");
        println!("cargo:rustc-cfg=zanfirotta_archive");
        return;
    }
    let problem = format!(
        "there is no {}: run `rt lib` in crates/zanfirotta, or set \
         ZANFIROTTA_LIB_DIR to the directory of libzanfirotta.a",
        archive.display()
    );
    // A directory that was asked for has to hold the archive. Without one, the tests that need
    // no archive (`cargo test --test reference_self`) still build; the others say what to do.
    if given.is_some() {
        panic!("{problem}");
    }
    println!("cargo:warning={problem}");
}
