//! Links `libsquawk.a`, and makes the constants of the kinds from the C header.
//!
//! The environment variable `SQUAWK_LIB` names the folder of `libsquawk.a`, which
//! `bindings/build_libraries.sh` makes; without it the folder is `bindings/lib`.
use std::env;
use std::fmt::Write;
use std::fs;
use std::path::PathBuf;

const KINDS: &str = "../c/include/squawk_kinds.h";

fn main() {
    println!("cargo::rerun-if-env-changed=SQUAWK_LIB");
    println!("cargo::rerun-if-changed={KINDS}");
    let root = PathBuf::from(env::var("CARGO_MANIFEST_DIR").expect("Cargo sets it"));
    let lib = env::var("SQUAWK_LIB").map_or_else(|_| root.join("../lib"), PathBuf::from);
    let archive = lib.join("libsquawk.a");
    if !archive.exists() {
        let archive = archive.display();
        panic!("no {archive}: run bindings/build_libraries.sh, or set SQUAWK_LIB");
    }
    println!("cargo::rerun-if-changed={}", archive.display());
    println!("cargo::rustc-link-search=native={}", lib.display());
    println!("cargo::rustc-link-lib=static=squawk");

    let header = fs::read_to_string(root.join(KINDS)).expect("the header of the kinds");
    let out = PathBuf::from(env::var("OUT_DIR").expect("Cargo sets it"));
    fs::write(out.join("kinds.rs"), kind_constants(&header)).expect("OUT_DIR can be written");
}

/// A constant for each line `SQUAWK_KIND_NAME = NUMBER,` of the header.
fn kind_constants(header: &str) -> String {
    let mut constants = String::new();
    for line in header.lines() {
        let Some(row) = line.trim().strip_prefix("SQUAWK_KIND_") else {
            continue;
        };
        let Some((name, number)) = row.trim_end_matches(',').split_once(" = ") else {
            continue;
        };
        if name != "COUNT" {
            writeln!(
                constants,
                "/// Kind {number}.\npub const {name}: Kind = Kind({number});"
            )
            .expect("a String takes all");
        }
    }
    constants
}
