//! Tells cargo where the archive `libclib.a` is, for the comparison and for the
//! bench; and, for the bench, an earlier one if there is one to time beside it.
//!
//! The directory is taken from LINKPLAN_LIB; without it, it is
//! `crates/clib/out` of the repository, where `rt lib` in crates/clib puts it. The
//! earlier one is `libbefore.a` in the directory that LINKPLAN_BEFORE names;
//! `bench/run --before` makes it.

use std::path::{Path, PathBuf};

fn main() {
    println!("cargo:rerun-if-env-changed=LINKPLAN_LIB");
    println!("cargo:rerun-if-env-changed=LINKPLAN_BEFORE");
    println!("cargo:rustc-check-cfg=cfg(before)");
    let directory = match std::env::var_os("LINKPLAN_LIB") {
        Some(given) => PathBuf::from(given),
        None => PathBuf::from(env!("CARGO_MANIFEST_DIR")).join("../crates/clib/out"),
    };
    link(&directory, "clib", "build it with `rt lib` in crates/clib, or set LINKPLAN_LIB to its directory");
    // Said at the start of a run, so that no run is taken for another.
    println!("cargo:rustc-env=LINKPLAN_ARCHIVE={}", directory.join("libclib.a").display());
    if let Some(directory) = std::env::var_os("LINKPLAN_BEFORE") {
        link(Path::new(&directory), "before", "`bench/run --before` makes it");
        println!("cargo:rustc-cfg=before");
    }
}

/// Links the archive of that name in the directory.
fn link(directory: &Path, name: &str, help: &str) {
    let archive = directory.join(format!("lib{name}.a"));
    println!("cargo:rerun-if-changed={}", archive.display());
    if !archive.is_file() {
        eprintln!("no archive at {}", archive.display());
        eprintln!("{help}");
        std::process::exit(1);
    }
    println!("cargo:rustc-link-search=native={}", directory.display());
    println!("cargo:rustc-link-lib=static={name}");
}
