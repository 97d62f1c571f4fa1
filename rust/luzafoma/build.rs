//! Finds the static library of the proved planner and links it.
//!
//! `STATICLIB_DIR` is the folder of `libcalls.a`; without it, the folder is
//! `../../crates/calls/out`. A relative folder starts at this crate.

use std::env;
use std::path::{Path, PathBuf};

fn main() {
    let here = PathBuf::from(env::var_os("CARGO_MANIFEST_DIR").expect("cargo sets this variable"));
    println!("cargo::rerun-if-env-changed=STATICLIB_DIR");
    let calls = env::var_os("STATICLIB_DIR")
        .filter(|folder| !folder.is_empty())
        .unwrap_or_else(|| "../../crates/calls/out".into());
    link(&here.join(calls), "calls");
}

fn link(folder: &Path, name: &str) {
    let file = folder.join(format!("lib{name}.a"));
    println!("cargo::rerun-if-changed={}", file.display());
    if !file.is_file() {
        println!(
            "cargo::warning={} is missing: this type-checks, but it cannot be linked",
            file.display()
        );
    }
    println!("cargo::rustc-link-search=native={}", folder.display());
    println!("cargo::rustc-link-lib=static={name}");
}
