//! Links the archive libstar.a. Its folder is STAR_LIB_DIR, by default
//! ../crates/star/out; a relative folder counts from this package.

use std::path::PathBuf;
use std::{env, process};

fn main() {
    println!("cargo:rerun-if-env-changed=STAR_LIB_DIR");
    let package =
        PathBuf::from(env::var_os("CARGO_MANIFEST_DIR").expect("cargo names the package"));
    let folder = match env::var_os("STAR_LIB_DIR") {
        Some(folder) if !folder.is_empty() => package.join(folder),
        _ => package.join("../crates/star/out"),
    };
    let archive = folder.join("libstar.a");
    println!("cargo:rerun-if-changed={}", archive.display());
    if !archive.is_file() {
        eprintln!("no archive at {}", archive.display());
        eprintln!("build libstar.a first, or set STAR_LIB_DIR to the folder that holds it");
        process::exit(1);
    }
    println!("cargo:rustc-link-search=native={}", folder.display());
    println!("cargo:rustc-link-lib=static=star");
}
