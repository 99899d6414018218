//! Tells cargo where the proved library is: `crates/exports/out` of the repository, where `rt lib`
//! in `crates/exports` writes it, or the folder that the environment variable UMBRACONGA_LIB names.
//! A relative folder counts from this package's own.

use std::env;
use std::path::{Path, PathBuf};
use std::process::exit;

fn main() {
    println!("cargo:rerun-if-env-changed=UMBRACONGA_LIB");
    let folder = match env::var_os("UMBRACONGA_LIB") {
        Some(folder) => PathBuf::from(folder),
        None => PathBuf::from("../crates/exports/out"),
    };
    let package = env::var_os("CARGO_MANIFEST_DIR").expect("cargo says where the package is");
    let folder = Path::new(&package).join(folder);
    let archive = folder.join("libexports.a");
    println!("cargo:rerun-if-changed={}", archive.display());
    if !archive.is_file() {
        eprintln!("{} is not there.", archive.display());
        eprintln!("`rt lib` in crates/exports writes it to crates/exports/out; UMBRACONGA_LIB names another folder.");
        exit(1);
    }
    println!("cargo:rustc-link-search=native={}", folder.display());
    println!("cargo:rustc-link-lib=static=exports");
}
