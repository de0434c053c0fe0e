//! Says where the archive libcallboard.a is: in the folder CALLBOARD_LIB, or in target/staticlib.

use std::env;
use std::path::{Path, PathBuf};

fn main() {
    println!("cargo:rerun-if-env-changed=CALLBOARD_LIB");
    println!("cargo:rerun-if-changed=build.rs");
    let package = env::var("CARGO_MANIFEST_DIR").unwrap();
    let folder = env::var("CALLBOARD_LIB").map_or_else(
        |_| Path::new(&package).join("../../target/staticlib"),
        PathBuf::from,
    );
    let archive = folder.join("libcallboard.a");
    println!("cargo:rerun-if-changed={}", archive.display());
    println!("cargo:rustc-link-search=native={}", folder.display());
    println!("cargo:rustc-link-lib=static=callboard");
}
