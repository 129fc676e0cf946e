//! Looks for the archive and, if it is there, sets `have_archive`; the crate `ours` links it.

use std::path::PathBuf;

fn main() {
    println!("cargo:rustc-check-cfg=cfg(have_archive)");
    let root = PathBuf::from(std::env::var("CARGO_MANIFEST_DIR").unwrap());
    let archive = root.join("../target/staticlib/libc_interface.a");
    println!("cargo:rerun-if-changed={}", archive.display());
    if archive.exists() {
        println!("cargo:rustc-cfg=have_archive");
    }
}
