//! C programs that are linked with the archive.

use std::path::{Path, PathBuf};
use std::process::Command;

/// The repository.
pub fn root() -> PathBuf {
    PathBuf::from(env!("CARGO_MANIFEST_DIR")).join("../..")
}

/// Compiles C files with every warning an error, and links them with the archive.
pub fn link(sources: &[PathBuf], program: &Path) {
    let output = Command::new("gcc")
        .args(["-std=c11", "-Wall", "-Wextra", "-Werror", "-I"])
        .arg(root().join("include"))
        .args(sources)
        .arg("-L")
        .arg(root().join("target/staticlib"))
        .args(["-lc_interface", "-o"])
        .arg(program)
        .output()
        .expect("gcc");
    let said = String::from_utf8_lossy(&output.stderr);
    assert!(output.status.success(), "gcc: {said}");
}
