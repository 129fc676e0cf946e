//! The header by itself is good C and good C++, and declares what the archive has.

#[cfg(have_archive)]
use std::path::Path;
use std::path::PathBuf;
use std::process::Command;

#[cfg(have_archive)]
use ours::linking::link;

/// Compiles the header alone, with every warning an error.
fn compiles(compiler: &str, language: &[&str]) {
    let root = PathBuf::from(env!("CARGO_MANIFEST_DIR"));
    let output = Command::new(compiler)
        .args(["-Wall", "-Wextra", "-Werror", "-fsyntax-only"])
        .args(language)
        .arg(root.join("../../include/riscadru.h"))
        .output()
        .expect(compiler);
    let said = String::from_utf8_lossy(&output.stderr);
    assert!(output.status.success(), "{compiler}: {said}");
}

#[test]
fn the_header_is_c() {
    compiles("gcc", &["-std=c11", "-x", "c"]);
}

#[test]
fn the_header_is_cpp() {
    compiles("g++", &["-x", "c++"]);
}

/// Takes every function of the header at its type.
#[cfg(have_archive)]
const ALL: &str = r#"
#include "riscadru.h"
typedef const uint8_t *in;
typedef uint8_t *out;
uint64_t (*copy_plan)(in, size_t, out, size_t) = riscadru_copy_plan;
uint64_t (*plan_table)(in, size_t, out, size_t, out, size_t, out, size_t) = riscadru_plan_table;
uint64_t (*plan_listing)(in, size_t, out, size_t) = riscadru_plan_listing;
uint64_t (*check_table)(in, size_t, in, size_t, uint64_t) = riscadru_check_table;
uint64_t (*check_listing)(in, size_t, in, size_t) = riscadru_check_listing;
uint64_t (*lookup)(in, size_t, in, size_t, uint32_t, uint32_t, uint32_t, uint32_t, size_t) =
    riscadru_lookup;
uint64_t (*row_start)(in, size_t, uint32_t) = riscadru_row_start;
uint64_t (*row_length)(in, size_t, uint32_t) = riscadru_row_length;
int main(void) { return RISCADRU_NONE != UINT64_MAX || RISCADRU_REFUSED(9) != UINT64_MAX - 9; }
"#;

#[cfg(have_archive)]
#[test]
fn the_header_declares_what_the_archive_has() {
    let folder = Path::new(env!("CARGO_TARGET_TMPDIR"));
    let (source, program) = (folder.join("all.c"), folder.join("all"));
    std::fs::write(&source, ALL).expect("a file");
    link(&[source], &program);
    let status = Command::new(program).status().expect("the program");
    assert!(status.success());
}
