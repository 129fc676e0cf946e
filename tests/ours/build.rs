//! Looks for what the tests need, and sets a `cfg` for each that is there: `have_archive` for the
//! archive, which is then linked, `have_program` for the planning program, `have_check_program` for
//! the checking program, `have_valgrind`, `have_objdump`, `have_pkg_config`, `have_terminal` for the
//! program `script`, which lends one, and `have_full` for the device to which no byte can be written.
//! A test that needs one of the last five is ignored where that is missing, and says so.

use std::path::{Path, PathBuf};

fn main() {
    let root = PathBuf::from(std::env::var("CARGO_MANIFEST_DIR").unwrap());
    let folder = root.join("../../target/staticlib");
    if look_for("have_archive", &folder.join("libc_interface.a")) {
        println!("cargo:rustc-link-search=native={}", folder.display());
        println!("cargo:rustc-link-lib=static=c_interface");
    }
    let programs = root.join("../../target/bin");
    look_for("have_program", &programs.join("riscadru_plan"));
    look_for("have_check_program", &programs.join("riscadru_check"));
    println!("cargo:rerun-if-env-changed=PATH");
    look_for("have_valgrind", &on_path("valgrind"));
    look_for("have_objdump", &on_path("objdump"));
    look_for("have_pkg_config", &on_path("pkg-config"));
    look_for("have_terminal", &on_path("script"));
    look_for("have_full", Path::new("/dev/full"));
}

/// Sets a `cfg` if a file is there, and says whether it is.
fn look_for(name: &str, file: &Path) -> bool {
    println!("cargo:rustc-check-cfg=cfg({name})");
    println!("cargo:rerun-if-changed={}", file.display());
    let there = file.exists();
    if there {
        println!("cargo:rustc-cfg={name}");
    }
    there
}

/// Where a program stands on the PATH, or a name that no file has.
fn on_path(program: &str) -> PathBuf {
    let path = std::env::var_os("PATH").unwrap_or_default();
    std::env::split_paths(&path)
        .map(|folder| folder.join(program))
        .find(|file| file.exists())
        .unwrap_or_else(|| PathBuf::from("not-on-the-path").join(program))
}
