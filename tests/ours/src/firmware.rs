//! The firmware example: how it is built, and how it is told a combination.

use std::path::{Path, PathBuf};

use reference::who_runs::{value, Combination};
use reference::Lines;

use crate::linking::{link, root};

/// Compiles the firmware example, and links it with the archive.
pub fn build(program: &Path) {
    let folder = std::fs::read_dir(root().join("firmware")).expect("the folder firmware");
    let sources: Vec<PathBuf> = folder
        .map(|file| file.expect("a file").path())
        .filter(|path| path.extension().is_some_and(|extension| extension == "c"))
        .collect();
    link(&sources, program);
}

/// The letters of a combination, condition 0 first.
pub fn letters(lines: &Lines, combination: Combination) -> String {
    let conditions = 0..lines.conditions.len();
    if conditions.is_empty() {
        return "-".to_string();
    }
    let letter = |condition| match value(combination, condition) {
        true => 't',
        false => 'f',
    };
    conditions.map(letter).collect()
}
