//! Where texts fail: what the scripts of the folder `where` say, and the parts that it is made of.

use std::path::{Path, PathBuf};
use std::process::{Command, Output};

/// The columns of a line that are shown.
pub const WIDEST: usize = 120;

/// The folder for the texts of a test, below one for all tests.
pub fn folder(below: &str, name: &str) -> PathBuf {
    let folder = Path::new(below).join(name);
    std::fs::create_dir_all(&folder).expect("a folder for the texts");
    folder
}

/// What scripts say of the files of these names, refused with this number; `awk` is the command with
/// its first words.
pub fn run(awk: &[&str], scripts: &[&str], folder: &Path, number: u8, names: &[String]) -> Output {
    let place = PathBuf::from(env!("CARGO_MANIFEST_DIR")).join("../../where");
    let mut call = Command::new(awk[0]);
    call.args(&awk[1..])
        .args(["-v", &format!("refused={number}")]);
    for script in scripts {
        call.arg("-f").arg(place.join(script));
    }
    let output = call.args(names).current_dir(folder).output().expect("awk");
    assert!(output.status.success(), "{output:?}");
    output
}

/// What is said of each of several texts: the first line of each is not indented.
pub fn one_by_one(output: &Output) -> Vec<String> {
    assert_eq!(String::from_utf8_lossy(&output.stderr), "");
    let said = String::from_utf8(output.stdout.clone()).expect("text");
    let mut told: Vec<String> = Vec::new();
    for line in said.lines() {
        if !line.starts_with("  ") {
            told.push(String::new());
        }
        let last = told.last_mut().expect("a line that is not indented first");
        *last += line;
        *last += "\n";
    }
    told
}

/// Each awk that is here, as the words that call it.
pub fn awks() -> Vec<Vec<&'static str>> {
    let all = [
        vec!["mawk"],
        vec!["gawk"],
        vec!["original-awk"],
        vec!["busybox", "awk"],
    ];
    let is_here = |awk: &Vec<&str>| {
        let mut call = Command::new(awk[0]);
        let found = call.args(&awk[1..]).arg("BEGIN { exit }").output();
        found.is_ok_and(|output| output.status.success())
    };
    all.into_iter().filter(is_here).collect()
}

/// The line of a text that begins at this byte, without its line feed, as it is shown.
fn shown(text: &[u8], begin: usize) -> String {
    let line: Vec<u8> = text[begin..]
        .iter()
        .copied()
        .take_while(|&b| b != b'\n')
        .collect();
    let mut shown = String::new();
    for &byte in line.iter().take(WIDEST) {
        match byte {
            b' '..=b'~' if byte != b'\\' => shown.push(char::from(byte)),
            _ => shown += &format!("\\x{byte:02x}"),
        }
    }
    if line.len() > WIDEST {
        shown += " .. (cut here)";
    }
    shown
}

/// The byte at which a line begins, or the end of the text if there are fewer.
pub fn begin_of(text: &[u8], line: usize) -> usize {
    let lines = text.split_inclusive(|&b| b == b'\n');
    lines.take(line - 1).map(<[u8]>::len).sum()
}

/// The head of what is said of a line.
pub fn head(text: &[u8], line: usize) -> String {
    let shown = shown(text, begin_of(text, line));
    let blank = if shown.is_empty() { "" } else { " " };
    format!("line {line}:{blank}{shown}\n")
}

/// The number that stands behind these words.
pub fn number_behind(said: &str, words: &str) -> Option<usize> {
    let (_, behind) = said.split_once(words)?;
    let digits = behind.find(|c: char| !c.is_ascii_digit())?;
    behind[..digits].parse().ok()
}
