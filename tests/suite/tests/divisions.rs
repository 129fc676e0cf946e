//! Document 02, point 4: "nothing in planning may divide, or take a remainder, by anything but a fixed
//! number". The rule holds for the sources of every crate, those of the planner among them.

use std::collections::BTreeSet;
use std::fs;
use std::path::{Path, PathBuf};

use suite::divisions::{brackets_match, divisions};

/// The lines of a source at which something is found.
fn lines(source: &str) -> Vec<usize> {
    divisions(source).iter().map(|found| found.line).collect()
}

#[test]
fn divisions_by_a_name_are_found() {
    for source in [
        "tick % round",
        "tick%round",
        "a / b.c",
        "x /= n;",
        "x %= n;",
        "x % (y)",
        "x / (2 + y)",
        "x / NODES",
        "x / limits::NODES",
        "x / (y as u32)",
        "x / y as u32",
        "x as u32 / y",
        "x / n / 2",
        "x / 2 / n",
        "x / words[2]",
        "x / -y",
        "x / *y",
        "x / b\"2\"[0]",
        "x / 2.max(y)",
        "x /= 2 + n;",
        "x %= 2 as u32 * n;",
        "1 % n",
    ] {
        assert_eq!(lines(source), [1], "{source}");
    }
}

#[test]
fn calls_that_divide_are_found() {
    for source in [
        "x.rem_euclid(n)",
        "x.div_ceil(2)",
        "u32::checked_div(x, n)",
        "std::num::wrapping_rem_u32(x, n)",
        "x.next_multiple_of(n)",
        "x .div (n)",
    ] {
        assert_eq!(lines(source), [1], "{source}");
    }
    for source in [
        "fn remaining(rem: u32) -> u32",
        "scanner.remaining(n)",
        "plan.rem",
        "divided(x, n)",
        "x.divide_up(n)",
    ] {
        assert_eq!(lines(source), [0; 0], "{source}");
    }
}

#[test]
fn divisions_over_several_lines_are_found() {
    assert_eq!(lines("let y = x /\n    n;"), [1]);
    assert_eq!(lines("let y = x\n    / n;"), [2]);
    assert_eq!(lines("let y = x / // 2\n    n;"), [1]);
    assert_eq!(lines("x\n% n; // % 3\nx\n/= (2);"), [2, 4]);
    assert_eq!(lines("x /\n    2;\n"), [0; 0]);
}

#[test]
fn what_stands_there_is_told() {
    let found = divisions("\nlet gone = tick % round;\n");
    assert_eq!((found[0].line, found[0].what.as_str()), (2, "tick % round"));
}

#[test]
fn divisions_by_a_number_are_left() {
    for source in [
        "x / 2",
        "x % 256",
        "x / 1_000",
        "x % 0x100",
        "x / 2u32",
        "(word / 65536 % 256) as u8",
        "low + (high - low) / 2;",
        "x /= 2;",
        "match n { 0 => x %= 10, _ => x /= 3 }",
        "x / 2 * n",
        "x / 2 as u32",
        "words[n / 2..n]",
        "x / 2.5",
    ] {
        assert_eq!(lines(source), [0; 0], "{source}");
    }
}

#[test]
fn comments_texts_and_characters_are_left() {
    for source in [
        "// x / n",
        "x // / n",
        "let y = 2; // tick % round\n",
        "b\"x / n % \\\" / n\"",
        "[b'/', b'%', b'\\'', b'\"', b' ']",
        "ghost use Rattle.std.specs.Prelude.{◌/◌, ◌%◌};",
        "    ghost use Rattle.std.specs.Prelude.{◌/◌,\n    ◌%◌};",
    ] {
        assert_eq!(lines(source), [0; 0], "{source}");
    }
    for source in [
        "b\"//\"; x / n",
        "b\"\\\"\"; x / n",
        "b'\"'; x / n",
        "find<'a>(x); x / n; y::<'a>()",
        "ghost use A.{◌/◌}; x / n",
        "/* x / n */",
    ] {
        assert_eq!(lines(source).first(), Some(&1), "{source}");
    }
}

/// A function with contracts, of whose code only line 6 divides by a name.
const FUNCTION: &str = "\
pub fn gone(round: u32, tick: u32) -> u32
    requires fits { (0 < round) × (tick / round < { n % 5 }) }
    requires whole { tick % round ≡ 0 }
    ensures rest { result ≡ tick % round }
{
    let gone = tick % round;
    gone
}
";

#[test]
fn contracts_are_left() {
    assert_eq!(lines(FUNCTION), [6]);
    let fixed = FUNCTION.replace("= tick % round", "= tick % 7");
    assert_eq!(lines(&fixed), [0; 0]);
    let in_one_line = "fn f() ensures { result ≡ a / b } { x / 2 }";
    assert_eq!(lines(in_one_line), [1]);
    for code in [
        "requires_more(x) { x / n }",
        "ensured { x / n }",
        "ensures a b { x / n }",
        "requires();",
    ] {
        let wanted: &[usize] = if code.contains('/') { &[1] } else { &[] };
        assert_eq!(lines(code), wanted, "{code}");
    }
}

#[test]
fn code_that_is_left_out_shows_in_the_brackets() {
    assert!(brackets_match(FUNCTION));
    assert!(!brackets_match(&FUNCTION.replace("≡ 0 }", "≡ 0")));
    assert!(!brackets_match(
        &FUNCTION.replace("round }\n{", "round } }\n{")
    ));
    assert_eq!(lines("b\"x / n"), [1]);
}

fn root() -> PathBuf {
    PathBuf::from(env!("CARGO_MANIFEST_DIR")).join("../..")
}

/// The files of Rattle below a folder.
fn files(folder: &Path) -> Vec<PathBuf> {
    let mut files = Vec::new();
    for entry in fs::read_dir(folder).expect("a folder") {
        let path = entry.expect("a file").path();
        if path.is_dir() {
            files.extend(self::files(&path));
        } else if path.extension().is_some_and(|extension| extension == "rt") {
            files.push(path);
        }
    }
    files.sort();
    files
}

/// The crates that `crates.txt` names; more words may stand between a name and its colon.
fn crates() -> Vec<String> {
    let text = fs::read_to_string(root().join("crates.txt")).expect("crates.txt");
    let lines = text.lines().filter(|line| !line.starts_with('#'));
    let heads = lines.filter_map(|line| line.split_once(':'));
    let names = heads.filter_map(|(head, _)| head.split_whitespace().next());
    names.map(str::to_string).collect()
}

/// The sources of every crate, each with its name in the repository.
fn sources() -> Vec<(String, String)> {
    let mut sources = Vec::new();
    for name in crates() {
        let files = files(&root().join("crates").join(&name).join("src"));
        assert!(!files.is_empty(), "{name} has no source");
        for file in files {
            let source = fs::read_to_string(&file).expect("a source");
            let file = file.strip_prefix(root()).expect("a file of it");
            sources.push((file.display().to_string(), source));
        }
    }
    sources
}

#[test]
fn no_source_divides_by_anything_but_a_number() {
    let mut told = Vec::new();
    for (name, source) in sources() {
        assert!(brackets_match(&source), "{name}: brackets do not match");
        let found = divisions(&source).into_iter();
        told.extend(found.map(|found| format!("{name}:{}: {}", found.line, found.what)));
    }
    let told = told.join("\n");
    assert!(told.is_empty(), "divided by more than a number:\n{told}");
}

/// Every file below `crates` that is built is among the sources, those of the planner among them.
#[test]
fn every_source_is_read() {
    let names: BTreeSet<String> = sources().into_iter().map(|(name, _)| name).collect();
    let all = files(&root().join("crates")).into_iter();
    let all = all.map(|file| file.strip_prefix(root()).unwrap().display().to_string());
    // what `rt` makes of a crate, in its folder out, has copies
    let is_own = |name: &String| name.split('/').nth(2) == Some("src");
    let built: BTreeSet<String> = all.filter(is_own).collect();
    assert_eq!(names, built);
    for name in ["planner", "planner_sends", "bus_timetable"] {
        assert!(names.contains(&format!("crates/{name}/src/lib.rt")));
    }
}

/// Whether a line begins a statement: no contract and no comment has such a line.
fn is_statement(line: &str) -> bool {
    ["let ", "return ", "if ", "while "]
        .iter()
        .any(|word| line.trim_start().starts_with(word))
}

/// A division put before any statement of any source is found.
#[test]
fn no_statement_of_a_source_is_left_out() {
    let mut statements = 0;
    for (name, source) in sources() {
        let mut changed = String::new();
        let mut wanted = BTreeSet::new();
        for (number, line) in source.lines().enumerate() {
            if is_statement(line) {
                changed.push_str("x / n; ");
                wanted.insert(number + 1);
            }
            changed.push_str(line);
            changed.push('\n');
        }
        let found: BTreeSet<usize> = lines(&changed).into_iter().collect();
        let missed: Vec<&usize> = wanted.difference(&found).collect();
        assert!(missed.is_empty(), "{name}: {missed:?}");
        statements += wanted.len();
    }
    assert!(statements > 1_000, "{statements}");
}
