//! Runs the planning program itself and compares what it prints with the reference. Without the program
//! there are no tests here; the gate builds it first.
#![cfg(have_program)]

use std::fs::File;
use std::io::Write;
use std::path::PathBuf;
use std::process::Stdio;
use std::time::Duration;

use generate::broken::{broken, NUMBERS};
use generate::plans::{plan, Kind, KINDS};
use generate::random::Random;
use generate::texts::of_length;
use ours::program::{fails_after, printed, said, Program};
use reference::print;
use suite::{about_the_room, s, S};

/// What the program says on standard error where a read fails.
const NOT_READ: &str = "riscadru_plan: standard input could not be read\n";

/// What the program says on standard error where a write fails.
const NOT_WRITTEN: &str = "riscadru_plan: standard output could not be written\n";

/// The planning program.
const PROGRAM: Program = Program("riscadru_plan");

/// What the program prints for some bytes on standard input, and how many of them it took.
fn run(input: &[u8]) -> (Vec<u8>, usize) {
    PROGRAM.run(input)
}

/// The program prints what the reference prints.
fn same_output(input: &[u8]) {
    let shown = String::from_utf8_lossy(input);
    assert_eq!(run(input).0, reference::program(input), "input:\n{shown}");
}

#[test]
fn prints_the_listing_of_s() {
    let root = PathBuf::from(env!("CARGO_MANIFEST_DIR"));
    let text = std::fs::read(root.join("../../examples/s.plan")).expect("S");
    let listing =
        std::fs::read(root.join("../../crates/riscadru_plan/stdout")).expect("its listing");
    assert_eq!(run(&text).0, listing);
    same_output(&text);
}

#[test]
fn prints_refusals() {
    same_output(b"");
    same_output(b"(plan\n");
    let mut random = Random::new(7);
    let mut found = 0;
    for number in NUMBERS {
        let lines = plan(KINDS[number as usize % KINDS.len()], &mut random);
        if let Some(lines) = broken(&lines, number, &mut random) {
            same_output(&print(&lines));
            found += 1;
        }
    }
    assert!(found >= 4, "{found} broken plans");
}

#[test]
fn prints_listings_and_the_largest_refusals() {
    for (seed, kind) in KINDS.into_iter().enumerate() {
        for more in 0..4 {
            let lines = plan(kind, &mut Random::new(100 * seed as u64 + more));
            same_output(&print(&lines));
        }
    }
}

/// As many entries and frames as the program has room for, and one more of either or both: 10 before
/// 11.
#[test]
fn prints_refusals_ten_and_eleven() {
    for (lines, refusal) in about_the_room(&mut Random::new(8)) {
        let text = print(&lines);
        same_output(&text);
        if let Some(number) = refusal {
            assert_eq!(run(&text).0, reference::refused(number));
        }
    }
}

/// A longer input than 16,384 bytes is refused 1, and is not read to its end.
#[test]
fn stops_reading_a_long_input() {
    let root = PathBuf::from(env!("CARGO_MANIFEST_DIR"));
    let mut text = std::fs::read(root.join("../../examples/s.plan")).expect("S");
    text.resize(16_385, b'\n');
    same_output(&text);
    let endless = vec![b'('; 64 << 20];
    let (printed, taken) = run(&endless);
    assert_eq!(printed, b"(refused 1)\n");
    assert!(taken < endless.len(), "the program read {taken} bytes");
}

/// A text that is read in many short reads is planned as a whole.
#[test]
fn plans_what_is_read_in_parts() {
    let mut random = Random::new(9);
    let largest = plan(Kind::Largest, &mut random);
    let mut texts = vec![S.as_bytes().to_vec(), print(&largest)];
    texts.extend([16_384, 16_385].map(|length| of_length(&s(), length)));
    for text in texts {
        let wanted = reference::program(&text);
        assert_eq!(PROGRAM.run_by_parts(&text, || 1), wanted);
        let parts = || random.between(1, 700) as usize;
        assert_eq!(PROGRAM.run_by_parts(&text, parts), wanted);
    }
}

/// The same by a pipe, with pauses in which the program reads what is there.
#[test]
fn plans_what_a_pipe_delivers_in_parts() {
    let mut child = PROGRAM.start(Stdio::piped(), Stdio::piped());
    let mut stdin = child.stdin.take().expect("its standard input");
    for part in S.as_bytes().chunks(60) {
        stdin.write_all(part).expect("a part is written");
        std::thread::sleep(Duration::from_millis(20));
    }
    drop(stdin);
    assert_eq!(printed(child), reference::program(S.as_bytes()));
}

#[test]
fn prints_nothing_where_standard_input_is_a_folder() {
    let folder = File::open(env!("CARGO_MANIFEST_DIR")).expect("this folder");
    PROGRAM.prints_nothing(Stdio::from(folder), NOT_READ);
}

/// Reads give a whole plan or a part of one, and then fail: it is not planned.
#[test]
fn prints_nothing_where_a_later_read_fails() {
    for length in [0, 1, S.len() / 2, S.len()] {
        PROGRAM.prints_nothing(fails_after(&S.as_bytes()[..length]), NOT_READ);
    }
}

#[test]
#[cfg_attr(not(have_full), ignore = "there is no device /dev/full")]
fn says_that_standard_output_could_not_be_written() {
    for text in [S, "(plan\n"] {
        let full = File::options().write(true).open("/dev/full");
        let mut child = PROGRAM.start(Stdio::piped(), Stdio::from(full.expect("/dev/full")));
        let mut stdin = child.stdin.take().expect("its standard input");
        stdin
            .write_all(text.as_bytes())
            .expect("the text is written");
        drop(stdin);
        assert_eq!(said(child), (String::new(), NOT_WRITTEN.to_string()));
    }
}
