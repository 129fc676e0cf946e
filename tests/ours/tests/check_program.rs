//! Runs the checking program itself and compares what it prints with the reference. Without the program
//! there are no tests here; the gate builds it first.
#![cfg(have_check_program)]

use std::fs::File;
use std::io::Write;
use std::process::Stdio;
use std::time::Duration;

use generate::inputs::{inputs, joined, long_inputs};
use generate::listing_cases::cases;
use generate::listing_limits::{about_the_limits, many_columns, short_listings};
use generate::listings::{planned_listing, within_limits};
use generate::texts::of_length;
use generate::{plan, Kind, Random, KINDS};
use ours::program::{fails_after, printed, said, Program};
use reference::{check_input, check_program, print, print_stated, Pick, PlanLine};
use suite::tally::Tally;
use suite::{about_the_room, planned, s, S, S_LISTING};

/// The checking program.
const PROGRAM: Program = Program("riscadru_check");

/// What the program says on standard error where a read fails.
const NOT_READ: &str = "riscadru_check: standard input could not be read\n";

/// What the program says on standard error where a write fails.
const NOT_WRITTEN: &str = "riscadru_check: standard output could not be written\n";

/// The line that is printed for an answer, 0 for acceptance.
fn line(answer: u8) -> Vec<u8> {
    match answer {
        0 => b"(accepted)\n".to_vec(),
        number => reference::refused(number),
    }
}

/// The program prints this line for an input.
fn prints(input: &[u8], wanted: &[u8], what: &str) {
    let (ours, _) = PROGRAM.run(input);
    let (ours, wanted) = (
        String::from_utf8_lossy(&ours),
        String::from_utf8_lossy(wanted),
    );
    let shown = &input[..input.len().min(20_000)];
    assert_eq!(ours, wanted, "{what}:\n{}", String::from_utf8_lossy(shown));
}

/// The program prints what the reference prints.
fn same_output(input: &[u8], what: &str, tally: &mut Tally) {
    prints(input, &check_program(input), what);
    tally.add(check_input(input));
}

/// Inputs with answers that were worked out by hand.
#[test]
fn inputs_worked_out_by_hand() {
    for (what, input, answer) in suite::listings::inputs() {
        prints(input.as_bytes(), &line(answer), what);
    }
}

#[test]
fn inputs_of_random_plans() {
    let mut tally = Tally::default();
    for kind in KINDS {
        let of_kind = if kind == Kind::Largest { 1 } else { 4 };
        for seed in 0..of_kind {
            let mut random = Random::new(91 << 32 | (kind as u64) << 8 | seed);
            let lines = plan(kind, &mut random);
            let planned = planned(&lines);
            let own = print_stated(&lines, &planned_listing(&planned));
            for input in inputs(&lines, &own, &mut random) {
                same_output(&input.text, input.what, &mut tally);
            }
            let mut listings = cases(&lines, &planned, &mut random);
            random.shuffle(&mut listings);
            for case in &listings[..listings.len().min(24)] {
                let input = joined(&print(&lines), &case.listing);
                same_output(&input, &case.what, &mut tally);
            }
        }
    }
    tally.assert_each([0, 1, 2, 21], 40);
    tally.assert_each((3..=9).chain(13..=20).chain([22]), 5);
    assert!(tally.total() > 900);
}

/// Inputs of 600,000 bytes and more are refused, with 1 or 21 or the refusal of the plan.
#[test]
fn long_inputs_of_random_plans() {
    let mut tally = Tally::default();
    for kind in [Kind::Tiny, Kind::DenseBus, Kind::Largest] {
        let mut random = Random::new(92);
        let lines = plan(kind, &mut random);
        let own = print_stated(&lines, &planned_listing(&planned(&lines)));
        for input in long_inputs(&lines, &own, &mut random) {
            same_output(&input.text, input.what, &mut tally);
        }
    }
    tally.assert_each([1, 21], 12);
}

/// Inputs of many megabytes, whose end need not be read.
#[test]
fn inputs_longer_than_any_buffer() {
    let many = 16 << 20;
    prints(&vec![b'('; many], b"(refused 1)\n", "one line");
    prints(&vec![b'\n'; many], b"(refused 1)\n", "empty lines");
    for byte in [b'(', b'\n', b'0'] {
        let listing = [S_LISTING.as_bytes(), &vec![byte; many]].concat();
        let input = joined(S.as_bytes(), &listing);
        prints(&input, b"(refused 21)\n", "behind a listing");
    }
}

/// The longest listings, and as many entries and frames as there may be.
#[test]
fn listings_about_the_limits() {
    let mut tally = Tally::default();
    let mut random = Random::new(93);
    let mut all = vec![s(), plan(Kind::Largest, &mut random)];
    let rooms = about_the_room(&mut random).into_iter();
    all.extend(rooms.map(|(lines, _)| lines).take(5));
    for lines in all {
        let (text, planned) = (print(&lines), planned(&lines));
        let mut sound = short_listings(&lines, &planned, &mut random);
        sound.push(planned_listing(&planned));
        sound.retain(within_limits);
        let stated = sound.last().expect("a listing within the limits");
        same_output(
            &joined(&text, &print_stated(&lines, stated)),
            "sound",
            &mut tally,
        );
        for (what, listing, answer) in about_the_limits(&lines, stated, &mut random) {
            let input = joined(&text, &listing);
            prints(&input, &line(answer), what);
            tally.add((answer != 0).then_some(answer));
        }
    }
    tally.assert_each([0, 13, 14, 21, 22], 5);
}

/// A plan whose own table has 3,782 entries, and a sound listing of 128.
#[test]
fn a_short_listing_of_a_plan_with_too_many_entries() {
    let plan_line = PlanLine {
        byte: 1,
        head: 0,
        pick: Pick::Urgency,
    };
    for (bytes, passed) in [(64, false), (63, true)] {
        let lines = many_columns(plan_line, (6, bytes));
        let planned = planned(&lines);
        assert_eq!(planned.passed > 0, passed);
        let mut stated = short_listings(&lines, &planned, &mut Random::new(94)).remove(0);
        assert_eq!(stated.entries.len(), 128);
        let input = joined(&print(&lines), &print_stated(&lines, &stated));
        prints(&input, b"(accepted)\n", "sound");
        stated.passed[1] += 1;
        let input = joined(&print(&lines), &print_stated(&lines, &stated));
        prints(&input, b"(refused 22)\n", "another count");
    }
}

/// The program reads an input as far as it takes to answer: a plan of 16,384 bytes, an empty line, the
/// longest listing of the form, and a byte more. What stands behind makes no difference.
#[test]
fn inputs_about_the_length_that_is_read() {
    let most_read = 16_384 + 1 + 439_242 + 1;
    assert_eq!(most_read, 455_628);
    let (whole, longer) = (of_length(&s(), 16_384), of_length(&s(), 16_385));
    for length in most_read - 2..=most_read + 3 {
        for byte in *b"(0\n" {
            let behind = |text: &[u8]| {
                let mut input = joined(text, b"");
                input.resize(length, byte);
                input
            };
            prints(&behind(S.as_bytes()), b"(refused 21)\n", "behind S");
            prints(&behind(&whole), b"(refused 2)\n", "behind 16,384 bytes");
            prints(&behind(&longer), b"(refused 1)\n", "behind 16,385 bytes");
        }
    }
}

/// An input that is read in many short reads is checked as a whole.
#[test]
fn checks_what_is_read_in_parts() {
    let mut random = Random::new(95);
    let largest = plan(Kind::Largest, &mut random);
    let planned = planned(&largest);
    let listing = short_listings(&largest, &planned, &mut random).remove(0);
    let large = joined(&print(&largest), &print_stated(&largest, &listing));
    let small = joined(S.as_bytes(), S_LISTING.as_bytes());
    assert_eq!(PROGRAM.run_by_parts(&small, || 1), b"(accepted)\n");
    for input in [small, large] {
        let parts = || random.between(1, 700) as usize;
        assert_eq!(PROGRAM.run_by_parts(&input, parts), b"(accepted)\n");
    }
}

/// The same by a pipe, with pauses in which the program reads what is there; the empty line comes in two
/// parts.
#[test]
fn checks_what_a_pipe_delivers_in_parts() {
    let mut child = PROGRAM.start(Stdio::piped(), Stdio::piped());
    let mut stdin = child.stdin.take().expect("its standard input");
    for part in [S, "\n", S_LISTING] {
        stdin.write_all(part.as_bytes()).expect("a part is written");
        std::thread::sleep(Duration::from_millis(20));
    }
    drop(stdin);
    assert_eq!(printed(child), b"(accepted)\n");
}

#[test]
fn prints_nothing_where_standard_input_is_a_folder() {
    let folder = File::open(env!("CARGO_MANIFEST_DIR")).expect("this folder");
    PROGRAM.prints_nothing(Stdio::from(folder), NOT_READ);
}

/// Reads give a part of an input, or all of it, and then fail: it is not checked.
#[test]
fn prints_nothing_where_a_later_read_fails() {
    let input = joined(S.as_bytes(), S_LISTING.as_bytes());
    for length in [0, 1, S.len(), S.len() + 1, input.len()] {
        PROGRAM.prints_nothing(fails_after(&input[..length]), NOT_READ);
    }
}

#[test]
#[cfg_attr(not(have_full), ignore = "there is no device /dev/full")]
fn says_that_standard_output_could_not_be_written() {
    for input in [
        joined(S.as_bytes(), S_LISTING.as_bytes()),
        b"(plan\n".to_vec(),
    ] {
        let full = File::options().write(true).open("/dev/full");
        let mut child = PROGRAM.start(Stdio::piped(), Stdio::from(full.expect("/dev/full")));
        let mut stdin = child.stdin.take().expect("its standard input");
        stdin.write_all(&input).expect("the input is written");
        drop(stdin);
        assert_eq!(said(child), (String::new(), NOT_WRITTEN.to_string()));
    }
}
