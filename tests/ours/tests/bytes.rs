//! Feeds bytes of any kind to every function of the archive: texts, tables and listings flipped, cut,
//! spliced or random, in lent bytes that are watched on either side. Every call returns, writes nothing but
//! what it says it wrote, and answers as the reference does as far as that is asked here. Without
//! the archive there are no tests here; the gate builds it first.
//!
//! The variable `RISCADRU_PLANS` sets how many inputs are fed (see `ours::comparing`).
#![cfg(have_archive)]

use std::process::Command;

use generate::{plan, Kind, Random};
use ours::archive::{
    check_listing, check_table, copy_plan, lookup, plan_listing, plan_table, refused, row_query,
    Question, ACCEPTED,
};
use ours::comparing::{as_asked, bytes, plans, random_bytes, totals, Lent};
use reference::lookup::{c_lookup, little_endian_words};
use reference::{check, list_plan, listing, print, read};
use suite::{cases, planned, s};

/// The kinds of plans whose texts and tables are mutated: those that are planned quickly.
const SMALL: [Kind; 6] = [
    Kind::Tiny,
    Kind::NestedAny,
    Kind::ShortestRound,
    Kind::DenseBus,
    Kind::UnevenBus,
    Kind::LongGaps,
];

/// The inputs that a run under valgrind goes by: few, as each takes a hundred times as long.
const PLANS_UNDER_VALGRIND: &str = "150";

/// The most bytes of an input that is random from the first byte to the last.
const MOST_RANDOM: u64 = 4_000;

/// Changes bytes once: a bit flipped, a byte replaced, a digit replaced by another, cut at either
/// end, a part removed or replaced by one of another input, or random bytes put in.
fn mutate(input: &mut Vec<u8>, other: &[u8], random: &mut Random) {
    let place = random.index(input.len() + 1);
    let to = random.index(input.len() + 1);
    let part = place.min(to)..place.max(to);
    match random.below(12) {
        0..=2 if place < input.len() => input[place] ^= 1 << random.below(8),
        3 if place < input.len() => input[place] = random.bits() as u8,
        4..=6 => replace_digit(input, random),
        7 => input.truncate(place),
        8 => drop(input.drain(..place)),
        9 => drop(input.drain(part)),
        10 => {
            let from = random.index(other.len() + 1);
            let length = random.index(other.len() - from + 1);
            input.splice(part, other[from..from + length].iter().copied());
        }
        _ => {
            let length = random.below(20) as usize;
            input.splice(place..place, random_bytes(length, random));
        }
    }
}

/// Replaces a digit by one to three others, if there is one.
fn replace_digit(input: &mut Vec<u8>, random: &mut Random) {
    let digits: Vec<usize> = (0..input.len())
        .filter(|&place| input[place].is_ascii_digit())
        .collect();
    if let Some(place) = random.some_of(&digits) {
        let number: u32 = random.one_of(&[0, 1, 2, 3, 7, 9, 65, 100, 1_000]);
        input.splice(place..=place, number.to_string().into_bytes());
    }
}

/// An input mutated up to three times, at times not at all, or random bytes in its place.
fn mutated(input: &[u8], other: &[u8], random: &mut Random) -> Vec<u8> {
    if random.percent(10) {
        let length = random.below(MOST_RANDOM) as usize;
        return random_bytes(length, random);
    }
    let mut input = input.to_vec();
    for _ in 0..random.below(4) {
        mutate(&mut input, other, random);
    }
    input
}

/// A plan text, its table as bytes with its delay, and its listing, to be mutated.
struct Original {
    text: Vec<u8>,
    table: Vec<u8>,
    delay: u64,
    listing: Vec<u8>,
}

/// A plan that is planned quickly; where it is refused, with the table and the listing of S.
fn original(random: &mut Random) -> Original {
    let lines = match random.percent(20) {
        true => random.one_of(&cases::all()[..20]).1,
        false => plan(random.one_of(&SMALL), random),
    };
    let text = print(&lines);
    let (lines, planned) = match reference::plan(&lines, usize::MAX, usize::MAX) {
        Ok(planned) => (lines, planned),
        Err(_) => (s(), planned(&s())),
    };
    let (delay, passed) = (planned.delay, &planned.passed_by_node);
    Original {
        text,
        table: bytes(&planned.words),
        delay,
        listing: listing(&lines, delay, passed, &planned.words, &planned.frames),
    }
}

/// Lent bytes that hold an input: with watched bytes on either side, or none at all, so that a tool
/// that watches memory finds a read past the end.
fn lend(input: &[u8], random: &mut Random) -> Lent {
    let mut lent = lend_room(input.len(), random);
    lent.lent().copy_from_slice(input);
    lent
}

/// Lent bytes for an answer, so many.
fn lend_room(length: usize, random: &mut Random) -> Lent {
    match random.percent(50) {
        true => Lent::new(length, random),
        false => Lent::exact(length),
    }
}

/// Asserts that bytes lent for an answer are as they were but for so many at the front.
fn only_the_front(lent: &Lent, before: &Lent, written: u64, what: &str) {
    let front = lent.front(written as usize);
    lent.assert_is(&before.with(front), what, "past what was written");
}

/// How many bytes an answer says were written.
fn written(answer: u64) -> u64 {
    if answer >= refused(22) {
        0
    } else {
        answer
    }
}

/// The functions that write: a refusal writes nothing, an answer only as many bytes as it says.
fn write_with(text: &mut Lent, wanted: Option<u8>, random: &mut Random) {
    let [length, table, frames] = [4_000, 4_000, 1_000].map(|most| random.below(most) as usize);
    let totals = random.below(49) as usize;

    let mut out = lend_room(length, random);
    let before = out.clone();
    let answer = copy_plan(text.lent(), out.lent());
    only_the_front(&out, &before, written(answer), "written text");
    assert!(wanted.is_none_or(|number| answer == refused(number)));

    let mut out = lend_room(length, random);
    let before = out.clone();
    let answer = plan_listing(text.lent(), out.lent());
    let listed = list_plan(text.lent(), length);
    let wanted_answer = listed.as_ref().map(|listing| listing.len() as u64);
    assert_eq!(
        answer,
        wanted_answer.unwrap_or_else(|&number| refused(number))
    );
    let listing = listed.unwrap_or_default();
    out.assert_is(&before.with(&listing), "listing", "or past it");

    let mut lent = [table, frames, totals].map(|length| lend_room(length, random));
    let before = lent.clone();
    let [table, frames, totals] = &mut lent;
    let answer = plan_table(text.lent(), table.lent(), frames.lent(), totals.lent());
    assert!(wanted.is_none_or(|number| answer == refused(number)));
    let fronts = match written(answer) {
        0 => [0; 3],
        table => {
            let (frames, all_totals) = frames_and_totals(text.lent());
            [table, frames, all_totals.min(totals.lent().len() as u64)]
        }
    };
    for ((lent, before), front) in lent.iter().zip(&before).zip(fronts) {
        only_the_front(lent, before, front, "table, frames or totals");
    }
}

/// How many bytes the frame list and the totals of a text take, by the reference.
fn frames_and_totals(text: &[u8]) -> (u64, u64) {
    let lines = read(text).expect("a plan that the archive planned");
    let planned = planned(&lines);
    let words = [planned.frames.len(), totals(&planned).len()];
    (4 * words[0] as u64, 4 * words[1] as u64)
}

/// The functions that only read.
fn read_with(text: &mut Lent, table: &mut Lent, delay: u64, random: &mut Random) -> u64 {
    let words = little_endian_words(table.lent());
    let wanted = match read(text.lent()) {
        Err(number) => Some(number),
        Ok(lines) => check(&lines, &words, delay),
    };
    let answer = check_table(text.lent(), table.lent(), delay);
    assert_eq!(answer, wanted.map_or(ACCEPTED, refused));

    for _ in 0..3 {
        let tick = random.some_of(&words).unwrap_or(0);
        let any = random.bits() as u32;
        let asked = Question {
            node: random.one_of(&[0, 0, 1, any]),
            tick: random.one_of(&[tick, tick, 0, any]),
            heard: random.one_of(&[0, 1, u32::MAX, any]),
            values: random.bits() as u32,
            first: random.one_of(&[0, 0, 1, any as usize]),
        };
        let wanted = c_lookup(text.lent(), table.lent(), as_asked(asked));
        assert_eq!(lookup(text.lent(), table.lent(), asked), wanted);

        let row = random.some_of(&words).unwrap_or(any);
        let wanted = reference::row_query(&words, row);
        let wanted = 4 * wanted.start as u64..4 * wanted.end as u64;
        assert_eq!(row_query(table.lent(), row), wanted);
    }
    answer
}

/// The function that reads a listing.
fn check_with(text: &mut Lent, listing: &mut Lent) -> u64 {
    let wanted = reference::check_listing(text.lent(), listing.lent());
    let answer = check_listing(text.lent(), listing.lent());
    assert_eq!(answer, wanted.map_or(ACCEPTED, refused));
    answer
}

/// Prints the number of the input that a test was busy with, if the test fails.
struct Input(u64);

impl Drop for Input {
    fn drop(&mut self) {
        if std::thread::panicking() {
            println!("with input {}", self.0);
        }
    }
}

/// The place of an answer of a checker: 0 for acceptance, or the refusal's number.
fn place(answer: u64) -> usize {
    match answer {
        ACCEPTED => 0,
        refusal => (u64::MAX - refusal) as usize,
    }
}

#[test]
fn bytes_of_any_kind() {
    let (mut answers, mut of_listings) = ([0u64; 23], [0u64; 23]);
    for number in 0..plans() {
        let _shown = Input(number);
        let random = &mut Random::new(7 << 48 | number);
        let first = original(random);
        let other = original(random);
        let text = match random.percent(30) {
            true => first.text,
            false => mutated(&first.text, &other.text, random),
        };
        let mut text = lend(&text, random);
        let mut table = lend(&mutated(&first.table, &other.table, random), random);
        let before = (text.clone(), table.clone());
        let wanted = read(text.lent()).err();
        write_with(&mut text, wanted, random);
        let answer = read_with(&mut text, &mut table, first.delay, random);
        answers[place(answer)] += 1;

        let mut listing = lend(&mutated(&first.listing, &other.listing, random), random);
        let listing_before = listing.clone();
        let answer = check_with(&mut text, &mut listing);
        of_listings[place(answer)] += 1;

        text.assert_is(&before.0.bytes, "text", "which nothing may write");
        table.assert_is(&before.1.bytes, "table", "which nothing may write");
        listing.assert_is(&listing_before.bytes, "listing", "which nothing may write");
    }
    println!("{} inputs, answers of the checker: {answers:?}", plans());
    println!("and of the check of listings: {of_listings:?}");
    let least = plans() / 1_000;
    let seen = [0, 1, 3, 4, 6, 12, 13, 14, 16];
    assert!(seen.iter().all(|&place| answers[place] >= least));
    let seen = [0, 1, 3, 4, 6, 14, 16, 21, 22];
    assert!(seen.iter().all(|&place| of_listings[place] >= least));
}

/// The same, with fewer inputs and every access to memory watched.
#[test]
#[cfg_attr(not(have_valgrind), ignore = "valgrind is not on the PATH")]
fn bytes_of_any_kind_under_valgrind() {
    let program = std::env::current_exe().expect("this program");
    let output = Command::new("valgrind")
        .args(["-q", "--error-exitcode=9"])
        .arg(program)
        .args(["--exact", "bytes_of_any_kind", "--test-threads=1"])
        .env("RISCADRU_PLANS", PLANS_UNDER_VALGRIND)
        .output()
        .expect("valgrind");
    let said = String::from_utf8_lossy(&output.stdout);
    let errors = String::from_utf8_lossy(&output.stderr);
    assert!(
        output.status.success(),
        "{:?}\n{said}\n{errors}",
        output.status
    );
    assert!(said.contains("1 passed"), "{said}");
}
