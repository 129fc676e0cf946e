//! Compares the archive with the reference: the same inputs to both, and equal answers and equal
//! lent bytes. Without the archive there are no tests here; the gate builds it first.
#![cfg(have_archive)]

use generate::broken::{broken, broken_twice, NUMBERS};
use generate::plans::{plan, KINDS};
use generate::random::Random;
use generate::texts::{damaged_texts, of_length};
use ours::archive::{copy_plan, refused};
use reference::{print, read, write, Lines};

/// What a copy of a text into lent bytes has to answer and leave, by the reference.
fn expected(text: &[u8], lent: &[u8]) -> (u64, Vec<u8>) {
    match read(text).and_then(|lines| write(&lines, lent.len())) {
        Err(number) => (refused(number), lent.to_vec()),
        Ok(written) => {
            let mut after = lent.to_vec();
            after[..written.len()].copy_from_slice(&written);
            (written.len() as u64, after)
        }
    }
}

/// Copies a text by the archive and by the reference, into so many lent bytes.
fn same_copy(text: &[u8], lent: usize) {
    let mut out: Vec<u8> = (0..lent).map(|i| (i * 7 + 3) as u8).collect();
    let (answer, after) = expected(text, &out);
    let ours = copy_plan(text, &mut out);
    let shown = String::from_utf8_lossy(text);
    assert_eq!(ours, answer, "answer for {lent} bytes lent, text:\n{shown}");
    assert_eq!(out, after, "lent bytes, {lent} of them, text:\n{shown}");
}

/// A text into no bytes, one byte too few, just enough, and some more.
fn same_copies(text: &[u8]) {
    let length = text.len();
    for lent in [0, length.saturating_sub(1), length, length + 9] {
        same_copy(text, lent);
    }
}

fn random_plans(seed: u64, of_each_kind: usize) -> Vec<(Lines, Random)> {
    let mut random = Random::new(seed);
    let mut plans = Vec::new();
    for kind in KINDS {
        for _ in 0..of_each_kind {
            let lines = plan(kind, &mut random);
            plans.push((lines, Random::new(random.bits())));
        }
    }
    plans
}

#[test]
fn plans_are_read_and_written_as_they_stand() {
    for (lines, _) in random_plans(1, 300) {
        same_copies(&print(&lines));
    }
}

#[test]
fn damaged_texts_are_refused_alike() {
    for (lines, mut random) in random_plans(2, 150) {
        for damaged in damaged_texts(&lines, &mut random) {
            same_copy(&damaged.text, damaged.text.len());
        }
    }
}

#[test]
fn broken_plans_are_refused_alike() {
    for (lines, mut random) in random_plans(3, 60) {
        for (place, &first) in NUMBERS.iter().enumerate() {
            if let Some(lines) = broken(&lines, first, &mut random) {
                same_copies(&print(&lines));
            }
            for &second in &NUMBERS[place + 1..] {
                if let Some(lines) = broken_twice(&lines, first, second, &mut random) {
                    same_copy(&print(&lines), 20_000);
                }
            }
        }
    }
}

#[test]
fn texts_of_the_greatest_length() {
    for (lines, _) in random_plans(4, 3) {
        for length in [16_383, 16_384, 16_385, 40_000] {
            same_copy(&of_length(&lines, length), 50_000);
        }
    }
}

#[test]
fn short_texts_of_any_bytes() {
    let mut random = Random::new(5);
    for _ in 0..20_000 {
        let length = random.below(40) as usize;
        let text: Vec<u8> = (0..length).map(|_| random.bits() as u8).collect();
        same_copy(&text, 40);
    }
    let line = b"(plan (byte 1) (head 1) (pick urgency))\n";
    for end in 0..line.len() {
        same_copy(&line[..end], 40);
    }
}
