//! Refusals 2 to 9, alone and two at a time, by everyone who tries them; 10 and 11 of a listing.

use generate::broken::{broken, broken_twice, NUMBERS};
use generate::texts::of_length;
use generate::Random;
use reference::lookup::{lookup, Answer};
use reference::text::{read_form, write, MOST_DIGITS};
use reference::{
    c_lookup, check, list_plan, plan, print, program, read, refuse_plan, refused, Lines,
};
use suite::{about_the_room, for_plans, listed, question, s, FEW};

/// Asserts that everyone who is handed these lines gives the same refusal.
fn everyone_refuses(lines: &Lines, number: u8) {
    assert_eq!(refuse_plan(lines), Some(number));
    assert_eq!(plan(lines, 0, 0), Err(number));
    assert_eq!(check(lines, &[1], 0), Some(number));
    assert_eq!(write(lines, 0), Err(number));
    let asked = question(99, 0, 0, 0, 0);
    assert_eq!(lookup(lines, &[], asked), Answer::Refused(number));
    let text = print(lines);
    if nine_digits(&text) {
        assert_eq!(read_form(&text).as_ref(), Some(lines));
        assert_eq!(read(&text), Err(number));
        assert_eq!(c_lookup(&text, &[], asked), u64::MAX - u64::from(number));
        assert_eq!(list_plan(&text, 0), Err(number));
    } else {
        assert_eq!(read(&text), Err(1));
    }
}

/// Whether every number of a text has at most nine digits.
fn nine_digits(text: &[u8]) -> bool {
    text.split(|b| !b.is_ascii_digit())
        .all(|digits| digits.len() <= MOST_DIGITS)
}

#[test]
fn each_refusal_alone() {
    let mut found = [0; 10];
    for_plans(11, &FEW, |lines, random| {
        for number in NUMBERS {
            for _ in 0..4 {
                if let Some(lines) = broken(lines, number, random) {
                    everyone_refuses(&lines, number);
                    found[number as usize] += 1;
                }
            }
        }
    });
    assert!(found[2..].iter().all(|&count| count > 500), "{found:?}");
}

#[test]
fn of_two_refusals_the_first() {
    let mut found = 0;
    for_plans(12, &FEW, |lines, random| {
        for second in NUMBERS {
            for first in NUMBERS.into_iter().filter(|&n| n < second) {
                if let Some(lines) = broken_twice(lines, first, second, random) {
                    everyone_refuses(&lines, first);
                    found += 1;
                }
            }
        }
    });
    assert!(found > 10_000);
}

#[test]
fn the_longest_text() {
    assert_eq!(of_length(&s(), 16_384).len(), 16_384);
    assert_eq!(read(&of_length(&s(), 16_384)), Err(2));
    assert_eq!(read(&of_length(&s(), 16_385)), Err(1));
}

/// A listing that does not fit is 10, also where its frames are too many; one that fits is 10 if its
/// entries are too many, then 11 if its frames are.
#[test]
fn ten_before_eleven_of_a_listing() {
    for (lines, refusal) in about_the_room(&mut Random::new(13)) {
        let (text, listing) = (print(&lines), listed(&lines).into_bytes());
        let length = listing.len();
        assert_eq!(list_plan(&text, length - 1), Err(10));
        let (listed, printed) = match refusal {
            None => (Ok(listing.clone()), listing),
            Some(number) => (Err(number), refused(number)),
        };
        assert_eq!(list_plan(&text, length), listed);
        assert_eq!(program(&text), printed);
    }
}
