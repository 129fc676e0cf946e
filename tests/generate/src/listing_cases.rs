//! Listings of every kind for one plan.

use crate::listing_limits::short_listings;
use crate::listing_texts::{changed_anywhere, not_of_the_form};
use crate::listings::{
    any_listing, damaged, damaged_twice, sound_listings, within_limits, NUMBERS,
};
use crate::passed_texts::wrong_passed_lines;
use crate::random::Random;
use crate::wrong_counts::wrong_counts;
use reference::{print_stated, Lines, Planned, Stated};

/// A listing for a plan.
#[derive(Clone, Debug)]
pub struct Case {
    /// What the listing is.
    pub what: String,
    /// Its text.
    pub listing: Vec<u8>,
    /// The answer that it surely gets, if it surely gets one: 0 for acceptance, or a refusal.
    pub answer: Option<u8>,
}

/// How many listings of each kind a plan gets at most, apart from those with bytes changed.
const SOUND: usize = 10;
const TWICE: usize = 16;
const NOT_OF_THE_FORM: usize = 6;
const WRONG_COUNTS: usize = 4;
const WRONG_PASSED_LINES: usize = 4;

/// Listings for a plan: sound ones, one or two of the refusals 13 to 22 met, and bytes changed.
pub fn cases(lines: &Lines, planned: &Planned, random: &mut Random) -> Vec<Case> {
    let mut sound = sound_listings(lines, planned, random);
    let own = sound.pop().unwrap();
    random.shuffle(&mut sound);
    sound.truncate(SOUND - 3);
    sound.extend(short_listings(lines, planned, random));
    sound.push(own);
    let mut all: Vec<Case> = sound.iter().map(|s| sound_case(lines, s)).collect();
    sound.retain(within_limits);
    if sound.is_empty() {
        return all;
    }
    let mut bases: Vec<(String, Stated)> = Vec::new();
    for number in NUMBERS.into_iter().chain(NUMBERS) {
        if let Some(damaged) = damaged(lines, &random.one_of(&sound), number, random) {
            let what = format!("damaged for {number}");
            all.push(case(lines, what.clone(), &damaged, Some(number)));
            bases.push((what, damaged));
        }
    }
    bases.push(("sound".to_string(), random.one_of(&sound)));
    for _ in 0..TWICE {
        all.extend(case_damaged_twice(lines, &random.one_of(&sound), random));
    }
    for _ in 0..2 {
        all.extend(cases_of_21(lines, &random.one_of(&bases), random));
    }
    let text = print_stated(lines, &random.one_of(&sound));
    for changed in changed_anywhere(&text, random) {
        all.push(Case {
            what: changed.what.to_string(),
            listing: changed.text,
            answer: changed.refusal,
        });
    }
    all.push(frames_of_another(lines, &sound, random));
    all.push(case(
        lines,
        "any".to_string(),
        &any_listing(lines, random),
        None,
    ));
    all.extend(cases_of_passed_lines(lines, &random.one_of(&sound), random));
    all
}

/// Some texts that are not of the form, made from a listing that is sound or damaged.
fn cases_of_21(lines: &Lines, (base, stated): &(String, Stated), random: &mut Random) -> Vec<Case> {
    let mut texts = not_of_the_form(lines, stated, random);
    random.shuffle(&mut texts);
    texts.truncate(NOT_OF_THE_FORM);
    let texts = texts.into_iter().map(|text| Case {
        what: format!("{base}, and {}", text.what),
        listing: text.text,
        answer: text.refusal,
    });
    texts.collect()
}

/// A sound listing with other counts, and with passed lines that are not of the form.
fn cases_of_passed_lines(lines: &Lines, stated: &Stated, random: &mut Random) -> Vec<Case> {
    let mut counts = wrong_counts(lines, stated, random);
    random.shuffle(&mut counts);
    counts.truncate(WRONG_COUNTS);
    let mut texts = wrong_passed_lines(lines, stated, random);
    random.shuffle(&mut texts);
    texts.truncate(WRONG_PASSED_LINES);
    let counts = counts.into_iter().map(|(what, passed)| {
        let entries = stated.clone();
        let other = Stated { passed, ..entries };
        case(lines, what.to_string(), &other, Some(22))
    });
    let texts = texts.into_iter().map(|text| Case {
        what: text.what.to_string(),
        listing: text.text,
        answer: text.refusal,
    });
    counts.chain(texts).collect()
}

fn case(lines: &Lines, what: String, stated: &Stated, answer: Option<u8>) -> Case {
    Case {
        what,
        listing: print_stated(lines, stated),
        answer,
    }
}

/// A sound listing: accepted if it is within the limits.
pub fn sound_case(lines: &Lines, stated: &Stated) -> Case {
    let answer = if within_limits(stated) { 0 } else { 21 };
    case(lines, "sound".to_string(), stated, Some(answer))
}

/// A sound listing damaged for two refusals, each from 13 to 22.
fn case_damaged_twice(lines: &Lines, stated: &Stated, random: &mut Random) -> Option<Case> {
    let pairs = NUMBERS.map(|first| NUMBERS.map(|second| (first, second)));
    let pairs: Vec<(u8, u8)> = pairs.into_iter().flatten().filter(|(a, b)| a < b).collect();
    let numbers = random.one_of(&pairs);
    let (damaged, surely) = damaged_twice(lines, stated, numbers, random)?;
    let what = format!("damaged for {numbers:?}");
    Some(case(lines, what, &damaged, surely.then_some(numbers.0)))
}

/// A sound listing with the frames of another: accepted only if they are its own.
fn frames_of_another(lines: &Lines, sound: &[Stated], random: &mut Random) -> Case {
    let (one, other) = (random.one_of(sound), random.one_of(sound));
    let answer = if one.frames == other.frames { 0 } else { 22 };
    let mixed = Stated {
        frames: other.frames,
        ..one
    };
    case(lines, "frames of another".to_string(), &mixed, Some(answer))
}
