//! Compares the archive's check of listings with the reference: the same plan texts and listings to
//! both, and equal answers. Without the archive there are no tests here; the gate builds it first.
//!
//! The variable `RISCADRU_PLANS` sets how many plans have their listings compared (see
//! `ours::comparing`).
#![cfg(have_archive)]

use generate::broken::{broken, broken_twice, NUMBERS};
use generate::listing_cases::cases;
use generate::listing_limits::{about_the_limits, many_columns, short_listings};
use generate::listings::{planned_listing, within_limits};
use generate::plans::random_pick;
use generate::texts::{damaged_texts, of_length};
use generate::wrong_counts::wrong_counts;
use generate::{plan, Kind, Random, KINDS};
use ours::archive::{check_listing, check_table, plan_listing, refused, ACCEPTED};
use ours::comparing::{bytes, count, plans, random_bytes, Shares};
use reference::check_listing::check_listing_of;
use reference::table::words;
use reference::{print, print_stated, read_listing, Lines, PlanLine, Planned, Stated};
use suite::listing_readings::readings;
use suite::listings::behind_s;
use suite::tally::Tally;
use suite::{about_the_room, for_plans, planned, s, FEW, S, S_LISTING};

/// Of a thousand of the plans that the tests go by, how many have their listings compared.
const SHARES: Shares = [
    (Kind::Tiny, 16),
    (Kind::DenseBus, 3),
    (Kind::ManyConditions, 3),
    (Kind::NestedAny, 4),
    (Kind::Largest, 1),
    (Kind::LongestRound, 3),
    (Kind::ShortestRound, 3),
    (Kind::UnevenBus, 4),
    (Kind::LongGaps, 3),
];

/// More bytes than a listing of 3,000 entries that the planner prints has.
const LONG: usize = 500_000;

/// Asserts that the archive gives an answer for a plan text and a listing.
fn answers(text: &[u8], listing: &[u8], wanted: Option<u8>, what: &str) {
    let number = wanted.map_or(ACCEPTED, refused);
    let ours = check_listing(text, listing);
    assert_eq!(
        ours,
        number,
        "and not {wanted:?}; {what}; text:\n{}listing:\n{}",
        String::from_utf8_lossy(text),
        String::from_utf8_lossy(listing)
    );
}

/// Checks a text and a listing by both.
fn same(text: &[u8], listing: &[u8], tally: &mut Tally) {
    let wanted = reference::check_listing(text, listing);
    answers(text, listing, wanted, "as the reference");
    tally.add(wanted);
}

/// A plan, its text, and what the planner of the reference gives for it.
struct Checked<'a> {
    lines: &'a Lines,
    text: Vec<u8>,
    planned: Planned,
}

impl<'a> Checked<'a> {
    fn of(lines: &'a Lines) -> Self {
        Checked {
            lines,
            text: print(lines),
            planned: planned(lines),
        }
    }

    /// Checks a listing by both, with the answer that it is made for, if it is made for one.
    fn same(&self, listing: &[u8], made_for: Option<u8>, what: &str, tally: &mut Tally) {
        let wanted = check_listing_of(self.lines, listing, || self.planned.passed_by_node.clone());
        if let Some(made_for) = made_for {
            assert_eq!(wanted.unwrap_or(0), made_for, "the reference: {what}");
        }
        answers(&self.text, listing, wanted, what);
        tally.add(wanted);
    }
}

#[test]
fn listings_of_random_plans() {
    let mut tally = Tally::default();
    for kind in KINDS {
        for number in 0..count(&SHARES, kind) {
            let mut random = Random::new((kind as u64 + 1) << 48 | 2 << 40 | number);
            let lines = plan(kind, &mut random);
            let checked = Checked::of(&lines);
            for case in cases(&lines, &checked.planned, &mut random) {
                checked.same(&case.listing, case.answer, &case.what, &mut tally);
            }
        }
    }
    tally.assert_each([0].into_iter().chain(13..=22), plans() / 70);
    let total = tally.total();
    assert!(total >= plans() * 30 / 21, "{total} listings");
}

/// "An accepted listing has everything an accepted table has": what the archive says of a listing of the
/// form is what it says of the table that the listing states, but for 22 where it accepts that.
#[test]
fn listings_are_checked_as_the_tables_that_they_state() {
    let mut tally = Tally::default();
    let kinds = FEW.map(|(kind, of_kind)| (kind, of_kind / 4));
    for_plans(87, &kinds, |lines, random| {
        let (text, planned) = (print(lines), planned(lines));
        for case in cases(lines, &planned, random) {
            let Ok(stated) = read_listing(lines, &case.listing) else {
                continue;
            };
            let table = bytes(&words(&stated.entries));
            let of_table = check_table(&text, &table, stated.delay);
            let ours = check_listing(&text, &case.listing);
            let only_here = of_table == ACCEPTED && ours == refused(22);
            assert!(ours == of_table || only_here, "{}: {ours}", case.what);
            tally.add((ours != ACCEPTED).then(|| (u64::MAX - ours) as u8));
        }
    });
    tally.assert_each([0].into_iter().chain(13..=20).chain([22]), 50);
}

/// The archive's own listing of a plan is accepted, or is not one where the planner answers 10 or 11.
#[test]
fn listings_that_the_archive_prints_are_accepted() {
    let (mut accepted, mut too_large) = (0, 0);
    let mut out = vec![0; LONG];
    let mut checked = |lines: &Lines| {
        let text = print(lines);
        let length = plan_listing(&text, &mut out);
        if length == refused(10) || length == refused(11) {
            too_large += 1;
            return;
        }
        let listing = &out[..length as usize];
        answers(&text, listing, None, "printed by the archive");
        answers(
            &text,
            &listing[..listing.len() - 1],
            Some(21),
            "cut by a byte",
        );
        let later = [listing, b"\n"].concat();
        answers(&text, &later, Some(21), "an empty line behind");
        accepted += 1;
    };
    for_plans(81, &FEW, |lines, _| checked(lines));
    for_plans(81, &[(Kind::Largest, 8)], |lines, _| checked(lines));
    for (lines, _) in about_the_room(&mut Random::new(82)) {
        checked(&lines);
    }
    assert!(accepted > 600 && too_large >= 6, "{accepted} {too_large}");
}

/// Listings of S with answers that were worked out by hand.
#[test]
fn listings_behind_s() {
    for (what, listing, answer) in behind_s() {
        let wanted = (answer != 0).then_some(answer);
        answers(S.as_bytes(), listing.as_bytes(), wanted, what);
    }
}

/// Listings of other plans with answers that were worked out by hand.
#[test]
fn readings_of_points_2_and_3() {
    for (what, lines, listing, answer) in readings() {
        let wanted = (answer != 0).then_some(answer);
        answers(&print(&lines), listing.as_bytes(), wanted, what);
    }
}

/// The bytes of listings, and some that none has.
const BYTES: &[u8] = b"0123456789() \nabdefghilmnoprstuwy\0\t\r*-/:STWx{\x7f\x80\xff";

/// Every byte of the listing of S in turn: replaced by others, removed, doubled, others before it, the
/// listing cut there.
#[test]
fn every_byte_of_the_listing_of_s() {
    let mut tally = Tally::default();
    let lines = s();
    let checked = Checked::of(&lines);
    let listing = S_LISTING.as_bytes();
    let mut changed = |listing: &[u8]| checked.same(listing, None, "a byte changed", &mut tally);
    for place in 0..listing.len() {
        let (before, behind) = listing.split_at(place);
        for &byte in BYTES {
            changed(&[before, &[byte], &behind[1..]].concat());
            changed(&[before, &[byte], behind].concat());
        }
        changed(&[before, &behind[1..]].concat());
        changed(&[before, &behind[..1], behind].concat());
        changed(before);
    }
    tally.assert_each([0, 14, 15, 16, 17, 20, 21, 22], 5);
}

/// "Planner, checker, lookup and plan writer retry 2 to 9", and 21 is "tried after 9": whatever listing
/// stands behind a plan that is refused.
#[test]
fn plans_that_are_refused() {
    let mut tally = Tally::default();
    for_plans(83, &FEW, |lines, random| {
        let stated = planned_listing(&planned(lines));
        let own = print_stated(lines, &stated);
        let totals_alone = Stated {
            delay: 0,
            entries: Vec::new(),
            frames: Vec::new(),
            ..stated
        };
        let listings = [
            &own[..],
            b"",
            b"x",
            b"(delay 0)\n(passed 0)\n",
            &print_stated(lines, &totals_alone),
            &print(lines),
        ];
        let mut texts: Vec<Vec<u8>> = damaged_texts(lines, random)
            .into_iter()
            .map(|damaged| damaged.text)
            .collect();
        for first in NUMBERS {
            texts.extend(broken(lines, first, random).map(|lines| print(&lines)));
            let second = random.between(first.into(), 9) as u8;
            let twice = broken_twice(lines, first, second, random);
            texts.extend(twice.map(|lines| print(&lines)));
        }
        texts.push(Vec::new());
        for text in texts {
            same(&text, random.one_of(&listings), &mut tally);
        }
    });
    tally.assert_each((1..=9).chain([21]), 500);
}

#[test]
fn texts_about_the_greatest_length() {
    let mut tally = Tally::default();
    for length in [16_383, 16_384, 16_385, 16_386, 40_000, 600_000] {
        for listing in [S_LISTING.as_bytes(), b"", b"x"] {
            same(&of_length(&s(), length), listing, &mut tally);
        }
    }
    tally.assert_each([1, 2], 6);
}

/// As many entries and frames as there may be, one more of either, the widest numbers, and listings
/// that are far too long.
#[test]
fn listings_about_the_limits() {
    let mut tally = Tally::default();
    let mut random = Random::new(84);
    let rooms = about_the_room(&mut random).into_iter();
    let mut all: Vec<Lines> = rooms.map(|(lines, _)| lines).collect();
    all.extend((0..3).map(|_| plan(Kind::Largest, &mut random)));
    all.push(s());
    for lines in all {
        let checked = Checked::of(&lines);
        let mut sound = short_listings(&lines, &checked.planned, &mut random);
        sound.push(planned_listing(&checked.planned));
        for stated in sound {
            let listing = print_stated(&lines, &stated);
            let answer = if within_limits(&stated) { 0 } else { 21 };
            checked.same(&listing, Some(answer), "sound", &mut tally);
            if answer == 0 {
                for (what, listing, answer) in about_the_limits(&lines, &stated, &mut random) {
                    checked.same(&listing, Some(answer), what, &mut tally);
                }
                let frames = b"(frame 0 (node 0) (bytes 1))\n".repeat(40_000);
                let listing = [&listing[..], &frames].concat();
                checked.same(&listing, Some(21), "a megabyte of frames", &mut tally);
            }
        }
    }
    tally.assert_each([0, 13, 14, 21, 22], 15);
}

/// Sound listings of plans whose own table is too large, so that the planner answers 10: the passed lines
/// have the plan's counts all the same.
#[test]
fn short_listings_of_plans_with_too_many_entries() {
    let mut tally = Tally::default();
    let mut random = Random::new(85);
    for slot_bytes in (7..=64).step_by(3) {
        let head = random.between(0, 16);
        let plan_line = PlanLine {
            byte: random.between(1, 5),
            head,
            pick: random_pick(&mut random),
        };
        let lines = many_columns(plan_line, (random.between(1, 64), slot_bytes));
        let checked = Checked::of(&lines);
        assert!(checked.planned.words.len() > 5 * 3_000);
        assert_eq!(plan_listing(&checked.text, &mut vec![0; LONG]), refused(10));
        for mut stated in short_listings(&lines, &checked.planned, &mut random) {
            let listing = print_stated(&lines, &stated);
            let fits = within_limits(&stated);
            let answer = if fits { 0 } else { 21 };
            checked.same(&listing, Some(answer), "sound", &mut tally);
            for (what, counts) in wrong_counts(&lines, &stated, &mut random) {
                stated.passed = counts;
                let listing = print_stated(&lines, &stated);
                let answer = if fits { 22 } else { 21 };
                checked.same(&listing, Some(answer), what, &mut tally);
            }
        }
    }
    tally.assert_each([0, 22], 15);
}

/// Listings of any bytes, or made of parts of two others.
#[test]
fn listings_of_any_bytes() {
    let mut tally = Tally::default();
    for_plans(86, &FEW, |lines, random| {
        let text = print(lines);
        let own = print_stated(lines, &planned_listing(&planned(lines)));
        let length = random.below(60) as usize;
        same(&text, &random_bytes(length, random), &mut tally);
        let (from, to) = (random.index(own.len() + 1), random.index(own.len() + 1));
        same(&text, &[&own[..to], &own[from..]].concat(), &mut tally);
        let lines_of = |text: &[u8]| -> Vec<Vec<u8>> {
            text.split_inclusive(|&b| b == b'\n')
                .map(<[u8]>::to_vec)
                .collect()
        };
        let mut parts = lines_of(&own);
        let place = random.index(parts.len());
        parts.splice(
            place..place,
            [random.one_of(&lines_of(S_LISTING.as_bytes()))],
        );
        same(&text, &parts.concat(), &mut tally);
    });
    tally.assert_each([14, 21], 20);
}
