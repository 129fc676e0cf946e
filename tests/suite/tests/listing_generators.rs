//! That the generated listings and inputs get the answers that they are made for, and each answer often.

use std::collections::BTreeMap;

use generate::inputs::{inputs, joined, long_inputs};
use generate::listing_cases::{cases, sound_case};
use generate::listing_limits::{
    about_the_limits, longest, many_columns, short_listings, with_the_old_line,
};
use generate::listing_texts::not_of_the_form;
use generate::listings::{
    any_listing, of_table, planned_listing, sound_listings, table_of, within_limits, NUMBERS,
};
use generate::wrong_counts::wrong_counts;
use generate::{plan, Kind, Random};
use reference::check_listing::{check_listing_of, frames_given, pass_overs};
use reference::{check_input, check_listing, print, print_stated, program, read_listing};
use reference::{Pick, PlanLine};
use suite::tally::Tally;
use suite::{about_the_room, cases as plans, for_plans, planned, FEW};

#[test]
fn listings_get_the_answer_that_they_are_made_for() {
    let mut tally = Tally::default();
    let (mut plan_lines, mut kinds) = (BTreeMap::new(), BTreeMap::new());
    for_plans(71, &FEW, |lines, random| {
        let planned = planned(lines);
        for case in cases(lines, &planned, random) {
            let answer = check_listing_of(lines, &case.listing, || planned.passed_by_node.clone());
            if let Some(wanted) = case.answer {
                let shown = String::from_utf8_lossy(&case.listing);
                assert_eq!(answer.unwrap_or(0), wanted, "{}:\n{shown}", case.what);
            }
            tally.add(answer);
            let plan_line = (lines.plan.head, lines.plan.pick == Pick::Number);
            let accepted = plan_lines.entry(plan_line).or_insert(0);
            *accepted += u64::from(answer.is_none());
            let kind = case.what.split(", and ").next().unwrap();
            let of_21 = kind != case.what;
            *kinds.entry((kind.to_string(), of_21)).or_insert(0) += 1;
        }
    });
    tally.assert_each([0].into_iter().chain(13..=22), 300);
    println!("accepted, by head and pick: {plan_lines:?}");
    assert_eq!(plan_lines.len(), 17 * 2);
    assert!(plan_lines.values().all(|&accepted| accepted >= 20));
    assert_each_pair(&kinds);
}

/// Asserts that each two refusals were met together often, a 21 among them.
fn assert_each_pair(kinds: &BTreeMap<(String, bool), u64>) {
    println!("{kinds:?}");
    let often = |what: String, of_21: bool| {
        let count = kinds.get(&(what.clone(), of_21)).copied();
        assert!(count >= Some(50), "{what}, and 21: {of_21}; {count:?}");
    };
    for (place, second) in NUMBERS.into_iter().enumerate() {
        often(format!("damaged for {second}"), true);
        for first in &NUMBERS[..place] {
            often(format!("damaged for {:?}", (*first, second)), false);
        }
    }
}

#[test]
fn inputs_get_the_answer_that_they_are_made_for() {
    let mut tally = Tally::default();
    for_plans(72, &FEW, |lines, random| {
        let planned = planned(lines);
        let own = print_stated(lines, &planned_listing(&planned));
        for input in inputs(lines, &own, random) {
            let answer = check_input(&input.text);
            if let Some(wanted) = input.refusal {
                assert_eq!(answer, Some(wanted), "{}", input.what);
            }
            tally.add(answer);
        }
        for case in cases(lines, &planned, random).into_iter().take(3) {
            let input = joined(&print(lines), &case.listing);
            let answer = check_listing_of(lines, &case.listing, || planned.passed_by_node.clone());
            assert_eq!(check_input(&input), answer);
            tally.add(answer);
        }
    });
    tally.assert_each([0].into_iter().chain(1..=9).chain([21]), 100);
}

#[test]
fn long_inputs_are_refused() {
    let mut tally = Tally::default();
    for_plans(73, &FEW.map(|(kind, _)| (kind, 4)), |lines, random| {
        let own = print_stated(lines, &planned_listing(&planned(lines)));
        for input in long_inputs(lines, &own, random) {
            assert!(input.text.len() >= 600_000, "{}", input.what);
            assert_eq!(check_input(&input.text), input.refusal, "{}", input.what);
            tally.add(input.refusal);
        }
    });
    tally.assert_each([1, 21], 96);
    assert!(tally.count(2..=9) > 10);
}

/// Every form of 21 is made often.
#[test]
fn forms_of_21() {
    let mut found = BTreeMap::new();
    for_plans(74, &FEW, |lines, random| {
        let sound = sound_listings(lines, &planned(lines), random);
        let stated = random.one_of(&sound);
        if !within_limits(&stated) {
            return;
        }
        for damaged in not_of_the_form(lines, &stated, random) {
            let shown = String::from_utf8_lossy(&damaged.text);
            let read = read_listing(lines, &damaged.text);
            assert_eq!(read.err(), Some(21), "{}:\n{shown}", damaged.what);
            *found.entry(damaged.what).or_insert(0) += 1;
        }
    });
    println!("{found:?}");
    assert!(found.len() >= 70, "{}", found.len());
    assert!(found.values().all(|&count| count > 50), "{found:?}");
}

/// What is printed is read again, in whatever order lines stand within a row; and the planner's frames
/// are those that its entries give.
#[test]
fn listings_are_read_as_they_are_printed() {
    let mut others = 0;
    for_plans(75, &FEW, |lines, random| {
        let planned = planned(lines);
        let own = planned_listing(&planned);
        assert_eq!(frames_given(lines, &own.entries), own.frames);
        assert_eq!(
            of_table(lines, &table_of(&own), &planned.passed_by_node),
            own
        );
        assert_eq!(print_stated(lines, &own), program(&print(lines)));
        for stated in sound_listings(lines, &planned, random) {
            if within_limits(&stated) {
                let read = read_listing(lines, &print_stated(lines, &stated));
                assert_eq!(read.as_ref(), Ok(&stated));
                others += u64::from(stated != own);
            }
        }
    });
    assert!(others > 5_000, "{others}");
}

/// Whatever the form allows is read as it stands: reading and printing undo each other.
#[test]
fn listings_of_any_numbers_are_read_as_they_are_printed() {
    let mut tally = Tally::default();
    for_plans(80, &FEW, |lines, random| {
        for _ in 0..10 {
            let stated = any_listing(lines, random);
            let text = print_stated(lines, &stated);
            assert_eq!(read_listing(lines, &text), Ok(stated));
            tally.add(check_listing(&print(lines), &text));
        }
    });
    tally.assert_each([13, 14], 500);
    assert_eq!(tally.count([21]), 0);
}

/// 111 bytes for an entry, 53 for a frame, 18 for the delay line and 28 for each of eight passed lines: 439,242 bytes.
/// With the one passed line of document 01, of 19 bytes, it had 439,037 and is not of the form.
#[test]
fn the_longest_listing() {
    let lines = plan(Kind::Largest, &mut Random::new(1));
    let text = print_stated(&lines, &longest(&lines));
    assert_eq!(text.len(), 18 + 8 * 28 + 3_000 * 111 + 2_000 * 53);
    assert_eq!(text.len(), 439_242);
    let mut all = text.split_inclusive(|&b| b == b'\n').skip(1);
    for node in 0..8 {
        let line = format!("(passed (node {node}) 999999999)\n");
        assert_eq!((line.len(), all.next().unwrap()), (28, line.as_bytes()));
    }
    let widest = all.next().unwrap();
    let column = "(false 0) (false 1) (false 2) (false 3) (false 4) (false 5)";
    let line = format!("(send 127 (when {column}) (at 999999999) (place 999999999))\n");
    assert_eq!(widest, line.as_bytes());
    assert_eq!(check_listing_of(&lines, &text, Vec::new), Some(13));
    let old = with_the_old_line(&text);
    assert_eq!(old.len(), 439_037);
    assert_eq!(check_listing_of(&lines, &old, Vec::new), Some(21));
}

#[test]
fn listings_about_the_limits() {
    let mut plans: Vec<_> = about_the_room(&mut Random::new(76))
        .into_iter()
        .map(|(lines, _)| lines)
        .collect();
    plans.extend((0..4).map(|seed| plan(Kind::Largest, &mut Random::new(seed))));
    plans.push(suite::s());
    let (mut accepted, mut too_many) = (0, 0);
    for lines in plans {
        let random = &mut Random::new(77);
        let planned = planned(&lines);
        let mut sound = short_listings(&lines, &planned, random);
        sound.push(planned_listing(&planned));
        for stated in sound {
            let case = sound_case(&lines, &stated);
            let answer = check_listing_of(&lines, &case.listing, || planned.passed_by_node.clone());
            assert_eq!(answer.unwrap_or(0), case.answer.unwrap());
            if !within_limits(&stated) {
                too_many += 1;
                continue;
            }
            accepted += 1;
            for (what, text, wanted) in about_the_limits(&lines, &stated, random) {
                let answer = check_listing_of(&lines, &text, || planned.passed_by_node.clone());
                assert_eq!(answer.unwrap_or(0), wanted, "{what}");
            }
        }
    }
    assert!(accepted > 15 && too_many > 5, "{accepted} {too_many}");
}

/// A plan whose own table has 3,782 entries, so that the planner answers 10, and sound listings of 128.
#[test]
fn a_short_listing_of_a_plan_with_too_many_entries() {
    let plan_line = PlanLine {
        byte: 1,
        head: 0,
        pick: Pick::Urgency,
    };
    let lines = many_columns(plan_line, (6, 64));
    let planned = planned(&lines);
    assert_eq!(planned.words.len() / 5, 3_782);
    assert_eq!(planned.passed, 0);
    assert_eq!(program(&print(&lines)), b"(refused 10)\n");
    for stated in short_listings(&lines, &planned, &mut Random::new(78)) {
        assert_eq!(stated.entries.len(), 128);
        assert!(stated.entries.iter().all(|e| e.known == 0));
        let text = print_stated(&lines, &stated);
        assert_eq!(check_listing(&print(&lines), &text), None);
    }
    let own = print_stated(&lines, &planned_listing(&planned));
    assert_eq!(check_listing(&print(&lines), &own), Some(21));
}

/// The same with a pass-over count: it is the plan's, which neither the checked table nor the planner's
/// answer has.
#[test]
fn the_pass_over_count_where_the_planner_answers_10_or_11() {
    let mut random = Random::new(79);
    let mut all: Vec<_> = [(7, 1), (20, 3), (63, 2)]
        .into_iter()
        .map(|(bytes, byte)| {
            let plan_line = PlanLine {
                byte,
                head: random.between(0, 16),
                pick: random.one_of(&[Pick::Urgency, Pick::Number]),
            };
            many_columns(plan_line, (random.between(6, 64), bytes))
        })
        .collect();
    all.extend([plans::too_many_entries(), plans::too_many_frames()]);
    for (place, lines) in all.into_iter().enumerate() {
        let planned = planned(&lines);
        let answer = program(&print(&lines));
        let wanted = if place == 4 { 11 } else { 10 };
        assert_eq!(answer, reference::refused(wanted));
        assert!(place == 3 || planned.passed > 0, "{place}");
        assert_eq!(pass_overs(&lines), planned.passed_by_node);
        for mut stated in short_listings(&lines, &planned, &mut random) {
            if !within_limits(&stated) {
                continue;
            }
            let text = print_stated(&lines, &stated);
            assert_eq!(check_listing(&print(&lines), &text), None);
            for (what, counts) in wrong_counts(&lines, &stated, &mut random) {
                stated.passed = counts;
                let text = print_stated(&lines, &stated);
                assert_eq!(check_listing(&print(&lines), &text), Some(22), "{what}");
            }
        }
    }
}
