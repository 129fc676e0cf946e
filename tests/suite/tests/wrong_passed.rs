//! That the tests tell planners, readers and checkers which are wrong about the passed lines from the
//! reference: the plans and listings worked out by hand do, and the generated ones often.

use generate::listing_cases::cases as listings;
use reference::check_listing::check_listing_of;
use reference::{check_listing, print, program, refuse_plan, Lines, Planned};
use suite::listing_readings::readings;
use suite::listings::behind_s;
use suite::wrong_passed::{printed_by, printed_in_slot_order, CHECKERS, PLANNERS};
use suite::{cases, for_plans, planned, s, FEW};

/// The plans worked out by hand that the planner accepts, and random ones.
fn plans() -> [Vec<(Lines, Planned)>; 2] {
    let with_planned = |lines: &Lines| (lines.clone(), planned(lines));
    let by_hand = cases::all().into_iter().map(|(_, lines)| lines);
    let accepted = by_hand.filter(|lines| refuse_plan(lines).is_none());
    let mut random = Vec::new();
    for_plans(96, &FEW, |lines, _| random.push(with_planned(lines)));
    [accepted.map(|lines| with_planned(&lines)).collect(), random]
}

#[test]
fn wrong_planners() {
    let [by_hand, random] = plans();
    for (what, planner) in PLANNERS {
        let other = |(lines, planned): &&(Lines, Planned)| {
            planner(lines, planned) != planned.passed_by_node
        };
        let found = [&by_hand, &random].map(|plans| plans.iter().filter(other).count());
        println!(
            "{what}: {} of {}, {} of {}",
            found[0],
            by_hand.len(),
            found[1],
            random.len()
        );
        assert!(found[0] >= 2 && found[1] >= 100, "{what}: {found:?}");
        for (lines, planned) in by_hand.iter().chain(&random).filter(other) {
            let text = print(lines);
            let listing = printed_by(planner, lines, planned);
            let own = program(&text);
            assert_ne!(listing, own, "{what}");
            if own.starts_with(b"(delay") {
                assert_eq!(check_listing(&text, &listing), Some(22), "{what}");
            }
        }
    }
}

/// A writer that prints the passed lines in slot order is told by every plan whose slots are turned.
#[test]
fn lines_in_slot_order() {
    for (plans, least) in plans().into_iter().zip([3, 200]) {
        let mut found = 0;
        for (lines, planned) in &plans {
            let listing = printed_in_slot_order(lines, planned);
            let turned = !lines.slots.iter().is_sorted_by_key(|slot| slot.node);
            let own = program(&print(lines));
            if own.starts_with(b"(delay") {
                assert_eq!(listing != own, turned);
                let answer = check_listing_of(lines, &listing, || planned.passed_by_node.clone());
                assert_eq!(answer, turned.then_some(21));
                found += usize::from(turned);
            }
        }
        println!("lines in slot order: {found} of {}", plans.len());
        assert!(found >= least, "{found}");
    }
}

/// How many listings a checker gives another answer for than the one that they are made for.
#[test]
fn wrong_checkers() {
    let of_s = behind_s()
        .into_iter()
        .map(|(_, listing, answer)| (s(), listing, answer));
    let of_others = readings()
        .into_iter()
        .map(|(_, lines, listing, answer)| (lines, listing, answer));
    let by_hand: Vec<_> = of_s
        .chain(of_others)
        .map(|(lines, listing, answer)| (planned(&lines), lines, listing, answer))
        .collect();
    let mut found = vec![[0, 0]; CHECKERS.len()];
    for (place, (_, checker)) in CHECKERS.iter().enumerate() {
        for (planned, lines, listing, answer) in &by_hand {
            let wrong = checker(lines, listing.as_bytes(), planned);
            found[place][0] += u64::from(wrong.unwrap_or(0) != *answer);
        }
    }
    let mut generated = 0;
    for_plans(97, &FEW, |lines, random| {
        let planned = planned(lines);
        for case in listings(lines, &planned, random) {
            let Some(answer) = case.answer else {
                continue;
            };
            generated += 1;
            for (place, (_, checker)) in CHECKERS.iter().enumerate() {
                let wrong = checker(lines, &case.listing, &planned);
                found[place][1] += u64::from(wrong.unwrap_or(0) != answer);
            }
        }
    });
    for ((what, _), [hand, random]) in CHECKERS.iter().zip(&found) {
        println!(
            "{what}: {hand} of {}, {random} of {generated}",
            by_hand.len()
        );
    }
    for ((what, _), [hand, random]) in CHECKERS.iter().zip(found) {
        assert!(hand >= 2 && random >= 200, "{what}: {hand} {random}");
    }
}
