//! Properties of planned tables on random plans.

use std::sync::OnceLock;

use generate::Kind;
use reference::check;
use reference::planner::{delay_bound, plan, plan_all, Ticks};
use reference::table::{entries, frames, row, row_bytes, row_node, Entry};
use reference::who_runs::combinations;
use reference::{Lines, Pick, Planned};
use suite::{for_plans, planned, FEW, MANY};

/// Random plans of every kind with what the planner gives for them, planned once for all tests.
fn plans() -> &'static [(Lines, Planned)] {
    static PLANS: OnceLock<Vec<(Lines, Planned)>> = OnceLock::new();
    PLANS.get_or_init(|| {
        let mut plans = Vec::new();
        for_plans(21, &MANY, |lines, _| {
            plans.push((lines.clone(), planned(lines)))
        });
        plans
    })
}

#[test]
fn planned_tables_are_accepted_with_the_delay_given() {
    for (lines, planned) in plans() {
        assert_eq!(check(lines, &planned.words, planned.delay), None);
    }
}

#[test]
fn no_delay_exceeds_the_bound() {
    for (lines, planned) in plans() {
        assert!(planned.delays.iter().all(|&d| d <= delay_bound(lines)));
        assert_eq!(planned.delays.iter().max(), Some(&planned.delay));
        assert_eq!(planned.delays.len(), combinations(lines).len());
    }
}

#[test]
fn skipping_ticks_changes_nothing() {
    let kinds = [
        (Kind::Tiny, 600),
        (Kind::DenseBus, 60),
        (Kind::ManyConditions, 20),
        (Kind::NestedAny, 100),
    ];
    for_plans(23, &kinds, |lines, _| {
        assert_eq!(plan_all(lines, Ticks::Every), planned(lines));
    });
}

/// Document 02: "Added up they give the old count", which is kept apart.
#[test]
fn the_pass_over_count_is_the_sum_over_the_nodes() {
    let mut plans_with_pass_overs = 0;
    for (lines, planned) in plans() {
        assert_eq!(planned.passed_by_node.len(), lines.slots.len());
        assert_eq!(planned.passed_by_node.iter().sum::<u64>(), planned.passed);
        plans_with_pass_overs += u64::from(planned.passed > 0);
    }
    assert!(plans_with_pass_overs > 300, "{plans_with_pass_overs}");
}

#[test]
fn entries_stand_once_and_in_order() {
    for (_, planned) in plans() {
        let all = entries(&planned.words);
        let key = |e: &Entry| (e.row, e.tick, e.known, e.values);
        assert!(all.windows(2).all(|two| key(&two[0]) < key(&two[1])));
    }
}

/// The node and the last byte, counted from 1, of each item at a tick.
fn items_at(lines: &Lines, all: &[Entry], tick: u32) -> Vec<(u64, u64)> {
    all.iter()
        .filter(|e| e.tick == tick && e.row as usize >= lines.processes.len())
        .map(|e| (e, row(lines, e.row).unwrap()))
        .map(|(e, item)| {
            let last = u64::from(e.place) + row_bytes(lines, item);
            (row_node(lines, item), last)
        })
        .collect()
}

#[test]
fn frames_are_those_of_the_entries() {
    for (lines, planned) in plans() {
        let all = entries(&planned.words);
        let frames = frames(&planned.frames);
        assert!(frames.windows(2).all(|two| two[0].tick < two[1].tick));
        let mut items = 0;
        for frame in &frames {
            let found = items_at(lines, &all, frame.tick);
            assert!(found.iter().all(|&(node, _)| node == u64::from(frame.node)));
            let last = found.iter().map(|&(_, last)| last).max();
            assert_eq!(last, Some(u64::from(frame.bytes)));
            items += found.len();
        }
        let all_items = all
            .iter()
            .filter(|e| e.row as usize >= lines.processes.len());
        assert_eq!(items, all_items.count());
    }
}

#[test]
fn exactly_enough_words_are_enough() {
    for_plans(27, &FEW, |lines, _| {
        let planned = planned(lines);
        let (words, frame_words) = (planned.words.len(), planned.frames.len());
        assert_eq!(plan(lines, words, frame_words), Ok(planned));
        assert_eq!(plan(lines, words - 1, frame_words), Err(10));
        assert_eq!(plan(lines, 0, 0), Err(10));
        if frame_words > 0 {
            assert_eq!(plan(lines, words, frame_words - 1), Err(11));
            assert_eq!(plan(lines, words - 1, frame_words - 1), Err(10));
        }
    });
}

#[test]
fn both_picks_are_planned_and_often_differ() {
    let mut different = 0;
    for_plans(28, &FEW, |lines, _| {
        let mut other = lines.clone();
        other.plan.pick = match lines.plan.pick {
            Pick::Urgency => Pick::Number,
            Pick::Number => Pick::Urgency,
        };
        let planned_other = planned(&other);
        assert_eq!(
            check(lines, &planned_other.words, planned_other.delay),
            None
        );
        different += u64::from(planned_other.words != planned(lines).words);
    });
    assert!(different > 100, "{different}");
}
