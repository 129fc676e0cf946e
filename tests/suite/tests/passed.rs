//! Pass-overs for each unit, document 02, point 3: counts worked out by hand, counts taken from the
//! tables alone, and that the random plans show which node a count is kept for.

use std::collections::BTreeMap;

use generate::listings::{sound_listings, within_limits};
use generate::pass_overs::{by_receiver, by_sender};
use generate::wrong_counts::{in_slot_order, wrong_counts};
use generate::{plan, Kind, Random, KINDS};
use reference::check_listing::check_listing_of;
use reference::table::entries;
use reference::{print, print_stated, program, Lines, Planned, Stated};
use suite::passed_lines::{
    three_counts, three_slots_turned, two_slots_turned, THREE_SLOTS_TURNED, TWO_SLOTS_TURNED,
};
use suite::{cases, for_plans, planned, FEW, MANY};

/// Whether the slots stand in another order than their nodes.
fn turned(lines: &Lines) -> bool {
    !lines.slots.iter().is_sorted_by_key(|slot| slot.node)
}

/// Whether two nodes or more have passed something over, with different counts.
fn several(planned: &Planned) -> bool {
    let mut counts = planned.passed_by_node.clone();
    counts.retain(|&count| count > 0);
    counts.sort_unstable();
    counts.dedup();
    counts.len() >= 2
}

/// "one line for each node, `(passed (node 0) 0)`, in node order", whatever order the slots have.
#[test]
fn counts_of_slots_that_do_not_stand_in_node_order() {
    let counts: [(Lines, &[u64]); 3] = [
        (two_slots_turned(), &[2, 1]),
        (three_slots_turned(), &[0, 0, 3]),
        (three_counts(), &[1, 2, 3]),
    ];
    for (lines, counts) in counts {
        assert!(turned(&lines));
        let planned = planned(&lines);
        assert_eq!(planned.passed_by_node, counts);
        assert_eq!(planned.passed, counts.iter().sum::<u64>());
        assert_eq!(by_sender(&lines, &entries(&planned.words)), counts);
    }
    for (lines, listing) in [
        (two_slots_turned(), TWO_SLOTS_TURNED),
        (three_slots_turned(), THREE_SLOTS_TURNED),
    ] {
        let printed = program(&print(&lines));
        assert_eq!(String::from_utf8(printed).unwrap(), listing);
    }
}

/// A process on node 0 passes over what it sends to node 1, and another what it sends to node 2.
#[test]
fn counts_of_the_receivers_are_others() {
    let turned = |lines: Lines| {
        let planned = planned(&lines);
        by_receiver(&lines, &entries(&planned.words))
    };
    assert_eq!(turned(two_slots_turned()), [1, 2]);
    assert_eq!(turned(three_slots_turned()), [2, 1, 0]);
    assert_eq!(turned(three_counts()), [3, 1, 2]);
}

/// What is counted from the tables alone, of every plan: the count of each node. And "added up they
/// give the old count", which the reference keeps apart.
#[test]
fn counts_are_those_of_the_tables() {
    let mut all = 0;
    let mut same = |lines: &Lines| {
        let planned = planned(lines);
        let counted = by_sender(lines, &entries(&planned.words));
        assert_eq!(counted, planned.passed_by_node);
        assert_eq!(counted.iter().sum::<u64>(), planned.passed);
        all += 1;
    };
    for (_, lines) in cases::all() {
        if reference::refuse_plan(&lines).is_none() {
            same(&lines);
        }
    }
    for_plans(29, &MANY, |lines, _| same(lines));
    assert!(all > 2_600, "{all}");
}

/// Other counts are made in each way often, and each gets 22.
#[test]
fn ways_of_22() {
    let (mut ways, mut plans) = (BTreeMap::new(), 0);
    for_plans(31, &FEW, |lines, random| {
        let planned = planned(lines);
        let sound = sound_listings(lines, &planned, random);
        let stated = random.one_of(&sound);
        if !within_limits(&stated) {
            return;
        }
        plans += 1;
        for (what, passed) in wrong_counts(lines, &stated, random) {
            let entries = stated.clone();
            let text = print_stated(lines, &Stated { passed, ..entries });
            let right = || planned.passed_by_node.clone();
            assert_eq!(check_listing_of(lines, &text, right), Some(22), "{what}");
            *ways.entry(what).or_insert(0) += 1;
        }
    });
    println!("of {plans} plans: {ways:?}");
    assert_eq!(ways.len(), 13);
    assert!(ways.values().all(|&count| count > 100), "{ways:?}");
}

/// Of so many plans of a kind: how many have slots in another order than their nodes, how many several
/// different counts, how many both, how many counts that differ in slot order, and how many counts
/// that differ by receiver.
fn shares(kind: Kind, count: u64) -> [usize; 5] {
    let mut shares = [0; 5];
    for seed in 0..count {
        let lines = plan(kind, &mut Random::new(seed));
        let planned = planned(&lines);
        let receivers = by_receiver(&lines, &entries(&planned.words));
        let so = [
            turned(&lines),
            several(&planned),
            turned(&lines) && several(&planned),
            in_slot_order(&lines, &planned.passed_by_node) != planned.passed_by_node,
            receivers != planned.passed_by_node,
        ];
        for (share, so) in shares.iter_mut().zip(so) {
            *share += usize::from(so);
        }
    }
    println!("{kind:?}: {shares:?} of {count}");
    shares
}

/// Slots stand in another order in many plans of every kind, and in all of the largest; and where the
/// bus is busy, most plans have different counts.
#[test]
fn random_plans_show_whose_count_it_is() {
    for kind in KINDS {
        let count = if kind == Kind::Largest { 20 } else { 200 };
        let shares = shares(kind, count);
        let least = match kind {
            Kind::Tiny => [70, 1, 1, 20, 40],
            Kind::DenseBus => [150, 150, 130, 140, 180],
            Kind::ManyConditions => [130, 110, 100, 120, 150],
            Kind::NestedAny => [130, 0, 0, 0, 0],
            Kind::Largest => [19, 19, 19, 19, 19],
            Kind::LongestRound => [190, 80, 80, 130, 130],
            Kind::ShortestRound => [70, 20, 15, 40, 70],
            Kind::UnevenBus => [200, 160, 160, 180, 190],
            Kind::LongGaps => [70, 35, 25, 50, 70],
        };
        let enough = shares
            .iter()
            .zip(least)
            .all(|(&share, least)| share >= least);
        assert!(enough, "{kind:?}: {shares:?}, at least {least:?}");
    }
}

/// The share of plans with several different counts among those that most tests look at.
#[test]
fn several_counts_are_common() {
    for (counts, least) in [(&MANY[..], 25), (&FEW[..], 20)] {
        let (mut found, mut turned_too, mut all) = (0, 0, 0);
        for_plans(30, counts, |lines, _| {
            let several = several(&planned(lines));
            found += u64::from(several);
            turned_too += u64::from(several && turned(lines));
            all += 1;
        });
        println!("{found} of {all} plans, {turned_too} of them with slots in another order");
        assert!(100 * found >= least * all, "{found} of {all}");
        assert!(10 * turned_too >= 8 * found, "{turned_too} of {found}");
    }
}
