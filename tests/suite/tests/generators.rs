//! That the random plans are what their kinds say, so that the properties are tried on them.

use generate::broken::broken;
use generate::frames::{fewest_entries, with_frames, FEWEST_FRAMES, MOST_FRAMES};
use generate::tables::{damaged, Table};
use generate::{plan, Kind, Random, KINDS};
use reference::bus::{round_ticks, slot_of, slot_ticks};
use reference::table::{entries, frames, row, row_bytes, row_node, Frame};
use reference::{refuse_plan, Lines, Pick, Waits};
use suite::{full_times, planned, With};

/// The first random plans of a kind.
fn plans(kind: Kind, count: u64) -> Vec<Lines> {
    let seeds = 0..count;
    seeds
        .map(|seed| plan(kind, &mut Random::new(seed)))
        .collect()
}

#[test]
fn a_seed_gives_the_same_plan_again() {
    for kind in KINDS {
        assert_eq!(plans(kind, 10), plans(kind, 10));
    }
}

#[test]
fn every_kind_is_without_refusal_and_has_both_picks() {
    for kind in KINDS {
        let plans = plans(kind, 100);
        assert!(plans.iter().all(|lines| refuse_plan(lines).is_none()));
        for pick in [Pick::Urgency, Pick::Number] {
            assert!(plans.iter().any(|lines| lines.plan.pick == pick));
        }
    }
}

#[test]
fn the_largest_plans_are_as_large_as_allowed() {
    for lines in plans(Kind::Largest, 20) {
        let sizes = (lines.slots.len(), lines.processes.len());
        assert_eq!(sizes, (8, 64));
        assert_eq!((lines.conditions.len(), lines.edges.len()), (6, 128));
    }
}

#[test]
fn the_longest_and_the_shortest_rounds_occur() {
    let longest = plans(Kind::LongestRound, 40);
    assert!(longest.iter().all(|lines| round_ticks(lines) >= 512_000));
    let with_longest_head = longest.iter().filter(|lines| lines.plan.head == 16);
    for lines in with_longest_head.clone() {
        assert_eq!(
            (slot_ticks(lines, 7), round_ticks(lines)),
            (80_000, 640_000)
        );
    }
    assert!(with_longest_head.count() > 20);
    let shortest = plans(Kind::ShortestRound, 20);
    assert!(shortest.iter().any(|lines| round_ticks(lines) == 1));
}

#[test]
fn every_kind_has_no_head_the_longest_and_others() {
    for kind in KINDS {
        let heads: Vec<u64> = plans(kind, 200).iter().map(|l| l.plan.head).collect();
        let count = |is_so: fn(u64) -> bool| heads.iter().filter(|&&head| is_so(head)).count();
        assert!(count(|head| head == 0) >= 5, "{kind:?}");
        assert!(count(|head| head == 16) >= 10, "{kind:?}");
        assert!(count(|head| (1..16).contains(&head)) >= 20, "{kind:?}");
    }
    let tiny = plans(Kind::Tiny, 400);
    for head in 0..=16 {
        assert!(tiny.iter().any(|lines| lines.plan.head == head), "{head}");
    }
}

/// The rounds from the start of a process to its end, of the process with most of them.
fn longest_gap(lines: &Lines) -> u64 {
    let ticks = lines.processes.iter().map(|p| p.ticks).max().unwrap();
    ticks / round_ticks(lines)
}

/// Rounds of 1, 2 and 3 ticks, powers of two and others, and processes that outlast 10,000 of them.
#[test]
fn long_gaps_are_many_rounds_of_few_ticks() {
    let plans = plans(Kind::LongGaps, 200);
    let rounds: Vec<u64> = plans.iter().map(round_ticks).collect();
    let count = |is_so: fn(u64) -> bool| rounds.iter().filter(|&&round| is_so(round)).count();
    assert!(count(|round| round == 1) >= 20);
    assert!(count(|round| round == 2) >= 20);
    assert!(count(|round| round == 3) >= 20);
    assert!(count(|round| round > 3 && round.is_power_of_two()) >= 10);
    assert!(count(|round| round > 3 && !round.is_power_of_two()) >= 40);
    let far = plans.iter().filter(|lines| longest_gap(lines) >= 10_000);
    assert!(far.count() >= 120);
}

/// Mostly long processes, now and then the longest or short ones.
#[test]
fn long_gaps_have_long_processes() {
    let plans = plans(Kind::LongGaps, 200);
    let ticks: Vec<u64> = plans.iter().flat_map(full_times).collect();
    let percent = |is_so: fn(u64) -> bool| {
        let found = ticks.iter().filter(|&&ticks| is_so(ticks)).count();
        100 * found / ticks.len()
    };
    assert!(percent(|ticks| (50_000..100_000).contains(&ticks)) >= 60);
    assert!(percent(|ticks| ticks == 100_000) >= 10);
    assert!(percent(|ticks| ticks < 10) >= 10);
}

/// Items of long gaps that are sent 10,000 rounds and more after the last item before them.
#[test]
fn long_gaps_lie_between_frames() {
    let plans = plans(Kind::LongGaps, 100);
    let far = plans.iter().filter(|lines| {
        let used = frames(&planned(lines).frames);
        let apart = |two: &[Frame]| u64::from(two[1].tick - two[0].tick) / round_ticks(lines);
        used.windows(2).any(|two| apart(two) >= 10_000)
    });
    assert!(far.count() >= 40);
}

/// Frames with a head whose data fill their slot, and items that are passed over all the same.
#[test]
fn slots_with_a_head_are_full() {
    for (kind, of_plans, least) in [
        (Kind::Tiny, 400, 100),
        (Kind::DenseBus, 100, 60),
        (Kind::ManyConditions, 50, 30),
    ] {
        let plans = plans(kind, of_plans).into_iter();
        let full = plans.filter(|lines| {
            let used = frames(&planned(lines).frames);
            let bytes_of = |node: u32| lines.slots[slot_of(lines, node.into())].bytes;
            let mut full = used
                .iter()
                .filter(|f| u64::from(f.bytes) == bytes_of(f.node));
            lines.plan.head > 0 && full.next().is_some()
        });
        let full: Vec<Lines> = full.collect();
        assert!(full.len() >= least, "{kind:?}: {}", full.len());
        if kind == Kind::DenseBus {
            let passed = full.iter().filter(|lines| planned(lines).passed > 0);
            assert!(passed.count() > 40);
        }
    }
}

/// Sizes are broken by the head alone, by one byte and by nine digits as well.
#[test]
fn sizes_are_broken_by_the_head() {
    let mut heads = Vec::new();
    for seed in 0..400 {
        let mut random = Random::new(seed);
        let lines = plan(Kind::Tiny, &mut random);
        let broken = broken(&lines, 3, &mut random).unwrap();
        assert_eq!(refuse_plan(&broken), Some(3));
        if broken.plan.head != lines.plan.head {
            assert_eq!(broken.clone().head(lines.plan.head), lines);
            heads.push(broken.plan.head);
        }
    }
    let count = |is_so: fn(u64) -> bool| heads.iter().filter(|&&head| is_so(head)).count();
    assert!(heads.iter().all(|&head| head > 16) && heads.len() > 50);
    assert!(count(|head| head == 17) > 10);
    assert!(count(|head| (18..1_000).contains(&head)) > 10);
    assert!(count(|head| head == 999_999_999) > 2);
}

/// Messages too long for the data of a slot, but not for data and head.
#[test]
fn lengths_are_broken_within_the_head() {
    let (mut within, mut beyond) = (0, 0);
    for seed in 0..400 {
        let mut random = Random::new(seed);
        let lines = plan(Kind::Tiny, &mut random);
        let Some(mut broken) = broken(&lines, 9, &mut random) else {
            continue;
        };
        assert_eq!(refuse_plan(&broken), Some(9));
        for slot in &mut broken.slots {
            slot.bytes += lines.plan.head;
        }
        match refuse_plan(&broken) {
            None => within += 1,
            _ => beyond += 1,
        }
    }
    assert!(within > 50 && beyond > 50, "{within} {beyond}");
}

/// Items past the last byte of their slot's data, but not past data and head.
#[test]
fn places_are_damaged_within_the_head() {
    let (mut within, mut others) = (0, 0);
    for seed in 0..400 {
        let mut random = Random::new(seed);
        let lines = plan(Kind::Tiny, &mut random);
        let planned = planned(&lines);
        let table = Table {
            words: planned.words,
            delay: planned.delay,
        };
        let Some(table) = damaged(&lines, &table, 19, &mut random) else {
            continue;
        };
        let passed = entries(&table.words).into_iter().find_map(|entry| {
            let item = row(&lines, entry.row).unwrap();
            let bytes = lines.slots[slot_of(&lines, row_node(&lines, item))].bytes;
            let last = u64::from(entry.place) + row_bytes(&lines, item);
            last.checked_sub(bytes).filter(|&past| past > 0)
        });
        match passed {
            Some(past) if past <= lines.plan.head => within += 1,
            _ => others += 1,
        }
    }
    assert!(within > 40 && others > 40, "{within} {others}");
}

#[test]
fn items_are_passed_over_on_a_dense_bus() {
    let plans = plans(Kind::DenseBus, 100);
    let passed = plans.iter().filter(|lines| planned(lines).passed > 0);
    assert!(passed.count() > 50);
}

#[test]
fn nested_plans_have_any_processes_with_several_inputs() {
    for lines in plans(Kind::NestedAny, 50) {
        let into = lines.edges_into();
        let joins = (0..into.len()).filter(|&p| lines.processes[p].waits == Waits::Any);
        assert!(joins.clone().count() > 0);
        assert!(joins.clone().all(|p| into[p].len() == 2));
    }
}

#[test]
fn many_conditions_give_columns_with_several_values() {
    let plans = plans(Kind::ManyConditions, 50);
    let rich = plans.iter().filter(|lines| {
        let table = planned(lines).words;
        table.chunks(5).any(|entry| entry[1].count_ones() >= 4)
    });
    assert!(rich.count() > 10);
}

#[test]
fn plans_with_frames_have_as_many_frames_and_entries_as_asked() {
    let random = &mut Random::new(61);
    let mut frames = vec![
        FEWEST_FRAMES,
        1_000,
        1_999,
        2_000,
        2_001,
        2_047,
        MOST_FRAMES,
    ];
    frames.extend((0..30).map(|_| random.between(FEWEST_FRAMES, MOST_FRAMES)));
    let mut heads = Vec::new();
    for frames in frames {
        let entries = fewest_entries(frames) + random.between(0, 127);
        let lines = with_frames(frames, entries, random);
        heads.push(lines.plan.head);
        assert_eq!(refuse_plan(&lines), None);
        let planned = planned(&lines);
        let counted = (
            planned.frames.len() as u64 / 3,
            planned.words.len() as u64 / 5,
        );
        assert_eq!(counted, (frames, entries));
    }
    assert!(heads.contains(&0) && heads.contains(&16), "{heads:?}");
}
