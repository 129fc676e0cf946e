//! Runs of accepted tables, and demand 3.

use generate::tables::{sound_variants, Table};
use generate::{Kind, Random};
use reference::lookup::{c_lookup, first_entry, lookup, Answer, Question};
use reference::run::run_over;
use reference::table::entries;
use reference::who_runs::combinations;
use reference::{check, print, run, Lines};
use suite::{for_plans, full_times, planned, question, random_times, FEW};

/// The planner's table.
fn planned_table(lines: &Lines) -> Table {
    let planned = planned(lines);
    Table {
        words: planned.words,
        delay: planned.delay,
    }
}

/// Asserts demand 3 for every combination of an accepted table.
fn demand_three(lines: &Lines, table: &Table, random: &mut Random) {
    let mut answers = |asked: Question| first_entry(lines, &table.words, asked);
    let mut last_ends = Vec::new();
    for combination in combinations(lines) {
        let times = random_times(lines, random);
        let short = run(lines, &table.words, combination, &times, &mut answers);
        assert!(short.keeps_demand_three(table.delay), "{table:?} {times:?}");
        let times = full_times(lines);
        let full = run(lines, &table.words, combination, &times, &mut answers);
        assert!(full.keeps_demand_three(table.delay), "{table:?}");
        last_ends.extend(full.last_end());
    }
    assert_eq!(last_ends.into_iter().max(), Some(table.delay));
}

#[test]
fn planned_tables_keep_demand_three() {
    for_plans(41, &FEW, |lines, random| {
        demand_three(lines, &planned_table(lines), random);
    });
}

#[test]
fn the_largest_plans_keep_demand_three() {
    for_plans(42, &[(Kind::Largest, 1)], |lines, random| {
        demand_three(lines, &planned_table(lines), random);
    });
}

#[test]
fn sound_tables_that_no_planner_made_keep_demand_three() {
    let kinds = [
        (Kind::Tiny, 300),
        (Kind::NestedAny, 30),
        (Kind::ShortestRound, 40),
        (Kind::LongGaps, 40),
    ];
    for_plans(43, &kinds, |lines, random| {
        for table in sound_variants(lines, &planned_table(lines), random) {
            demand_three(lines, &table, random);
        }
    });
}

#[test]
fn skipping_ticks_changes_nothing() {
    for_plans(
        48,
        &[(Kind::Tiny, 300), (Kind::NestedAny, 30)],
        |lines, random| {
            let mut table = planned_table(lines);
            if random.percent(50) {
                nudge(lines, &mut table, random);
            }
            let ticks: Vec<u64> = (0..table.delay.min(2_000) + 5).collect();
            let mut answers = |asked: Question| first_entry(lines, &table.words, asked);
            for combination in combinations(lines) {
                let times = random_times(lines, random);
                let words = &table.words;
                let every = run_over(&ticks, lines, words, combination, &times, &mut answers);
                let mut some = run(lines, words, combination, &times, &mut answers);
                some.starts.retain(|s| ticks.contains(&s.tick));
                some.items.retain(|i| ticks.contains(&i.tick));
                assert_eq!((every.starts, every.items), (some.starts, some.items));
            }
        },
    );
}

/// Changes some words of a table a little, mostly ticks, and states the last end as delay.
fn nudge(lines: &Lines, table: &mut Table, random: &mut Random) {
    for _ in 0..random.between(1, 3) {
        let any_word = random.below(5) as usize;
        let word = random.index(table.words.len() / 5) * 5 + random.one_of(&[3, 3, 3, any_word]);
        let change = random.one_of(&[1, 2, 5, u32::MAX, u32::MAX - 1]);
        table.words[word] = table.words[word].wrapping_add(change);
    }
    let starts = table.words.chunks(5);
    let starts = starts.filter(|w| (w[0] as usize) < lines.processes.len());
    let ends = starts.map(|w| u64::from(w[3]) + lines.processes[w[0] as usize].ticks);
    table.delay = ends.max().unwrap_or(0);
}

#[test]
fn whatever_is_accepted_keeps_demand_three() {
    let mut accepted = 0;
    let kinds = [(Kind::Tiny, 2_000), (Kind::NestedAny, 200)];
    for_plans(44, &kinds, |lines, random| {
        for _ in 0..4 {
            let mut table = planned_table(lines);
            nudge(lines, &mut table, random);
            if check(lines, &table.words, table.delay).is_none() {
                demand_three(lines, &table, random);
                accepted += 1;
            }
        }
    });
    assert!(accepted > 500, "{accepted}");
}

#[test]
fn full_ticks_give_the_delay_of_each_combination() {
    for_plans(45, &FEW, |lines, _| {
        let planned = planned(lines);
        let times = full_times(lines);
        let mut answers = |asked: Question| lookup(lines, &planned.words, asked);
        for combination in combinations(lines) {
            let run = run(lines, &planned.words, combination, &times, &mut answers);
            assert_eq!(run.last_end(), Some(planned.delays[combination as usize]));
        }
    });
}

#[test]
fn the_lookup_over_bytes_answers_as_the_one_over_words() {
    for_plans(46, &[(Kind::Tiny, 500)], |lines, random| {
        let table = planned_table(lines).words;
        let text = print(lines);
        let mut bytes: Vec<u8> = table.iter().flat_map(|w| w.to_le_bytes()).collect();
        bytes.extend(vec![0; random.index(20)]);
        for _ in 0..20 {
            let tick = u64::from(table[random.index(table.len())]);
            let (heard, values) = (random.below(8), random.below(8));
            let asked = question(random.below(4), tick, heard, values, random.below(3));
            let answer = lookup(lines, &table, asked);
            assert_eq!(c_lookup(&text, &bytes, asked), answer.number());
        }
    });
}

/// The numbers of all entries that the units are given at any tick, if all values are heard.
fn given(lines: &Lines, table: &[u32], combination: u32) -> Vec<u64> {
    let mut ticks: Vec<u32> = entries(table).iter().map(|e| e.tick).collect();
    ticks.sort_unstable();
    ticks.dedup();
    let mut given = Vec::new();
    for tick in ticks {
        for node in 0..lines.slots.len() as u64 {
            let mut asked = question(node, tick.into(), 63, combination.into(), 0);
            while let Answer::Entry(number) = first_entry(lines, table, asked) {
                asked.begin = number + 1;
                given.push(number);
            }
        }
    }
    given.sort_unstable();
    given
}

#[test]
fn asking_on_one_past_each_answer_gives_every_met_entry_once() {
    for_plans(47, &FEW, |lines, _| {
        let table = planned_table(lines).words;
        for combination in combinations(lines) {
            let met = (0u64..).zip(entries(&table));
            let met = met.filter(|(_, entry)| entry.met(combination));
            let met: Vec<u64> = met.map(|(number, _)| number).collect();
            assert_eq!(given(lines, &table, combination), met);
        }
    });
}
