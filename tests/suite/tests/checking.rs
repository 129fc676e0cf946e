//! The checker on damaged tables and on sound tables that no planner made.

use generate::tables::{
    damaged, last_end, merged, sound_variants, split_column, stretched, Table, NUMBERS,
};
use generate::{Kind, Random};
use reference::check;
use reference::Lines;
use suite::{for_plans, planned, FEW};

/// The planner's table.
fn planned_table(lines: &Lines) -> Table {
    let planned = planned(lines);
    Table {
        words: planned.words,
        delay: planned.delay,
    }
}

/// Damages a sound table for every refusal, and counts how often that was possible.
fn damage_for_all(lines: &Lines, table: &Table, found: &mut [u64; 21], random: &mut Random) {
    for number in NUMBERS {
        for _ in 0..3 {
            if let Some(damaged) = damaged(lines, table, number, random) {
                let answer = check(lines, &damaged.words, damaged.delay);
                assert_eq!(answer, Some(number), "{table:?} became {damaged:?}");
                found[number as usize] += 1;
            }
        }
    }
}

#[test]
fn damaged_tables_get_the_refusal_of_their_damage() {
    let mut found = [0; 21];
    for_plans(31, &FEW, |lines, random| {
        damage_for_all(lines, &planned_table(lines), &mut found, random);
    });
    assert!(found[12..].iter().all(|&count| count > 200), "{found:?}");
}

#[test]
fn damaged_tables_that_no_planner_made_as_well() {
    let mut found = [0; 21];
    for_plans(
        32,
        &[(Kind::Tiny, 300), (Kind::NestedAny, 30)],
        |lines, random| {
            for table in sound_variants(lines, &planned_table(lines), random) {
                damage_for_all(lines, &table, &mut found, random);
            }
        },
    );
    assert!(found[12..].iter().all(|&count| count > 200), "{found:?}");
}

#[test]
fn sound_tables_that_no_planner_made_are_accepted() {
    let mut variants = 0;
    for_plans(33, &FEW, |lines, random| {
        for table in sound_variants(lines, &planned_table(lines), random) {
            assert_eq!(check(lines, &table.words, table.delay), None, "{table:?}");
            variants += 1;
        }
    });
    assert!(variants > 3_000, "{variants}");
}

#[test]
fn columns_may_name_more_or_fewer_of_the_known_values() {
    let (mut more, mut fewer) = (0, 0);
    let kinds = [(Kind::ManyConditions, 60), (Kind::DenseBus, 60)];
    for_plans(35, &kinds, |lines, random| {
        let planned = planned_table(lines);
        if let Some(table) = merged(&planned) {
            assert_eq!(check(lines, &table.words, table.delay), None);
            fewer += 1;
        }
        for _ in 0..10 {
            let stretched = stretched(lines, &planned, random).unwrap();
            if let Some(table) = split_column(lines, &stretched, random) {
                assert_eq!(check(lines, &table.words, table.delay), None);
                more += 1;
            }
        }
    });
    assert!(more > 30 && fewer > 30, "{more} {fewer}");
}

#[test]
fn every_entry_of_a_planned_table_is_needed() {
    for_plans(34, &FEW, |lines, _| {
        let table = planned_table(lines);
        assert_eq!(last_end(lines, &table.words), table.delay);
        for first in (0..table.words.len()).step_by(5) {
            let mut words = table.words.clone();
            words.drain(first..first + 5);
            assert_eq!(check(lines, &words, table.delay), Some(14));
        }
    });
}
