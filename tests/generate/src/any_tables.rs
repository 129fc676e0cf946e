//! Tables about which nothing is promised: sound ones damaged twice or changed at random, entries
//! drawn at random, and words of any kind.

use crate::random::Random;
use crate::tables::{damaged, Table};
use reference::table::{entries, words, Entry, ENTRY_WORDS};
use reference::Lines;

/// The highest tick that an entry may have.
const LAST_TICK: u32 = 999_999_999;

/// Numbers at which something changes: the least, the greatest, and those about a limit.
const LIMITS: [u32; 9] = [
    0,
    1,
    63,
    64,
    LAST_TICK,
    LAST_TICK + 1,
    1 << 31,
    u32::MAX - 1,
    u32::MAX,
];

/// A sound table damaged for two refusals, for the later one first, or nothing where it has no room
/// for both.
pub fn damaged_twice(
    lines: &Lines,
    table: &Table,
    first: u8,
    second: u8,
    random: &mut Random,
) -> Option<Table> {
    let table = damaged(lines, table, second, random)?;
    if table.words.is_empty() {
        return None;
    }
    damaged(lines, &table, first, random)
}

/// A table with one to three of its words changed: by a little, to the word of another entry, or to
/// any.
pub fn changed(table: &[u32], random: &mut Random) -> Vec<u32> {
    let mut table = table.to_vec();
    if table.is_empty() {
        return table;
    }
    for _ in 0..random.between(1, 3) {
        let place = random.index(table.len());
        table[place] = changed_word(&table, place, random);
    }
    table
}

fn changed_word(table: &[u32], place: usize, random: &mut Random) -> u32 {
    let word = table[place];
    let of_its_kind = (place % ENTRY_WORDS..table.len()).step_by(ENTRY_WORDS);
    match random.below(6) {
        0 => word.wrapping_add(1),
        1 => word.wrapping_sub(1),
        2 => word ^ 1 << random.below(32),
        3 => random.one_of(&LIMITS),
        4 => random.bits() as u32,
        _ => {
            let others: Vec<u32> = of_its_kind.map(|other| table[other]).collect();
            random.one_of(&others)
        }
    }
}

/// A table with one entry, some entries or all at about the last tick that an entry may have, or
/// beyond.
pub fn far_ticks(table: &[u32], random: &mut Random) -> Vec<u32> {
    let mut all = entries(table);
    let percent = random.one_of(&[5, 30, 100]);
    let beyond = random.percent(20);
    for entry in &mut all {
        if random.percent(percent) {
            let before = random.below(3) as u32;
            let after = LAST_TICK + 1 + before;
            let far = random.one_of(&[after, u32::MAX - before, 1 << 31]);
            entry.tick = if beyond { far } else { LAST_TICK - before };
        }
    }
    words(&all)
}

/// Entries drawn at random, with rows, bits and places that are mostly the plan's.
pub fn random_entries(lines: &Lines, random: &mut Random) -> Vec<u32> {
    let count = random.below(2 * lines.rows() as u64 + 1);
    let wrong = random.one_of(&[0, 0, 2]);
    let all: Vec<Entry> = (0..count)
        .map(|_| random_entry(lines, wrong, random))
        .collect();
    words(&all)
}

/// An entry whose row and known bits are each one of the limits in so many cases of a hundred.
fn random_entry(lines: &Lines, wrong: u64, random: &mut Random) -> Entry {
    let row = random.below(lines.rows() as u64) as u32;
    let some = random.below(1 << lines.conditions.len()) as u32;
    let known = random.one_of(&[0, some]);
    let is_item = row >= lines.processes.len() as u32;
    let mut word = |right: u32| match random.percent(wrong) {
        true => random.one_of(&LIMITS),
        false => right,
    };
    let (row, known) = (word(row), word(known));
    Entry {
        row,
        known,
        values: random.bits() as u32 & known,
        tick: random.below(100) as u32,
        place: if is_item { random.below(64) as u32 } else { 0 },
    }
}

/// Words of any kind, up to so many: all of them random bits, or each one of the limits.
pub fn random_words(most: u64, random: &mut Random) -> Vec<u32> {
    let limits = random.percent(50);
    (0..random.below(most + 1))
        .map(|_| match limits {
            true => random.one_of(&LIMITS),
            false => random.bits() as u32,
        })
        .collect()
}
