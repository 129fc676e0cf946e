//! Tables that one of refusals 12 to 20 applies to, and sound tables that no planner made.

use crate::random::Random;
use reference::bus::{begins_at, next_beginning, round_ticks, slot_of, slot_ticks_of};
use reference::check::{due, Course};
use reference::table::{
    entries, in_order, row, row_bytes, row_node, row_number, row_process, words, Entry, Row,
};
use reference::who_runs::{combinations, who_runs, Combination};
use reference::Lines;

/// The refusals that a table can meet.
pub const NUMBERS: [u8; 9] = [12, 13, 14, 15, 16, 17, 18, 19, 20];

/// The highest tick that an entry may have.
const LAST_TICK: u64 = 999_999_999;

/// A table with a stated delay.
#[derive(Clone, Debug, PartialEq, Eq)]
pub struct Table {
    /// The words.
    pub words: Vec<u32>,
    /// The stated delay.
    pub delay: u64,
}

/// Changes a sound table so that a refusal is surely the first that applies, or gives nothing where
/// the table has no room for it.
pub fn damaged(lines: &Lines, table: &Table, number: u8, random: &mut Random) -> Option<Table> {
    let mut table = table.clone();
    if number == 20 {
        table.delay = wrong_delay(table.delay, random);
        return Some(table);
    }
    table.words = match number {
        12 => stray_words(&table.words, random),
        13 => damage_entry(lines, &table.words, random)?,
        14 => damage_rows(lines, &table.words, random)?,
        15 => use_unknown(lines, &table.words, random)?,
        16 => too_early(lines, &table.words, random)?,
        17 => outside_slot(lines, &table.words, random)?,
        18 => overlap(lines, &table.words, random)?,
        _ => damage_place(lines, &table.words, random)?,
    };
    Some(table)
}

fn wrong_delay(delay: u64, random: &mut Random) -> u64 {
    random.one_of(&[delay - 1, delay + 1, 0, delay + (1 << 32), u64::MAX])
}

/// Words added or taken away, so that they are not a multiple of five.
fn stray_words(table: &[u32], random: &mut Random) -> Vec<u32> {
    let mut table = table.to_vec();
    let count = random.between(1, 4) as usize;
    if random.percent(50) {
        table.truncate(table.len() - count);
    } else {
        table.extend(std::iter::repeat_n(random.bits() as u32, count));
    }
    table
}

/// An entry that is wrong by itself, in place of a sound one or added to the table.
fn damage_entry(lines: &Lines, table: &[u32], random: &mut Random) -> Option<Vec<u32>> {
    let mut all = entries(table);
    let number = random.index(all.len());
    let entry = wrong_entry(lines, all[number], random)?;
    if random.percent(25) {
        all.push(entry);
    } else {
        all[number] = entry;
    }
    Some(words(&all))
}

fn wrong_entry(lines: &Lines, mut entry: Entry, random: &mut Random) -> Option<Entry> {
    let conditions = lines.conditions.len() as u64;
    match random.below(7) {
        0 => entry.row = random.one_of(&[lines.rows() as u32, u32::MAX, 1 << 16]),
        1 => {
            let local: Vec<usize> = (0..lines.edges.len()).filter(|&e| lines.local(e)).collect();
            entry.row = (lines.processes.len() + random.some_of(&local)?) as u32;
        }
        2 => entry.known |= 1 << random.between(conditions, 31),
        3 => {
            let free: Vec<u32> = (0..32).filter(|b| entry.known >> b & 1 == 0).collect();
            entry.values |= 1 << random.one_of(&free);
        }
        4 => entry.tick = random.one_of(&[1_000_000_000, u32::MAX]),
        5 => entry.place = random.one_of(&[64, u32::MAX]),
        _ if entry.row < lines.processes.len() as u32 => {
            entry.place = random.between(1, 63) as u32;
        }
        _ => return None,
    }
    Some(entry)
}

/// An entry removed, doubled, or met in other combinations than it was.
fn damage_rows(lines: &Lines, table: &[u32], random: &mut Random) -> Option<Vec<u32>> {
    let mut all = entries(table);
    let number = random.index(all.len());
    let entry = all[number];
    let conditions = 0..lines.conditions.len() as u32;
    let (known, unknown): (Vec<u32>, Vec<u32>) =
        conditions.partition(|c| entry.known >> c & 1 == 1);
    match random.below(6) {
        0 => drop(all.remove(number)),
        1 => all.push(entry),
        2 if entry.known != 0 => (all[number].known, all[number].values) = (0, 0),
        3 => {
            let bit = 1 << random.some_of(&known)?;
            all[number].known &= !bit;
            all[number].values &= !bit;
        }
        4 => all[number].values ^= 1 << random.some_of(&known)?,
        5 => {
            let bit = 1 << random.some_of(&unknown)?;
            all[number].known |= bit;
            all[number].values |= random.one_of(&[0, bit]);
        }
        _ => return None,
    }
    Some(words(&all))
}

/// The combinations in which an entry is met, with their courses.
fn courses_of<'a>(
    lines: &'a Lines,
    all: &[Entry],
    entry: &Entry,
) -> Vec<(Combination, Course<'a>)> {
    combinations(lines)
        .filter(|&c| entry.met(c))
        .map(|c| (c, Course::of(lines, all, c)))
        .collect()
}

/// The conditions that an entry's column names.
fn named(lines: &Lines, entry: &Entry) -> Vec<usize> {
    (0..lines.conditions.len())
        .filter(|c| entry.known >> c & 1 == 1)
        .collect()
}

/// The first tick from which on all values that an entry's column names are known, in every
/// combination in which the entry is met.
fn column_known_from(lines: &Lines, all: &[Entry], entry: &Entry) -> u64 {
    let courses = courses_of(lines, all, entry);
    let named = named(lines, entry);
    courses
        .iter()
        .flat_map(|(_, course)| named.iter().map(|&c| course.known_from(c).unwrap()))
        .max()
        .unwrap_or(0)
}

/// An entry that stands before a value of its column is known, or a broadcast that is late for a
/// column.
fn use_unknown(lines: &Lines, table: &[u32], random: &mut Random) -> Option<Vec<u32>> {
    let mut all = entries(table);
    if random.percent(30) {
        return late_broadcast(lines, all, random);
    }
    let with_column: Vec<usize> = (0..all.len()).filter(|&e| all[e].known != 0).collect();
    let number = random.some_of(&with_column)?;
    let known_from = column_known_from(lines, &all, &all[number]);
    all[number].tick = random.one_of(&[0, known_from as u32 - 1]);
    Some(words(&all))
}

/// A broadcast moved so far that its value is not known by the tick of a column that names it.
fn late_broadcast(lines: &Lines, mut all: Vec<Entry>, random: &mut Random) -> Option<Vec<u32>> {
    let with_column: Vec<usize> = (0..all.len()).filter(|&e| all[e].known != 0).collect();
    let user = all[random.some_of(&with_column)?];
    let condition = random.one_of(&named(lines, &user));
    let course = random.one_of(
        &combinations(lines)
            .filter(|&c| user.met(c))
            .collect::<Vec<_>>(),
    );
    let condition_row = (lines.processes.len() + lines.edges.len() + condition) as u32;
    let broadcast = all
        .iter()
        .position(|e| e.row == condition_row && e.met(course))?;
    all[broadcast].tick = user.tick;
    Some(words(&all))
}

/// A process that starts a tick or more before an input has come, or an item that is sent so before
/// its sender's end, with every value of its column known all the same.
fn too_early(lines: &Lines, table: &[u32], random: &mut Random) -> Option<Vec<u32>> {
    let mut all = entries(table);
    let number = random.index(all.len());
    let entry = all[number];
    let courses = courses_of(lines, &all, &entry);
    let (combination, course) = &courses[random.index(courses.len())];
    let first_allowed = match row(lines, entry.row)? {
        Row::Process(process) => inputs_come(lines, *combination, course, process)?,
        item => course.end(row_process(lines, item))?,
    };
    let known_from = column_known_from(lines, &all, &entry);
    let tick = first_allowed - 1;
    if tick < known_from {
        return None;
    }
    let any = random.between(known_from, tick);
    all[number].tick = random.one_of(&[tick, any]) as u32;
    Some(words(&all))
}

/// The tick at which the last carrying edge into a process delivers, if one carries.
fn inputs_come(
    lines: &Lines,
    combination: Combination,
    course: &Course,
    process: usize,
) -> Option<u64> {
    let who = who_runs(lines, combination);
    (0..lines.edges.len())
        .filter(|&e| lines.edges[e].to == process as u64 && who.carries[e])
        .filter_map(|e| course.delivered_from(e))
        .max()
}

/// Everything from an item's tick on moved by less than a round.
fn outside_slot(lines: &Lines, table: &[u32], random: &mut Random) -> Option<Vec<u32>> {
    let round = round_ticks(lines);
    if round == 1 {
        return None;
    }
    let items: Vec<Entry> = entries(table)
        .into_iter()
        .filter(|e| e.row as usize >= lines.processes.len())
        .collect();
    let from = u64::from(random.some_of(&items)?.tick);
    let ticks = random.between(1, round - 1);
    moved_from(table, from, random.one_of(&[1, ticks]))
}

/// Two processes on one node at one time: one that nobody waits for moved later, or one that waits
/// for nobody moved earlier.
fn overlap(lines: &Lines, table: &[u32], random: &mut Random) -> Option<Vec<u32>> {
    let mut all = entries(table);
    let starts: Vec<usize> = (0..all.len())
        .filter(|&e| (all[e].row as usize) < lines.processes.len())
        .collect();
    let mut moves = Vec::new();
    for &moved in &starts {
        for &other in &starts {
            let range = overlap_ticks(lines, &all[moved], &all[other]);
            moves.extend(range.map(|range| (moved, range)));
        }
    }
    let (moved, range) = random.some_of(&moves)?;
    all[moved].tick = random.within(range) as u32;
    Some(words(&all))
}

/// The ticks to which the first start can be moved so that it overlaps the second on a node while
/// nothing else is disturbed.
fn overlap_ticks(lines: &Lines, moved: &Entry, other: &Entry) -> Option<(u64, u64)> {
    let (a, b) = (u64::from(moved.row), u64::from(other.row));
    let together = combinations(lines).any(|c| moved.met(c) && other.met(c));
    if a == b || lines.node(a) != lines.node(b) || !together {
        return None;
    }
    let (tick, other_tick) = (u64::from(moved.tick), u64::from(other.tick));
    let ticks = lines.processes[a as usize].ticks;
    let first = (other_tick + 1).saturating_sub(ticks);
    let last = other_tick + lines.processes[b as usize].ticks - 1;
    let nobody_waits = lines.edges.iter().all(|e| e.from != a) && lines.decides(a).is_none();
    let waits_for_nobody = lines.edges.iter().all(|e| e.to != a) && moved.known == 0;
    if nobody_waits && other_tick > tick && last <= LAST_TICK {
        Some((first.max(tick + 1), last))
    } else if waits_for_nobody && other_tick < tick {
        Some((first, last))
    } else {
        None
    }
}

/// An item that passes the last byte of its slot, or that lies on another of its frame.
fn damage_place(lines: &Lines, table: &[u32], random: &mut Random) -> Option<Vec<u32>> {
    let mut all = entries(table);
    let items: Vec<usize> = (0..all.len())
        .filter(|&e| all[e].row as usize >= lines.processes.len())
        .collect();
    let number = random.some_of(&items)?;
    let places = if random.percent(50) {
        places_past_last(lines, &all[number], random)
    } else {
        places_of_others(lines, &all, number)
    };
    all[number].place = random.some_of(&places)? as u32;
    Some(words(&all))
}

/// The places at which an item passes the last byte of its slot; or the first of them alone, as
/// many as the head has bytes, at which it would not pass if the head were data.
fn places_past_last(lines: &Lines, item: &Entry, random: &mut Random) -> Vec<u64> {
    let item_row = row(lines, item.row).unwrap();
    let slot = slot_of(lines, row_node(lines, item_row));
    let first = lines.slots[slot].bytes - row_bytes(lines, item_row) + 1;
    let with_head = first + lines.plan.head.max(1);
    (first..random.one_of(&[64, with_head.min(64)])).collect()
}

fn places_of_others(lines: &Lines, all: &[Entry], number: usize) -> Vec<u64> {
    let node = |item: &Entry| row_node(lines, row(lines, item.row).unwrap());
    let bytes = |item: &Entry| row_bytes(lines, row(lines, item.row).unwrap());
    let item = &all[number];
    (0..all.len())
        .filter(|&e| e != number && all[e].row as usize >= lines.processes.len())
        .map(|e| &all[e])
        .filter(|other| other.tick == item.tick && node(other) == node(item))
        .filter(|other| combinations(lines).any(|c| other.met(c) && item.met(c)))
        .flat_map(|other| {
            let place = u64::from(other.place);
            place..place + bytes(other)
        })
        .collect()
}

/// The entries from a tick on moved later by some ticks, or nothing where one would pass the last
/// tick. Whatever an entry waits for stands before it, so an order of things stays as it was.
fn moved_from(table: &[u32], from: u64, ticks: u64) -> Option<Vec<u32>> {
    let mut all = entries(table);
    for entry in all.iter_mut().filter(|e| u64::from(e.tick) >= from) {
        let tick = u64::from(entry.tick) + ticks;
        if tick > LAST_TICK {
            return None;
        }
        entry.tick = tick as u32;
    }
    Some(words(&all))
}

/// The greatest delay of a table each of whose entries is met in some combination: the last end.
pub fn last_end(lines: &Lines, table: &[u32]) -> u64 {
    entries(table)
        .iter()
        .filter(|e| (e.row as usize) < lines.processes.len())
        .map(|e| u64::from(e.tick) + lines.processes[e.row as usize].ticks)
        .max()
        .unwrap()
}

/// The table with its own delay.
fn with_delay(lines: &Lines, words: Vec<u32>) -> Table {
    Table {
        delay: last_end(lines, &words),
        words,
    }
}

/// Sound tables that no planner made, from a sound one.
pub fn sound_variants(lines: &Lines, table: &Table, random: &mut Random) -> Vec<Table> {
    let serial = serial(lines, random);
    let mut variants = vec![shuffled(table, random), fully_merged(&serial), serial];
    variants.extend(moved_by_rounds(lines, table, random));
    variants.extend(to_the_last_tick(lines, table));
    variants.extend(merged(table));
    for _ in 0..3 {
        let stretched = stretched(lines, table, random);
        variants.extend(
            stretched
                .iter()
                .flat_map(|t| split_column(lines, t, random)),
        );
        variants.extend(stretched);
    }
    variants
}

/// A serial table: one process after the other, each followed by its broadcast and then by its
/// messages, one a round and anywhere in the slot, with the same ticks in every combination.
pub fn serial(lines: &Lines, random: &mut Random) -> Table {
    let places = random_places(lines, random);
    let mut all = Vec::new();
    for combination in combinations(lines) {
        let who = who_runs(lines, combination);
        let (mut tick, mut known) = (0, 0);
        for row in serial_rows(lines) {
            let node = row_node(lines, row);
            if !matches!(row, Row::Process(_)) {
                tick = beginning_from(lines, slot_of(lines, node), tick);
            }
            let number = row_number(lines, row);
            let due = due(lines, &who, row);
            if due {
                all.push(Entry {
                    row: number,
                    known,
                    values: combination & known,
                    tick: tick as u32,
                    place: places[number as usize],
                });
            }
            tick += match row {
                Row::Process(process) => lines.processes[process].ticks,
                _ => slot_ticks_of(lines, node),
            };
            if let (Row::Condition(condition), true) = (row, due) {
                known |= 1 << condition;
            }
        }
    }
    with_delay(lines, words(&in_order(all)))
}

/// Each process, then its broadcast, then its messages between nodes.
fn serial_rows(lines: &Lines) -> Vec<Row> {
    let mut rows = Vec::new();
    for process in 0..lines.processes.len() {
        rows.push(Row::Process(process));
        rows.extend(lines.decides(process as u64).map(Row::Condition));
        let out = (0..lines.edges.len()).filter(|&e| lines.edges[e].from == process as u64);
        rows.extend(out.filter(|&e| !lines.local(e)).map(Row::Edge));
    }
    rows
}

/// The first beginning of a slot from a tick on.
fn beginning_from(lines: &Lines, slot: usize, tick: u64) -> u64 {
    if begins_at(lines, slot, tick) {
        tick
    } else {
        next_beginning(lines, slot, tick)
    }
}

/// For each row, a place in its slot that leaves room for its item, 0 for a process.
fn random_places(lines: &Lines, random: &mut Random) -> Vec<u32> {
    let mut place = |item: Row| match item {
        Row::Process(_) => 0,
        Row::Edge(edge) if lines.local(edge) => 0,
        _ => {
            let slot = slot_of(lines, row_node(lines, item));
            random.between(0, lines.slots[slot].bytes - row_bytes(lines, item)) as u32
        }
    };
    (0..lines.rows() as u32)
        .map(|number| place(row(lines, number).unwrap()))
        .collect()
}

/// The same entries in another order.
pub fn shuffled(table: &Table, random: &mut Random) -> Table {
    let mut all = entries(&table.words);
    random.shuffle(&mut all);
    Table {
        words: words(&all),
        delay: table.delay,
    }
}

/// Everything moved later by some rounds.
pub fn moved_by_rounds(lines: &Lines, table: &Table, random: &mut Random) -> Option<Table> {
    let ticks = random.between(1, 3) * round_ticks(lines);
    Some(with_delay(lines, moved_from(&table.words, 0, ticks)?))
}

/// Everything moved later by as many rounds as the last tick allows.
pub fn to_the_last_tick(lines: &Lines, table: &Table) -> Option<Table> {
    let last = entries(&table.words).iter().map(|e| e.tick).max()?;
    let rounds = (LAST_TICK - u64::from(last)) / round_ticks(lines);
    let moved = moved_from(&table.words, 0, rounds * round_ticks(lines))?;
    Some(with_delay(lines, moved))
}

/// Everything from some entry's tick on, or everything after it, moved later by some rounds.
pub fn stretched(lines: &Lines, table: &Table, random: &mut Random) -> Option<Table> {
    let all = entries(&table.words);
    let is_broadcast = |e: &&Entry| e.row as usize >= lines.processes.len() + lines.edges.len();
    let broadcasts: Vec<Entry> = all.iter().filter(is_broadcast).copied().collect();
    let from = match random.some_of(&broadcasts) {
        Some(broadcast) if random.percent(50) => broadcast.tick + 1,
        _ => random.one_of(&all).tick,
    };
    let ticks = random.between(1, 3) * round_ticks(lines);
    let moved = moved_from(&table.words, from.into(), ticks)?;
    Some(with_delay(lines, moved))
}

/// An entry replaced by two, one for each value of a condition that is known by its tick and that
/// its column does not name.
pub fn split_column(lines: &Lines, table: &Table, random: &mut Random) -> Option<Table> {
    let mut all = entries(&table.words);
    let courses: Vec<(Combination, Course)> = combinations(lines)
        .map(|c| (c, Course::of(lines, &all, c)))
        .collect();
    let candidates: Vec<(usize, usize)> = (0..all.len())
        .flat_map(|entry| (0..lines.conditions.len()).map(move |c| (entry, c)))
        .filter(|&(entry, c)| all[entry].known >> c & 1 == 0)
        .filter(|&(entry, c)| always_known(&courses, &all[entry], c))
        .collect();
    let (number, condition) = random.some_of(&candidates)?;
    let bit = 1 << condition;
    all[number].known |= bit;
    let mut on_true = all[number];
    on_true.values |= bit;
    all.push(on_true);
    Some(Table {
        words: words(&all),
        delay: table.delay,
    })
}

/// Whether a condition's value is known by an entry's tick in every combination in which the entry
/// is met.
fn always_known(courses: &[(Combination, Course)], entry: &Entry, condition: usize) -> bool {
    let mut met = courses.iter().filter(|(c, _)| entry.met(*c));
    met.all(|(_, course)| {
        let known_from = course.known_from(condition);
        known_from.is_some_and(|from| from <= u64::from(entry.tick))
    })
}

/// Two entries that differ in one value only, replaced by one that does not name the condition.
pub fn merged(table: &Table) -> Option<Table> {
    let mut all = entries(&table.words);
    merge_two(&mut all).then(|| Table {
        words: words(&all),
        delay: table.delay,
    })
}

/// Entries of one row merged as long as there are two that differ in one value only.
pub fn fully_merged(table: &Table) -> Table {
    let all = entries(&table.words);
    let rows = all.chunk_by(|a, b| a.row == b.row).map(|row| {
        let mut row = row.to_vec();
        while merge_two(&mut row) {}
        row
    });
    Table {
        words: words(&rows.collect::<Vec<_>>().concat()),
        delay: table.delay,
    }
}

/// Replaces the first two entries that differ in one value only by one that does not name the
/// condition, and tells whether there were two.
fn merge_two(all: &mut Vec<Entry>) -> bool {
    let mut pairs = (0..all.len()).flat_map(|b| (0..b).map(move |a| (a, b)));
    let found = pairs.find(|&(a, b)| {
        let (a, b) = (all[a], all[b]);
        let same_but_values = Entry { values: 0, ..a } == Entry { values: 0, ..b };
        same_but_values && (a.values ^ b.values).count_ones() == 1
    });
    let Some((a, b)) = found else {
        return false;
    };
    let bit = all[a].values ^ all[b].values;
    all[a].known &= !bit;
    all[a].values &= !bit;
    all.remove(b);
    true
}
