//! Listings that are sound, and listings of the form that one of refusals 13 to 20 or 22 applies to.

use crate::any_tables;
use crate::random::Random;
use crate::tables::{self, sound_variants, Table};
use crate::wrong_counts::wrong_counts;
use reference::bus::round_ticks;
use reference::check_listing::frames_given;
use reference::read_listing::{MOST_ENTRIES, MOST_FRAMES};
use reference::table::{entries, frames, words, Entry, Frame};
use reference::{Lines, Planned, Stated};

/// The refusals that a listing of the form can meet.
pub const NUMBERS: [u8; 9] = [13, 14, 15, 16, 17, 18, 19, 20, 22];

/// The greatest number of nine digits.
pub const GREATEST: u64 = 999_999_999;

/// The listing that the planner gives, whatever room there is for it.
pub fn planned_listing(planned: &Planned) -> Stated {
    Stated {
        delay: planned.delay,
        passed: planned.passed_by_node.clone(),
        entries: entries(&planned.words),
        frames: frames(&planned.frames),
    }
}

/// The listing of a table, within a row in the order in which the table has its entries.
pub fn of_table(lines: &Lines, table: &Table, passed: &[u64]) -> Stated {
    let mut entries = entries(&table.words);
    entries.sort_by_key(|e| e.row);
    Stated {
        delay: table.delay,
        passed: passed.to_vec(),
        frames: frames_given(lines, &entries),
        entries,
    }
}

/// The table that a listing states.
pub fn table_of(stated: &Stated) -> Table {
    Table {
        words: words(&stated.entries),
        delay: stated.delay,
    }
}

/// A listing with the lines within each row in a random order.
pub fn shuffled_rows(stated: &Stated, random: &mut Random) -> Stated {
    let mut shuffled = stated.clone();
    for row in shuffled.entries.chunk_by_mut(|a, b| a.row == b.row) {
        random.shuffle(row);
    }
    shuffled
}

/// Listings of sound tables: the planner's, the same with lines shuffled within a row, and listings of
/// tables that no planner made.
pub fn sound_listings(lines: &Lines, planned: &Planned, random: &mut Random) -> Vec<Stated> {
    let own = planned_listing(planned);
    let mut all = vec![shuffled_rows(&own, random)];
    for table in sound_variants(lines, &table_of(&own), random) {
        let stated = of_table(lines, &table, &planned.passed_by_node);
        all.push(shuffled_rows(&stated, random));
        all.push(stated);
    }
    all.push(own);
    all
}

/// Whether a listing has as few entries and frames, and numbers as short, as one of the form may have.
pub fn within_limits(stated: &Stated) -> bool {
    let short = |frame: &Frame| u64::from(frame.tick.max(frame.node).max(frame.bytes)) <= GREATEST;
    stated.entries.len() <= MOST_ENTRIES
        && stated.frames.len() <= MOST_FRAMES
        && stated.delay <= GREATEST
        && stated.passed.iter().all(|&count| count <= GREATEST)
        && stated.frames.iter().all(short)
}

/// Changes a sound listing within the limits so that a refusal is surely the first that applies, or
/// gives nothing where the listing has no room for it.
pub fn damaged(lines: &Lines, stated: &Stated, number: u8, random: &mut Random) -> Option<Stated> {
    let damaged = match number {
        13 => wrong_entry(lines, stated, random)?,
        20 => wrong_delay(stated, random),
        22 => wrong_frames_or_passed(lines, stated, random)?,
        _ => {
            let table = tables::damaged(lines, &table_of(stated), number, random)?;
            with_entries(lines, stated, entries(&table.words), random)
        }
    };
    within_limits(&damaged).then_some(damaged)
}

/// A sound listing within the limits changed for two refusals, the first given first, and whether the
/// first is then surely the first that applies.
pub fn damaged_twice(
    lines: &Lines,
    stated: &Stated,
    (first, second): (u8, u8),
    random: &mut Random,
) -> Option<(Stated, bool)> {
    let damaged = match (first, second) {
        (_, 20) => wrong_delay(&damaged(lines, stated, first, random)?, random),
        (_, 22) => {
            let once = damaged(lines, stated, first, random)?;
            wrong_frames_or_passed(lines, &once, random)?
        }
        (13, _) => wrong_entry(lines, &damaged(lines, stated, second, random)?, random)?,
        _ => {
            let table = table_of(stated);
            let twice = any_tables::damaged_twice(lines, &table, first, second, random)?;
            with_entries(lines, stated, entries(&twice.words), random)
        }
    };
    let surely = first == 13 || second >= 20;
    within_limits(&damaged).then_some((damaged, surely))
}

/// A listing with other entries, put in the order of their rows; with the frames that they give, or
/// with those that it has.
fn with_entries(
    lines: &Lines,
    stated: &Stated,
    mut entries: Vec<Entry>,
    random: &mut Random,
) -> Stated {
    entries.sort_by_key(|e| e.row);
    let given = frames_given(lines, &entries);
    Stated {
        frames: random.one_of(&[given, stated.frames.clone()]),
        entries,
        ..stated.clone()
    }
}

/// An entry of a local edge, or an item with a place above 63: all that a line can have of 13.
fn wrong_entry(lines: &Lines, stated: &Stated, random: &mut Random) -> Option<Stated> {
    let mut all = stated.entries.clone();
    let processes = lines.processes.len();
    let local: Vec<usize> = (0..lines.edges.len()).filter(|&e| lines.local(e)).collect();
    match random.some_of(&local) {
        Some(edge) if random.percent(50) => {
            let mut entry = random.some_of(&all)?;
            entry.row = (processes + edge) as u32;
            all.push(entry);
        }
        _ => {
            let items: Vec<usize> = (0..all.len())
                .filter(|&e| all[e].row as usize >= processes)
                .collect();
            let any = random.between(64, GREATEST) as u32;
            let most = GREATEST as u32;
            let place = random.one_of(&[64, 65, 127, 128, 256, most - 64, most, any]);
            all[random.some_of(&items)?].place = place;
        }
    }
    Some(with_entries(lines, stated, all, random))
}

/// Another delay of at most nine digits.
fn wrong_delay(stated: &Stated, random: &mut Random) -> Stated {
    let right = stated.delay;
    let any = random.below(GREATEST + 1);
    let low_bits = right + high_bit(random);
    let others = [right - 1, right + 1, 0, GREATEST, low_bits, any];
    let others: Vec<u64> = others
        .into_iter()
        .filter(|&delay| delay != right && delay <= GREATEST)
        .collect();
    Stated {
        delay: random.one_of(&others),
        ..stated.clone()
    }
}

/// Other frame lines, other passed lines, or both.
fn wrong_frames_or_passed(lines: &Lines, stated: &Stated, random: &mut Random) -> Option<Stated> {
    let mut damaged = stated.clone();
    let which = random.below(5);
    if which < 4 {
        damaged.frames = wrong_frames(lines, stated, random)?;
    }
    if which > 2 {
        damaged.passed = other_counts(lines, stated, random);
    }
    Some(damaged)
}

/// Other pass-over counts, in half of the cases another one of one node only.
fn other_counts(lines: &Lines, stated: &Stated, random: &mut Random) -> Vec<u64> {
    let mut all = wrong_counts(lines, stated, random);
    let place = match random.percent(50) {
        true => all.len() - 1,
        false => random.index(all.len()),
    };
    all.swap_remove(place).1
}

/// A bit that a number cut to 8, 16 or 24 bits does not have.
pub(crate) fn high_bit(random: &mut Random) -> u64 {
    1 << random.one_of(&[8, 16, 24])
}

/// Frame lines that are not those of the entries: exchanged, doubled, missing, added, or with another
/// number. Nothing where the change made no difference or none was possible.
fn wrong_frames(lines: &Lines, stated: &Stated, random: &mut Random) -> Option<Vec<Frame>> {
    let mut all = stated.frames.clone();
    let place = random.index(all.len().max(1));
    match random.below(9) {
        0 => all.insert(random.index(all.len() + 1), any_frame(lines, random)),
        1 => add_in_order(&mut all, any_frame(lines, random)),
        _ if all.is_empty() => return None,
        2 => {
            let other = random.index(all.len());
            all.swap(place, other);
        }
        3 => all.insert(place, all[place]),
        4 => drop(all.remove(place)),
        5 => all[place].tick = near(all[place].tick, round_ticks(lines), random),
        6 => all[place].node = near(all[place].node, lines.slots.len() as u64, random),
        7 => all[place].bytes = near(all[place].bytes, 1 + lines.plan.head, random),
        _ => all = not_merged(lines, &stated.entries),
    }
    let different = all != stated.frames && all != frames_given(lines, &stated.entries);
    different.then_some(all)
}

/// A frame at the beginning of a slot, or at any tick.
fn any_frame(lines: &Lines, random: &mut Random) -> Frame {
    let any = random.below(GREATEST + 1);
    let beginning = random.below(20) * round_ticks(lines);
    Frame {
        tick: random.one_of(&[beginning, beginning, any]) as u32,
        node: lines.slots[0].node as u32,
        bytes: random.between(1, lines.slots[0].bytes) as u32,
    }
}

/// Adds a frame so that ascending ticks stay ascending.
fn add_in_order(all: &mut Vec<Frame>, frame: Frame) {
    let place = all.partition_point(|f| f.tick < frame.tick);
    all.insert(place, frame);
}

/// Another number near this one, by a step or by one, or one with its low bits, or a great one; of at
/// most nine digits.
fn near(number: u32, step: u64, random: &mut Random) -> u32 {
    let step = step as u32;
    let low_bits = number + high_bit(random) as u32;
    let near = random.one_of(&[
        number + 1,
        number.saturating_sub(1),
        number + step,
        number.saturating_sub(step),
        low_bits,
        GREATEST as u32,
    ]);
    near.min(GREATEST as u32)
}

/// A frame for each different last byte at a tick, in place of the greatest alone.
fn not_merged(lines: &Lines, entries: &[Entry]) -> Vec<Frame> {
    let mut all: Vec<Frame> = entries
        .iter()
        .flat_map(|entry| frames_given(lines, &[*entry]))
        .collect();
    all.sort_by_key(|f| (f.tick, f.bytes));
    all.dedup();
    all
}

/// A listing that states anything that the form allows, with up to 20 entries and frames.
pub fn any_listing(lines: &Lines, random: &mut Random) -> Stated {
    let mut entries: Vec<Entry> = (0..random.below(21))
        .map(|_| any_entry(lines, random))
        .collect();
    entries.sort_by_key(|e| e.row);
    Stated {
        delay: any_number(random).into(),
        passed: lines
            .slots
            .iter()
            .map(|_| any_number(random).into())
            .collect(),
        entries,
        frames: (0..random.below(21))
            .map(|_| Frame {
                tick: any_number(random),
                node: any_number(random),
                bytes: any_number(random),
            })
            .collect(),
    }
}

fn any_entry(lines: &Lines, random: &mut Random) -> Entry {
    let row = random.below(lines.rows() as u64) as u32;
    let known = random.below(1 << lines.conditions.len()) as u32;
    let is_item = row as usize >= lines.processes.len();
    Entry {
        row,
        known,
        values: random.bits() as u32 & known,
        tick: any_number(random),
        place: if is_item { any_number(random) } else { 0 },
    }
}

/// A number of one to nine digits, as likely with few as with many.
fn any_number(random: &mut Random) -> u32 {
    let digits = random.between(1, 9) as u32;
    random.below(10u64.pow(digits)) as u32
}
