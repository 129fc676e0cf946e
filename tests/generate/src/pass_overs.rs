//! The pass-overs of a table, counted from its entries: no planner is asked.

use reference::bus::{round_ticks, slot_of, slot_offset};
use reference::check::Course;
use reference::table::{row, row_node, row_process, Entry, Row};
use reference::who_runs::combinations;
use reference::Lines;

/// For each node, how many of its slots, over all combinations, begin while an item of the node is
/// ready and not sent yet. Of the planner's own table these are the pass-over counts.
pub fn by_sender(lines: &Lines, entries: &[Entry]) -> Vec<u64> {
    counted(lines, entries, |item| row_node(lines, item))
}

/// The same slots, but each counted for the node that an item in waiting goes to; for a broadcast,
/// which goes to all, for the node that decides.
pub fn by_receiver(lines: &Lines, entries: &[Entry]) -> Vec<u64> {
    counted(lines, entries, |item| match item {
        Row::Edge(edge) => lines.node(lines.edges[edge].to),
        _ => row_node(lines, item),
    })
}

/// Counts, for each node, the slots that leave an item which counts to the node.
fn counted(lines: &Lines, entries: &[Entry], counts_to: impl Fn(Row) -> u64) -> Vec<u64> {
    let nodes = lines.slots.len() as u64;
    let mut counts = vec![0; lines.slots.len()];
    for combination in combinations(lines) {
        let course = Course::of(lines, entries, combination);
        let waits = waits(lines, &course);
        for (sender, node) in (0..nodes).flat_map(|s| (0..nodes).map(move |n| (s, n))) {
            let chosen = waits
                .iter()
                .filter(|&&(item, ..)| row_node(lines, item) == sender && counts_to(item) == node);
            let rounds = chosen.map(|&(_, first, sent)| (first, sent)).collect();
            counts[node as usize] += in_any(rounds);
        }
    }
    counts
}

/// The items of a course: for each the first round in which it is ready as its slot begins, and the
/// round in which it is sent.
fn waits(lines: &Lines, course: &Course) -> Vec<(Row, u64, u64)> {
    let items = course.met.iter().filter_map(|entry| {
        let item = row(lines, entry.row)?;
        let end = course.end(row_process(lines, item))?;
        let ready = match item {
            Row::Process(_) => return None,
            Row::Condition(_) => end,
            Row::Edge(edge) => match lines.edges[edge].when.condition() {
                None => end,
                Some((condition, _)) => end.max(course.known_from(condition as usize)?),
            },
        };
        let node = row_node(lines, item);
        let first = first_round(lines, node, ready);
        Some((item, first, first_round(lines, node, entry.tick.into())))
    });
    items.collect()
}

/// The first round in which the slot of a node begins at a tick or after it.
fn first_round(lines: &Lines, node: u64, tick: u64) -> u64 {
    let offset = slot_offset(lines, slot_of(lines, node));
    tick.saturating_sub(offset).div_ceil(round_ticks(lines))
}

/// How many rounds stand in at least one of these ranges, the last round of each excluded.
fn in_any(mut ranges: Vec<(u64, u64)>) -> u64 {
    ranges.sort_unstable();
    let (mut count, mut next) = (0, 0);
    for (first, last) in ranges {
        count += last.saturating_sub(first.max(next));
        next = next.max(last);
    }
    count
}
