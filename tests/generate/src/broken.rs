//! Plans that one of refusals 2 to 9 applies to, alone or together with a later one.

use crate::plans::{most_bytes, random_edge};
use crate::random::Random;
use reference::{Condition, Edge, Lines, Process, Slot, Waits, When};

/// The refusals that a plan in memory can meet.
pub const NUMBERS: [u8; 8] = [2, 3, 4, 5, 6, 7, 8, 9];

/// Numbers that are too great everywhere; one of them has too many digits for a text.
const TOO_GREAT: [u64; 3] = [100_001, 4_294_967_296, 999_999_999];

/// Changes a plan so that a refusal applies to it and no earlier one does because of the change,
/// or gives nothing where the plan has no room for it.
pub fn broken(lines: &Lines, number: u8, random: &mut Random) -> Option<Lines> {
    let mut lines = lines.clone();
    let done = match number {
        2 => break_counts(&mut lines, random),
        3 => break_sizes(&mut lines, random),
        4 => break_nodes(&mut lines, random),
        5 => break_conditions(&mut lines, random),
        6 => break_edges(&mut lines, random),
        7 => break_pairs(&mut lines, random),
        8 => break_whens(&mut lines, random),
        _ => break_lengths(&mut lines, random),
    };
    done.then_some(lines)
}

/// A plan that meets two refusals, of which the first is to be given.
pub fn broken_twice(lines: &Lines, first: u8, second: u8, random: &mut Random) -> Option<Lines> {
    let lines = broken(lines, second, random)?;
    broken(&lines, first, random)
}

/// A number outside the range from 1 to the last.
fn outside(last: u64, random: &mut Random) -> u64 {
    let great = random.one_of(&TOO_GREAT);
    random.one_of(&[0, last + 1, great])
}

/// A head above 16 bytes: by one, by some, with low bits that would be a head, or too great.
fn long_head(random: &mut Random) -> u64 {
    let some = random.between(18, 1_000);
    let low_bits = random.between(0, 16) + random.one_of(&[32, 256, 65_536]);
    let great = random.one_of(&TOO_GREAT);
    random.one_of(&[17, some, low_bits, great])
}

fn break_counts(lines: &mut Lines, random: &mut Random) -> bool {
    match random.below(6) {
        0 => lines.slots.clear(),
        1 => {
            for node in lines.slots.len() as u64..random.between(9, 12) {
                lines.slots.push(Slot { node, bytes: 1 });
            }
        }
        2 => lines.processes.clear(),
        3 => {
            let process = Process {
                node: 0,
                ticks: 1,
                waits: Waits::All,
            };
            lines.processes.resize(65, process);
        }
        4 => {
            for process in lines.conditions.len() as u64..random.between(7, 9) {
                lines.conditions.push(Condition { process });
            }
        }
        _ => {
            let edge = Edge {
                from: 0,
                to: 1,
                bytes: 1,
                when: When::Always,
            };
            lines.edges.resize(129, edge);
        }
    }
    true
}

fn break_sizes(lines: &mut Lines, random: &mut Random) -> bool {
    match random.below(5) {
        0 if !lines.slots.is_empty() => {
            let slot = random.index(lines.slots.len());
            lines.slots[slot].bytes = outside(64, random);
        }
        1 if !lines.edges.is_empty() => {
            let edge = random.index(lines.edges.len());
            lines.edges[edge].bytes = outside(64, random);
        }
        2 if !lines.processes.is_empty() => {
            let process = random.index(lines.processes.len());
            lines.processes[process].ticks = outside(100_000, random);
        }
        3 => lines.plan.head = long_head(random),
        _ => lines.plan.byte = outside(1_000, random),
    }
    true
}

fn break_nodes(lines: &mut Lines, random: &mut Random) -> bool {
    let slots = lines.slots.len();
    let great = random.one_of(&TOO_GREAT);
    let no_node = random.one_of(&[slots as u64, slots as u64 + 1, great]);
    match random.below(3) {
        0 if slots > 1 => lines.slots[slots - 1].node = lines.slots[random.index(slots - 1)].node,
        1 => {
            let slot = random.index(slots);
            lines.slots[slot].node = no_node;
        }
        _ => {
            let process = random.index(lines.processes.len());
            lines.processes[process].node = no_node;
        }
    }
    true
}

fn break_conditions(lines: &mut Lines, random: &mut Random) -> bool {
    let great = random.one_of(&TOO_GREAT);
    let no_process = random.one_of(&[lines.processes.len() as u64, great]);
    let named = random.some_of(&lines.conditions).map(|c| c.process);
    if lines.conditions.len() == 6 {
        lines.conditions.pop();
    }
    let still_named = named.filter(|p| lines.conditions.iter().any(|c| c.process == *p));
    let process = match still_named {
        Some(process) if random.percent(50) => process,
        _ => no_process,
    };
    lines.conditions.push(Condition { process });
    true
}

fn break_edges(lines: &mut Lines, random: &mut Random) -> bool {
    let processes = lines.processes.len() as u64;
    let great = random.one_of(&TOO_GREAT);
    let high = random.below(processes);
    let low = random.between(0, high);
    let (from, to) = random.one_of(&[
        (high, low),
        (high, high),
        (0, processes),
        (0, great),
        (great, great + 1),
        (processes, processes + 1),
    ]);
    if lines.edges.len() == 128 {
        lines.edges.pop();
    }
    let place = random.index(lines.edges.len() + 1);
    let edge = Edge {
        from,
        to,
        bytes: 1,
        when: When::Always,
    };
    lines.edges.insert(place, edge);
    true
}

fn break_pairs(lines: &mut Lines, random: &mut Random) -> bool {
    let processes = lines.processes.len() as u64;
    if processes < 2 {
        return false;
    }
    if lines.edges.len() == 128 {
        lines.edges.pop();
    }
    if lines.edges.is_empty() {
        lines.edges.push(random_edge(lines, 0, 1, random));
    }
    let twin = random.one_of(&lines.edges);
    let place = random.index(lines.edges.len() + 1);
    let edge = Edge {
        bytes: random.between(1, 64),
        when: random.one_of(&[twin.when, When::Always]),
        ..twin
    };
    lines.edges.insert(place, edge);
    true
}

fn break_whens(lines: &mut Lines, random: &mut Random) -> bool {
    if lines.edges.is_empty() {
        return false;
    }
    let edge = random.index(lines.edges.len());
    let from = lines.edges[edge].from;
    let mut undecided: Vec<u64> = (0..lines.conditions.len() as u64)
        .filter(|&c| lines.conditions[c as usize].process != from)
        .collect();
    undecided.push(lines.conditions.len() as u64);
    undecided.push(random.one_of(&TOO_GREAT));
    let condition = random.one_of(&undecided);
    lines.edges[edge].when = random.one_of(&[When::True(condition), When::False(condition)]);
    true
}

/// A message that is longer than its sender's slot, often not longer than the slot with its head.
fn break_lengths(lines: &mut Lines, random: &mut Random) -> bool {
    let between_nodes: Vec<usize> = (0..lines.edges.len())
        .filter(|&e| !lines.local(e))
        .filter(|&e| most_bytes(lines, lines.edges[e].from, lines.edges[e].to) < 64)
        .collect();
    let Some(edge) = random.some_of(&between_nodes) else {
        return false;
    };
    let most = most_bytes(lines, lines.edges[edge].from, lines.edges[edge].to);
    let with_head = most + lines.plan.head.max(1);
    let longest = random.one_of(&[64, with_head.min(64)]);
    lines.edges[edge].bytes = random.between(most + 1, longest);
    true
}
