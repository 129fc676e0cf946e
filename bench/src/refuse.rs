//! Refusals 2 to 9 in one pass over the lines for each, with bit sets instead of comparisons of
//! every two.

use reference::Lines;

/// The first of refusals 2 to 9 that applies.
pub fn refuse(lines: &Lines) -> Option<u8> {
    if wrong_counts(lines) {
        Some(2)
    } else if wrong_sizes(lines) {
        Some(3)
    } else if wrong_nodes(lines) {
        Some(4)
    } else if wrong_conditions(lines) {
        Some(5)
    } else {
        refuse_edges(lines)
    }
}

fn wrong_counts(lines: &Lines) -> bool {
    lines.slots.is_empty()
        || lines.slots.len() > 8
        || lines.processes.is_empty()
        || lines.processes.len() > 64
        || lines.conditions.len() > 6
        || lines.edges.len() > 128
}

fn wrong_sizes(lines: &Lines) -> bool {
    let outside = |number: u64, last: u64| number.wrapping_sub(1) >= last;
    outside(lines.plan.byte, 1_000)
        || lines.plan.head > 16
        || lines.slots.iter().any(|s| outside(s.bytes, 64))
        || lines.edges.iter().any(|e| outside(e.bytes, 64))
        || lines.processes.iter().any(|p| outside(p.ticks, 100_000))
}

fn wrong_nodes(lines: &Lines) -> bool {
    let nodes = lines.slots.len() as u64;
    all_different(lines.slots.iter().map(|s| s.node), nodes).is_none()
        || lines.processes.iter().any(|p| p.node >= nodes)
}

fn wrong_conditions(lines: &Lines) -> bool {
    let processes = lines.processes.len() as u64;
    all_different(lines.conditions.iter().map(|c| c.process), processes).is_none()
}

/// The set of these numbers, if they are different and each is below the limit of at most 64.
fn all_different(numbers: impl Iterator<Item = u64>, limit: u64) -> Option<u64> {
    let mut set = 0u64;
    for number in numbers {
        if number >= limit || set >> number & 1 == 1 {
            return None;
        }
        set |= 1 << number;
    }
    Some(set)
}

/// The first of refusals 6 to 9 that applies.
fn refuse_edges(lines: &Lines) -> Option<u8> {
    let processes = lines.processes.len() as u64;
    if lines
        .edges
        .iter()
        .any(|e| e.to >= processes || e.from >= e.to)
    {
        return Some(6);
    }
    let mut reached = [0u64; 64];
    let mut doubled = false;
    let mut undecided = false;
    let mut too_long = false;
    let mut slot_bytes = [0u64; 8];
    for slot in &lines.slots {
        slot_bytes[slot.node as usize] = slot.bytes;
    }
    for edge in &lines.edges {
        let from = edge.from as usize;
        doubled |= reached[from] >> edge.to & 1 == 1;
        reached[from] |= 1 << edge.to;
        undecided |= edge.when.condition().is_some_and(|(condition, _)| {
            let named = lines.conditions.get(condition as usize);
            named.map(|c| c.process) != Some(edge.from)
        });
        let sender = lines.processes[from].node;
        let receiver = lines.processes[edge.to as usize].node;
        too_long |= sender != receiver && edge.bytes > slot_bytes[sender as usize];
    }
    if doubled {
        Some(7)
    } else if undecided {
        Some(8)
    } else if too_long {
        Some(9)
    } else {
        None
    }
}
