//! Refusals 2 to 9: what is wrong with the lines of a plan.

use crate::lines::Lines;

/// A refusal's number and the sentence that says when it applies.
type Sentence = (u8, fn(&Lines) -> bool);

/// "Each sentence is tried over the whole input before the next." Gives the first of 2 to 9 that
/// applies.
pub fn refuse_plan(lines: &Lines) -> Option<u8> {
    let sentences: [Sentence; 8] = [
        (2, wrong_counts),
        (3, wrong_sizes),
        (4, wrong_nodes),
        (5, wrong_conditions),
        (6, wrong_edges),
        (7, doubled_edges),
        (8, undecided_whens),
        (9, too_long_messages),
    ];
    sentences
        .iter()
        .find(|(_, applies)| applies(lines))
        .map(|&(number, _)| number)
}

/// "2. There are not 1 to 8 slots, 1 to 64 processes, at most 6 conditions, at most 128 edges."
fn wrong_counts(lines: &Lines) -> bool {
    !(1..=8).contains(&lines.slots.len())
        || !(1..=64).contains(&lines.processes.len())
        || lines.conditions.len() > 6
        || lines.edges.len() > 128
}

/// "3. `byte` is outside 1 to 1,000, slot or edge bytes outside 1 to 64, or ticks outside 1 to
/// 100,000." Document 02, of the head: "Figures above 16 meet refusal 3."
fn wrong_sizes(lines: &Lines) -> bool {
    !(1..=1_000).contains(&lines.plan.byte)
        || lines.plan.head > 16
        || lines.slots.iter().any(|s| !(1..=64).contains(&s.bytes))
        || lines.edges.iter().any(|e| !(1..=64).contains(&e.bytes))
        || lines
            .processes
            .iter()
            .any(|p| !(1..=100_000).contains(&p.ticks))
}

/// "4. A node number is not below the slot count, or two slots share a node."
fn wrong_nodes(lines: &Lines) -> bool {
    let slots = lines.slots.len() as u64;
    lines.slots.iter().any(|s| s.node >= slots)
        || lines.processes.iter().any(|p| p.node >= slots)
        || two_share(&lines.slots, |s| s.node)
}

/// "5. A condition names no process, or one already named."
fn wrong_conditions(lines: &Lines) -> bool {
    let processes = lines.processes.len() as u64;
    lines.conditions.iter().any(|c| c.process >= processes)
        || two_share(&lines.conditions, |c| c.process)
}

/// "6. An edge names no process, or from is not below to."
fn wrong_edges(lines: &Lines) -> bool {
    let processes = lines.processes.len() as u64;
    lines
        .edges
        .iter()
        .any(|e| e.from >= processes || e.to >= processes || e.from >= e.to)
}

/// "7. Two edges share both from and to."
fn doubled_edges(lines: &Lines) -> bool {
    two_share(&lines.edges, |e| (e.from, e.to))
}

/// "8. A `when` names a condition its from process does not decide."
fn undecided_whens(lines: &Lines) -> bool {
    lines.edges.iter().any(|e| match e.when.condition() {
        None => false,
        Some((condition, _)) => lines.decides(e.from).map(|c| c as u64) != Some(condition),
    })
}

/// "9. A message between nodes is longer than its sender's slot." Document 02: "Capacity and places
/// still count data only."
fn too_long_messages(lines: &Lines) -> bool {
    (0..lines.edges.len()).any(|edge| {
        let sender = lines.node(lines.edges[edge].from);
        !lines.local(edge)
            && lines
                .slots
                .iter()
                .any(|s| s.node == sender && lines.edges[edge].bytes > s.bytes)
    })
}

/// Whether two of these have the same key.
fn two_share<T, K: PartialEq>(all: &[T], key: fn(&T) -> K) -> bool {
    (0..all.len()).any(|b| (0..b).any(|a| key(&all[a]) == key(&all[b])))
}
