//! Random plans in which refusals 2 to 9 find nothing.

use crate::random::Random;
use crate::shapes::{
    shape, Heads, Shape, Ticks, ANY_HEAD, LONGEST_HEAD, LONG_GAPS_FEW_TICKS, MANY_CONDITIONS,
    SHORTEST_LONG_TICKS,
};
use reference::{Condition, Edge, Lines, Pick, PlanLine, Process, Slot, Waits, When};

/// The kinds of plans that are generated.
#[derive(Clone, Copy, Debug, PartialEq, Eq)]
pub enum Kind {
    /// A few processes, with little of everything.
    Tiny,
    /// Short slots and many messages, so that items are passed over.
    DenseBus,
    /// Four to six conditions.
    ManyConditions,
    /// Branches within branches that meet in `any` processes.
    NestedAny,
    /// 8 slots, 64 processes, 128 edges, 6 conditions.
    Largest,
    /// The longest slots, mostly with the longest head, and long processes.
    LongestRound,
    /// Slots of one byte, often without a head, and processes both short and long.
    ShortestRound,
    /// Short slots, never in node order, and many messages between all nodes, so that the nodes pass
    /// different numbers of items over.
    UnevenBus,
    /// Rounds of a few ticks, and processes that outlast tens of thousands of them.
    LongGaps,
}

/// All kinds of plans.
pub const KINDS: [Kind; 9] = [
    Kind::Tiny,
    Kind::DenseBus,
    Kind::ManyConditions,
    Kind::NestedAny,
    Kind::Largest,
    Kind::LongestRound,
    Kind::ShortestRound,
    Kind::UnevenBus,
    Kind::LongGaps,
];

/// A random plan of a kind.
pub fn plan(kind: Kind, random: &mut Random) -> Lines {
    match kind {
        Kind::NestedAny => nested(random),
        Kind::ShortestRound if random.percent(50) => shaped(&SHORTEST_LONG_TICKS, random),
        Kind::LongGaps if random.percent(50) => shaped(&LONG_GAPS_FEW_TICKS, random),
        _ => shaped(shape(kind), random),
    }
}

/// A plan whose numbers are drawn from the ranges of a shape.
fn shaped(shape: &Shape, random: &mut Random) -> Lines {
    let slots = random_slots(shape, random);
    let processes = random_processes(shape, slots.len() as u64, random);
    let conditions = random_conditions(shape, processes.len() as u64, random);
    let mut lines = Lines {
        plan: random_plan_line(shape.byte, &shape.heads, random),
        slots,
        processes,
        conditions,
        edges: Vec::new(),
    };
    let edges = random.within(shape.edges) as usize;
    for (from, to) in random_pairs(&lines, edges, random) {
        let edge = random_edge(&lines, from, to, random);
        lines.edges.push(edge);
    }
    lines
}

/// The head is drawn apart: but for it, the plan of a seed is the one that it was before there were
/// heads, so that what is measured can be compared.
fn random_plan_line(byte: (u64, u64), heads: &Heads, random: &mut Random) -> PlanLine {
    let byte = random.within(byte);
    let mut apart = Random::new(random.clone().bits());
    PlanLine {
        byte,
        head: random_head(heads, &mut apart),
        pick: random_pick(random),
    }
}

fn random_head(heads: &Heads, random: &mut Random) -> u64 {
    let percent = random.below(100);
    if percent < heads.none_percent {
        0
    } else if percent < heads.none_percent + heads.longest_percent {
        LONGEST_HEAD
    } else {
        random.between(0, LONGEST_HEAD)
    }
}

/// Either pick.
pub fn random_pick(random: &mut Random) -> Pick {
    random.one_of(&[Pick::Urgency, Pick::Number])
}

/// Slots of all nodes in a random bus order, or in one that is not that of the nodes.
fn random_slots(shape: &Shape, random: &mut Random) -> Vec<Slot> {
    let mut nodes: Vec<u64> = (0..random.within(shape.slots)).collect();
    random.shuffle(&mut nodes);
    if shape.turned && nodes.is_sorted() {
        nodes.rotate_left(1);
    }
    let slot = |node| Slot {
        node,
        bytes: random.within(shape.slot_bytes),
    };
    nodes.into_iter().map(slot).collect()
}

fn random_processes(shape: &Shape, nodes: u64, random: &mut Random) -> Vec<Process> {
    (0..random.within(shape.processes))
        .map(|_| Process {
            node: random.below(nodes),
            ticks: random_ticks(&shape.ticks, random),
            waits: random_waits(shape.any_percent, random),
        })
        .collect()
}

fn random_ticks(ticks: &Ticks, random: &mut Random) -> u64 {
    let range = match ticks {
        Ticks::Within(range) => *range,
        Ticks::OneOf(ranges) => random.one_of(ranges),
    };
    random.within(range)
}

fn random_waits(any_percent: u64, random: &mut Random) -> Waits {
    if random.percent(any_percent) {
        Waits::Any
    } else {
        Waits::All
    }
}

/// Conditions of different processes, mostly of low ones, on which more depends.
fn random_conditions(shape: &Shape, processes: u64, random: &mut Random) -> Vec<Condition> {
    let count = random.within(shape.conditions).min(processes);
    let among = random.between(count, processes.min(count * 2).max(count));
    let mut deciders: Vec<u64> = (0..among.max(count)).collect();
    random.shuffle(&mut deciders);
    deciders.truncate(count as usize);
    deciders
        .into_iter()
        .map(|process| Condition { process })
        .collect()
}

/// So many different pairs of a lower and a higher process, or all there are; half of them leave a
/// deciding process as far as possible.
fn random_pairs(lines: &Lines, count: usize, random: &mut Random) -> Vec<(u64, u64)> {
    let processes = lines.processes.len() as u64;
    let (mut deciding, mut other): (Vec<_>, Vec<_>) = (0..processes)
        .flat_map(|from| (from + 1..processes).map(move |to| (from, to)))
        .partition(|&(from, _)| lines.decides(from).is_some());
    random.shuffle(&mut deciding);
    random.shuffle(&mut other);
    let mut pairs = Vec::new();
    while pairs.len() < count && !(deciding.is_empty() && other.is_empty()) {
        let from_decider = other.is_empty() || random.percent(50);
        let list = if from_decider && !deciding.is_empty() {
            &mut deciding
        } else {
            &mut other
        };
        pairs.extend(list.pop());
    }
    random.shuffle(&mut pairs);
    pairs
}

/// An edge between two processes, with bytes that fit and a `when` that its from process decides.
pub fn random_edge(lines: &Lines, from: u64, to: u64, random: &mut Random) -> Edge {
    Edge {
        from,
        to,
        bytes: random.between(1, most_bytes(lines, from, to)),
        when: random_when(lines, from, random),
    }
}

/// The most bytes that an edge may have: a local one 64, another those of its sender's slot, to
/// which the head adds none.
pub fn most_bytes(lines: &Lines, from: u64, to: u64) -> u64 {
    let sender = lines.node(from);
    if sender == lines.node(to) {
        return 64;
    }
    let mut slots = lines.slots.iter();
    slots.find(|s| s.node == sender).unwrap().bytes
}

fn random_when(lines: &Lines, from: u64, random: &mut Random) -> When {
    match lines.decides(from) {
        None => When::Always,
        Some(condition) => random.one_of(&[
            When::Always,
            When::True(condition as u64),
            When::False(condition as u64),
        ]),
    }
}

/// A plan of branches within branches, each pair of which meets in an `any` process.
fn nested(random: &mut Random) -> Lines {
    let mut lines = Lines {
        plan: random_plan_line((1, 3), &ANY_HEAD, random),
        slots: random_slots(&MANY_CONDITIONS, random),
        processes: Vec::new(),
        conditions: Vec::new(),
        edges: Vec::new(),
    };
    let most_conditions = random.between(1, 6) as usize;
    nested_block(&mut lines, most_conditions, 3, random);
    lines
}

/// Adds a block with one process at its beginning and one at its end, and gives both. A block is a
/// single process, or a decision, two blocks of which one runs, and the `any` process in which
/// they meet; now and then the decision leads to that process directly.
fn nested_block(
    lines: &mut Lines,
    most_conditions: usize,
    depth: u64,
    random: &mut Random,
) -> (u64, u64) {
    let first = add_process(lines, Waits::All, random);
    if depth == 0 || lines.conditions.len() >= most_conditions {
        return (first, first);
    }
    let condition = lines.conditions.len() as u64;
    lines.conditions.push(Condition { process: first });
    let on_true = nested_block(lines, most_conditions, depth - 1, random);
    let on_false = if random.percent(25) {
        None
    } else {
        Some(nested_block(lines, most_conditions, depth - 1, random))
    };
    let last = add_process(lines, Waits::Any, random);
    add_edge(lines, first, on_true.0, When::True(condition), random);
    add_edge(lines, on_true.1, last, When::Always, random);
    match on_false {
        None => add_edge(lines, first, last, When::False(condition), random),
        Some((begin, end)) => {
            add_edge(lines, first, begin, When::False(condition), random);
            add_edge(lines, end, last, When::Always, random);
        }
    }
    (first, last)
}

fn add_process(lines: &mut Lines, waits: Waits, random: &mut Random) -> u64 {
    lines.processes.push(Process {
        node: random.below(lines.slots.len() as u64),
        ticks: random.between(1, 12),
        waits,
    });
    lines.processes.len() as u64 - 1
}

fn add_edge(lines: &mut Lines, from: u64, to: u64, when: When, random: &mut Random) {
    let bytes = random.between(1, most_bytes(lines, from, to));
    lines.edges.push(Edge {
        from,
        to,
        bytes,
        when,
    });
}
