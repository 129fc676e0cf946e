//! Plans with a given number of frames and of entries.
//!
//! Six stages stand one after another on node 0. Each has a decider; a process that runs only if the
//! decider's condition is true; and behind both, waiting for `any`, the decider of the next stage,
//! or the last process. Stage i's process takes 2^i times `APART` rounds, so that each of the 64
//! combinations has the last process at a tick of its own. Behind it messages go from senders on
//! node 0 to receivers on node 1. Slots and messages have 1 byte, so that an item has its frame for
//! itself whatever the head is, and no combination shares a frame of these messages with another.
//!
//! A message or a process behind stage i's process adds 2^i frames or entries, one behind the last
//! process adds 64.

use crate::plans::random_pick;
use crate::random::Random;
use reference::bus::round_ticks;
use reference::{Condition, Edge, Lines, PlanLine, Process, Slot, Waits, When};

/// The stages, each with a condition.
const STAGES: u64 = 6;

/// The combinations.
const COMBINATIONS: u64 = 1 << STAGES;

/// The broadcasts, each a frame and an entry: stage i is reached in 2^i ways.
const BROADCASTS: u64 = COMBINATIONS - 1;

/// The senders on node 0, the last process of the stages among them.
const SENDERS: u64 = 6;

/// The receivers on node 1.
const RECEIVERS: u64 = 6;

/// The starts, each an entry: those of the deciders, of the processes that run only if a condition is
/// true, of senders and receivers.
const STARTS: u64 = 2 * BROADCASTS + COMBINATIONS * (SENDERS + RECEIVERS);

/// The rounds by which combinations lie apart, more than the stages and all messages take.
const APART: u64 = 90;

/// The most ticks that a slot lasts, so that no process exceeds 100,000.
const MOST_SLOT_TICKS: u64 = 17;

/// The fewest frames that a plan of this form has: each receiver has an input.
pub const FEWEST_FRAMES: u64 = BROADCASTS + COMBINATIONS * RECEIVERS;

/// The most frames that a plan of this form has: each sender sends to each receiver.
pub const MOST_FRAMES: u64 = BROADCASTS + COMBINATIONS * SENDERS * RECEIVERS + COMBINATIONS - 1;

/// The fewest entries that a plan of this form with so many frames has.
pub fn fewest_entries(frames: u64) -> u64 {
    STARTS + frames
}

/// A plan with so many frames, from `FEWEST_FRAMES` to `MOST_FRAMES`, and so many entries, from
/// `fewest_entries` to 127 more.
pub fn with_frames(frames: u64, entries: u64, random: &mut Random) -> Lines {
    let mut lines = two_nodes(random);
    let (optional, last) = add_stages(&mut lines);
    let (senders, receivers) = add_senders_and_receivers(&mut lines, last);

    let messages = frames - BROADCASTS;
    for message in 0..messages / COMBINATIONS {
        let from = senders[(message / RECEIVERS) as usize];
        let to = receivers[(message % RECEIVERS) as usize];
        add_edge(&mut lines, from, to, When::Always);
    }
    for &from in stages_of(messages % COMBINATIONS, &optional) {
        add_edge(&mut lines, from, receivers[0], When::Always);
    }

    let more = entries - fewest_entries(frames);
    let behind_the_last = (0..more / COMBINATIONS).map(|_| last);
    let behind_stages = stages_of(more % COMBINATIONS, &optional).copied();
    for from in behind_the_last.chain(behind_stages) {
        let to = add_process(&mut lines, 0, 1, Waits::All);
        add_edge(&mut lines, from, to, When::Always);
    }
    lines
}

/// The stages whose powers of 2 make up a number below 64.
fn stages_of(number: u64, optional: &[u64]) -> impl Iterator<Item = &u64> {
    let stages = optional.iter().enumerate();
    stages
        .filter(move |(stage, _)| number >> stage & 1 == 1)
        .map(|(_, process)| process)
}

/// A plan of two slots of 1 byte in either order, with no process. Its head is any.
fn two_nodes(random: &mut Random) -> Lines {
    let mut nodes = [0, 1];
    random.shuffle(&mut nodes);
    let head = random.between(0, 16);
    Lines {
        plan: PlanLine {
            byte: random.between(1, MOST_SLOT_TICKS / (1 + head)),
            head,
            pick: random_pick(random),
        },
        slots: nodes.map(|node| Slot { node, bytes: 1 }).to_vec(),
        processes: Vec::new(),
        conditions: Vec::new(),
        edges: Vec::new(),
    }
}

/// Adds the stages, and gives for each the process that runs only if its condition is true, then
/// the process behind them all. Deciders take two rounds, so that what a stage sends is sent before
/// the next value is told.
fn add_stages(lines: &mut Lines) -> (Vec<u64>, u64) {
    let round = round_ticks(lines);
    let mut optional = Vec::new();
    let mut decider = add_process(lines, 0, 2 * round, Waits::All);
    for stage in 0..STAGES {
        lines.conditions.push(Condition { process: decider });
        let process = add_process(lines, 0, (APART << stage) * round, Waits::All);
        let next = add_process(lines, 0, 2 * round, Waits::Any);
        add_edge(lines, decider, process, When::True(stage));
        add_edge(lines, decider, next, When::False(stage));
        add_edge(lines, process, next, When::Always);
        optional.push(process);
        decider = next;
    }
    (optional, decider)
}

/// Adds senders behind the last process of the stages, which is the first of them, and receivers.
fn add_senders_and_receivers(lines: &mut Lines, last: u64) -> (Vec<u64>, Vec<u64>) {
    let mut senders = vec![last];
    for _ in 1..SENDERS {
        let sender = add_process(lines, 0, 1, Waits::All);
        add_edge(lines, last, sender, When::Always);
        senders.push(sender);
    }
    let receivers = (0..RECEIVERS).map(|_| add_process(lines, 1, 1, Waits::Any));
    (senders, receivers.collect())
}

fn add_process(lines: &mut Lines, node: u64, ticks: u64, waits: Waits) -> u64 {
    lines.processes.push(Process { node, ticks, waits });
    lines.processes.len() as u64 - 1
}

/// Adds an edge of 1 byte.
fn add_edge(lines: &mut Lines, from: u64, to: u64, when: When) {
    lines.edges.push(Edge {
        from,
        to,
        bytes: 1,
        when,
    });
}
