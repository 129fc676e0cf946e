//! The course of one combination: list scheduling, tick by tick.

use crate::bus::{next_beginning, slot_of, slot_that_begins, slot_ticks_of};
use crate::lines::{Lines, Pick, Waits};
use crate::table::{row_bytes, row_node, row_number, Entry, Frame, Row};
use crate::who_runs::{known_never, value, who_runs, Column, Combination, WhoRuns};

/// "Urgency of a process: its ticks plus the greatest urgency among those its edges lead to, 0 if
/// none." Every edge leads to a higher process, so the highest is worked out first.
pub fn urgencies(lines: &Lines) -> Vec<u64> {
    let mut urgency = vec![0; lines.processes.len()];
    for process in (0..lines.processes.len()).rev() {
        let greatest = lines
            .edges
            .iter()
            .filter(|e| e.from == process as u64)
            .map(|e| urgency[e.to as usize])
            .max()
            .unwrap_or(0);
        urgency[process] = lines.processes[process].ticks + greatest;
    }
    urgency
}

/// Which ticks the planner looks at.
#[derive(Clone, Copy, Debug, PartialEq, Eq)]
pub enum Ticks {
    /// Every tick, as document 01 says.
    Every,
    /// Only the ticks at which something can happen.
    Eventful,
}

/// "For one combination, tick by tick: arrivals first, then starts, then slots that begin."
///
/// Arrivals need no step of their own: what has ended, arrived or become known by a tick is worked
/// out from the starts and items so far, "by" including equality.
pub fn plan_combination(lines: &Lines, combination: Combination, ticks: Ticks) -> Course<'_> {
    let mut course = Course::new(lines, combination);
    let mut tick = 0;
    loop {
        course.start_processes(tick);
        course.begin_slot(tick);
        course.slots_passed += u64::from(course.leaves_some(tick));
        if course.complete() {
            return course;
        }
        tick = match ticks {
            Ticks::Every => tick + 1,
            Ticks::Eventful => course.next_eventful(tick),
        };
    }
}

/// The course of one combination as far as it is planned.
pub struct Course<'a> {
    lines: &'a Lines,
    combination: Combination,
    who: WhoRuns,
    into: Vec<Vec<usize>>,
    urgency: Vec<u64>,
    /// For each process, the tick of its start.
    pub started: Vec<Option<u64>>,
    /// For each edge, the tick at which its message was sent.
    pub sent: Vec<Option<u64>>,
    /// For each condition, the tick at which its broadcast was sent.
    pub told: Vec<Option<u64>>,
    /// The entries of the starts and items so far.
    pub entries: Vec<Entry>,
    /// The slot occurrences used so far.
    pub frames: Vec<Frame>,
    /// For each node, the slots so far in which a ready item of it was not taken.
    pub passed: Vec<u64>,
    /// The slots so far, whosever they are, in which a ready item of their node was not taken.
    pub slots_passed: u64,
}

impl<'a> Course<'a> {
    fn new(lines: &'a Lines, combination: Combination) -> Self {
        Course {
            lines,
            combination,
            who: who_runs(lines, combination),
            into: lines.edges_into(),
            urgency: urgencies(lines),
            started: vec![None; lines.processes.len()],
            sent: vec![None; lines.edges.len()],
            told: vec![None; lines.conditions.len()],
            entries: Vec::new(),
            frames: Vec::new(),
            passed: vec![0; lines.slots.len()],
            slots_passed: 0,
        }
    }

    /// The tick at which a process ends, once it has started.
    fn end(&self, process: u64) -> Option<u64> {
        let start = self.started[process as usize]?;
        Some(start + self.lines.processes[process as usize].ticks)
    }

    /// "An item sent in a slot arrives at the slot's end."
    fn arrival(&self, from: u64, sent: Option<u64>) -> Option<u64> {
        Some(sent? + slot_ticks_of(self.lines, self.lines.node(from)))
    }

    /// "on arrival the value is known at every node, the deciding one included, and not before."
    fn known_from(&self, condition: usize) -> Option<u64> {
        let decider = self.lines.conditions[condition].process;
        self.arrival(decider, self.told[condition])
    }

    /// The column at a tick: "everything known at its tick."
    fn column(&self, tick: u64) -> Column {
        let mut column = Column {
            known: 0,
            values: 0,
        };
        for condition in 0..self.lines.conditions.len() {
            if has_come(self.known_from(condition), tick) {
                column.known |= 1 << condition;
                column.values |= u32::from(value(self.combination, condition)) << condition;
            }
        }
        column
    }

    /// "Each active process with a condition broadcasts it, 1 byte, ready at the process's end".
    fn broadcast_ready_from(&self, condition: usize) -> Option<u64> {
        self.end(self.lines.conditions[condition].process)
    }

    /// "A message that does not depend on a condition is ready at the sender's end, a conditional
    /// one when sender's end and known value have both come." Only a carrying edge has a message.
    fn message_ready_from(&self, edge: usize) -> Option<u64> {
        if !self.who.carries[edge] {
            return None;
        }
        let end = self.end(self.lines.edges[edge].from)?;
        match self.lines.edges[edge].when.condition() {
            None => Some(end),
            Some((condition, _)) => Some(end.max(self.known_from(condition as usize)?)),
        }
    }

    /// "A local edge delivers at the tick it would be ready." Another delivers as its message
    /// arrives.
    fn delivered_from(&self, edge: usize) -> Option<u64> {
        if self.lines.local(edge) {
            self.message_ready_from(edge)
        } else {
            self.arrival(self.lines.edges[edge].from, self.sent[edge])
        }
    }

    /// "Each free node starts its ready process of highest urgency, ties to the lower number. With
    /// pick number the lower number goes first."
    fn start_processes(&mut self, tick: u64) {
        let column = self.column(tick);
        let never = known_never(self.lines, &self.into, column);
        for node in 0..self.lines.slots.len() as u64 {
            if !self.free(node, tick) {
                continue;
            }
            let first = (0..self.lines.processes.len())
                .filter(|&p| self.lines.processes[p].node == node)
                .filter(|&p| self.started[p].is_none() && self.ready(p, tick, &never))
                .min_by_key(|&p| self.process_order(p));
            if let Some(process) = first {
                self.started[process] = Some(tick);
                self.enter(Row::Process(process), column, tick, 0);
            }
        }
    }

    /// Whether no process runs on a node: each that has started there has ended by this tick.
    fn free(&self, node: u64, tick: u64) -> bool {
        (0..self.lines.processes.len() as u64)
            .filter(|&p| self.lines.node(p) == node)
            .filter_map(|p| self.end(p))
            .all(|end| end <= tick)
    }

    /// "An `all` process is ready when every edge into it has delivered. An `any` process is ready
    /// when at least one has and each that has not is known never to". A process with no edge into
    /// it "counts as `all`".
    fn ready(&self, process: usize, tick: u64, never: &[bool]) -> bool {
        let into = &self.into[process];
        let delivered = |edge: usize| has_come(self.delivered_from(edge), tick);
        match self.lines.processes[process].waits {
            Waits::Any if !into.is_empty() => {
                into.iter().any(|&e| delivered(e)) && into.iter().all(|&e| delivered(e) || never[e])
            }
            _ => into.iter().all(|&e| delivered(e)),
        }
    }

    /// What is least for the process that goes first.
    fn process_order(&self, process: usize) -> (std::cmp::Reverse<u64>, usize) {
        match self.lines.plan.pick {
            Pick::Urgency => (std::cmp::Reverse(self.urgency[process]), process),
            Pick::Number => (std::cmp::Reverse(0), process),
        }
    }

    /// "At its beginning a slot takes items of its node ready by that tick." "An item that does
    /// not fit the bytes left is passed over and the next is tried. Items lie side by side from
    /// byte 0." Document 02: "Capacity and places still count data only."
    fn begin_slot(&mut self, tick: u64) {
        let Some(slot) = slot_that_begins(self.lines, tick) else {
            return;
        };
        let node = self.lines.slots[slot].node;
        let column = self.column(tick);
        let mut used = 0;
        let mut left_behind = false;
        for item in self.ready_items(node, tick) {
            let bytes = row_bytes(self.lines, item);
            if used + bytes <= self.lines.slots[slot].bytes {
                self.send(item, tick);
                self.enter(item, column, tick, used);
                used += bytes;
            } else {
                left_behind = true;
            }
        }
        if used > 0 {
            self.frames.push(Frame {
                tick: tick as u32,
                node: node as u32,
                bytes: used as u32,
            });
        }
        if left_behind {
            self.passed[node as usize] += 1;
        }
    }

    /// "every slot in which a ready item of its node was not taken": whether the slot that begins at
    /// a tick, after it took what it took, leaves an item that was ready by that tick.
    fn leaves_some(&self, tick: u64) -> bool {
        let Some(slot) = slot_that_begins(self.lines, tick) else {
            return false;
        };
        let node = self.lines.slots[slot].node;
        !self.ready_items(node, tick).is_empty()
    }

    /// "A slot takes pending broadcasts first, lowest condition number first; then messages by
    /// urgency of the receiver, highest first, ties to the lower edge number (pick number: edge
    /// number alone)."
    fn ready_items(&self, node: u64, tick: u64) -> Vec<Row> {
        let of_node = |item: Row| row_node(self.lines, item) == node;
        let broadcasts = (0..self.lines.conditions.len())
            .filter(|&c| of_node(Row::Condition(c)) && self.told[c].is_none())
            .filter(|&c| has_come(self.broadcast_ready_from(c), tick))
            .map(Row::Condition);
        let mut messages: Vec<usize> = (0..self.lines.edges.len())
            .filter(|&e| of_node(Row::Edge(e)) && self.sent[e].is_none())
            .filter(|&e| !self.lines.local(e) && has_come(self.message_ready_from(e), tick))
            .collect();
        messages.sort_by_key(|&e| self.message_order(e));
        broadcasts
            .chain(messages.into_iter().map(Row::Edge))
            .collect()
    }

    /// What is least for the message that goes first.
    fn message_order(&self, edge: usize) -> (std::cmp::Reverse<u64>, usize) {
        let receiver = self.lines.edges[edge].to as usize;
        match self.lines.plan.pick {
            Pick::Urgency => (std::cmp::Reverse(self.urgency[receiver]), edge),
            Pick::Number => (std::cmp::Reverse(0), edge),
        }
    }

    /// Notes that an item is sent.
    fn send(&mut self, item: Row, tick: u64) {
        match item {
            Row::Edge(edge) => self.sent[edge] = Some(tick),
            Row::Condition(condition) => self.told[condition] = Some(tick),
            Row::Process(_) => unreachable!("a process is no item"),
        }
    }

    /// Adds the entry of a start or an item. "An entry's column is everything known at its tick."
    fn enter(&mut self, row: Row, column: Column, tick: u64, place: u64) {
        self.entries.push(Entry {
            row: row_number(self.lines, row),
            known: column.known,
            values: column.values,
            tick: tick as u32,
            place: place as u32,
        });
    }

    /// Whether nothing is left to plan: every active process has started, every broadcast of an
    /// active decider and every message of a carrying edge between nodes is sent.
    fn complete(&self) -> bool {
        let lines = self.lines;
        let processes =
            (0..lines.processes.len()).all(|p| !self.who.active[p] || self.started[p].is_some());
        let broadcasts = (0..lines.conditions.len()).all(|c| {
            let decider = lines.conditions[c].process as usize;
            !self.who.active[decider] || self.told[c].is_some()
        });
        let messages = (0..lines.edges.len())
            .all(|e| lines.local(e) || !self.who.carries[e] || self.sent[e].is_some());
        processes && broadcasts && messages
    }

    /// The next tick at which something can happen.
    ///
    /// Ticks in between are skipped. A node becomes free only as a process ends. An edge delivers,
    /// an item becomes ready and a value becomes known only as a process ends or an item arrives,
    /// so a process can become ready only then. And a slot in which no item of its node is ready
    /// takes nothing and counts nothing; an item ready by a tick after this one, with no end and
    /// no arrival in between, is ready now.
    fn next_eventful(&self, tick: u64) -> u64 {
        let lines = self.lines;
        let ends = (0..lines.processes.len() as u64).filter_map(|p| self.end(p));
        let messages =
            (0..lines.edges.len()).filter_map(|e| self.arrival(lines.edges[e].from, self.sent[e]));
        let broadcasts = (0..lines.conditions.len()).filter_map(|c| self.known_from(c));
        let slots = (0..lines.slots.len() as u64)
            .filter(|&node| !self.ready_items(node, tick).is_empty())
            .map(|node| next_beginning(lines, slot_of(lines, node), tick));
        ends.chain(messages)
            .chain(broadcasts)
            .filter(|&event| event > tick)
            .chain(slots)
            .min()
            .expect("a course that is not complete goes on")
    }

    /// "Delay of a combination is the last end of a process."
    pub fn delay(&self) -> u64 {
        (0..self.lines.processes.len() as u64)
            .filter_map(|p| self.end(p))
            .max()
            .unwrap()
    }
}

/// Whether something that comes at a tick has come by another. "'By' and 'ready' include equality
/// throughout."
fn has_come(from: Option<u64>, tick: u64) -> bool {
    from.is_some_and(|from| from <= tick)
}
