//! The start table and the frame list, as words.

use crate::bus::slot_ticks_of;
use crate::lines::Lines;
use crate::who_runs::{Column, Combination};

/// "five to an entry".
pub const ENTRY_WORDS: usize = 5;

/// "The frame list has three words for each slot occurrence".
pub const FRAME_WORDS: usize = 3;

/// What a row of the table is about.
#[derive(Clone, Copy, Debug, PartialEq, Eq)]
pub enum Row {
    /// The start of this process.
    Process(usize),
    /// The message of this edge.
    Edge(usize),
    /// The broadcast of this condition.
    Condition(usize),
}

/// "Rows: processes, then edges, then conditions." Gives nothing for a row that the plan lacks.
pub fn row(lines: &Lines, number: u32) -> Option<Row> {
    let number = number as usize;
    let processes = lines.processes.len();
    let edges = lines.edges.len();
    if number < processes {
        Some(Row::Process(number))
    } else if number < processes + edges {
        Some(Row::Edge(number - processes))
    } else if number < lines.rows() {
        Some(Row::Condition(number - processes - edges))
    } else {
        None
    }
}

/// The number of a row.
pub fn row_number(lines: &Lines, row: Row) -> u32 {
    let number = match row {
        Row::Process(process) => process,
        Row::Edge(edge) => lines.processes.len() + edge,
        Row::Condition(condition) => lines.processes.len() + lines.edges.len() + condition,
    };
    number as u32
}

/// The process that a row is about: the one that starts, or the sender of the item.
pub fn row_process(lines: &Lines, row: Row) -> u64 {
    match row {
        Row::Process(process) => process as u64,
        Row::Edge(edge) => lines.edges[edge].from,
        Row::Condition(condition) => lines.conditions[condition].process,
    }
}

/// The node of a row: "an edge or broadcast counts to its sender".
pub fn row_node(lines: &Lines, row: Row) -> u64 {
    lines.node(row_process(lines, row))
}

/// The bytes that the item of a row takes in a frame: a message its own, a broadcast "1 byte".
pub fn row_bytes(lines: &Lines, row: Row) -> u64 {
    match row {
        Row::Process(_) => 0,
        Row::Edge(edge) => lines.edges[edge].bytes,
        Row::Condition(_) => 1,
    }
}

/// The tick at which the item of a row arrives: "an item arrives one slot length after its tick".
pub fn arrival(lines: &Lines, row: Row, tick: u64) -> u64 {
    tick + slot_ticks_of(lines, row_node(lines, row))
}

/// An entry: "row, bits of known conditions, their values, tick, place in the frame (0 for
/// processes)."
#[derive(Clone, Copy, Debug, PartialEq, Eq)]
pub struct Entry {
    /// The number of the row.
    pub row: u32,
    /// The bits of the known conditions.
    pub known: u32,
    /// The values of the known conditions.
    pub values: u32,
    /// The tick.
    pub tick: u32,
    /// The first byte in the frame.
    pub place: u32,
}

impl Entry {
    /// The five words of the entry.
    pub fn words(&self) -> [u32; ENTRY_WORDS] {
        [self.row, self.known, self.values, self.tick, self.place]
    }

    /// The column of the entry.
    pub fn column(&self) -> Column {
        Column {
            known: self.known,
            values: self.values,
        }
    }

    /// "A column is met when the combination has its values at its known bits."
    pub fn met(&self, combination: Combination) -> bool {
        combination & self.known == self.values & self.known
    }
}

/// The entries that a table's words hold; stray last words are not looked at.
pub fn entries(words: &[u32]) -> Vec<Entry> {
    words.chunks_exact(ENTRY_WORDS).map(entry).collect()
}

/// The entry that five words stand for.
pub fn entry(words: &[u32]) -> Entry {
    Entry {
        row: words[0],
        known: words[1],
        values: words[2],
        tick: words[3],
        place: words[4],
    }
}

/// The words of entries, one after the other.
pub fn words(entries: &[Entry]) -> Vec<u32> {
    entries.iter().flat_map(Entry::words).collect()
}

/// "Equal entries stand once; order is row, tick, known, values."
pub fn in_order(mut entries: Vec<Entry>) -> Vec<Entry> {
    entries.sort_by_key(|e| (e.row, e.tick, e.known, e.values));
    entries.dedup();
    entries
}

/// A slot occurrence that is used: its tick, its node and the last byte used, counted from 1.
#[derive(Clone, Copy, Debug, PartialEq, Eq)]
pub struct Frame {
    /// The tick at which the slot begins.
    pub tick: u32,
    /// The node of the slot.
    pub node: u32,
    /// The last used byte, counted from 1.
    pub bytes: u32,
}

/// "three words for each slot occurrence used in any combination: tick, node, greatest last used
/// byte counted from 1; ascending ticks."
pub fn frame_list(mut used: Vec<Frame>) -> Vec<Frame> {
    used.sort_by_key(|f| (f.tick, std::cmp::Reverse(f.bytes)));
    used.dedup_by_key(|f| f.tick);
    used
}

/// The frames that a frame list's words hold.
pub fn frames(words: &[u32]) -> Vec<Frame> {
    words
        .chunks_exact(FRAME_WORDS)
        .map(|w| Frame {
            tick: w[0],
            node: w[1],
            bytes: w[2],
        })
        .collect()
}

/// The words of frames, one after the other.
pub fn frame_words(frames: &[Frame]) -> Vec<u32> {
    frames
        .iter()
        .flat_map(|f| [f.tick, f.node, f.bytes])
        .collect()
}
