//! The row query and the kernel lookup.

use std::ops::Range;

use crate::lines::Lines;
use crate::refuse::refuse_plan;
use crate::table::{entries, entry, row, row_node, Entry, ENTRY_WORDS};
use crate::text::read;

/// "A row's entries are handed back as the part of the lent table holding them: from the first
/// entry of that row to the next of another row, empty if none; stray last words are ignored."
/// Gives the part as a range of words; an empty one lies at the front.
pub fn row_query(words: &[u32], row: u32) -> Range<usize> {
    let entries = entries(words);
    let Some(first) = entries.iter().position(|e| e.row == row) else {
        return 0..0;
    };
    let next = (first..entries.len())
        .find(|&e| entries[e].row != row)
        .unwrap_or(entries.len());
    first * ENTRY_WORDS..next * ENTRY_WORDS
}

/// An answer of the kernel lookup.
#[derive(Clone, Copy, Debug, PartialEq, Eq)]
pub enum Answer {
    /// The number of an entry.
    Entry(u64),
    /// There is no such entry.
    None,
    /// The plan is refused with this number.
    Refused(u8),
}

impl Answer {
    /// The answer as one number: an entry's number, none as 2^64 - 1, refusal n as 2^64 - 1 - n.
    pub fn number(self) -> u64 {
        match self {
            Answer::Entry(number) => number,
            Answer::None => u64::MAX,
            Answer::Refused(number) => u64::MAX - u64::from(number),
        }
    }
}

/// What a unit asks the lookup: "node, tick, heard bits and values, and an entry number to begin
/// at."
#[derive(Clone, Copy, Debug, PartialEq, Eq)]
pub struct Question {
    /// The node that asks.
    pub node: u64,
    /// The tick.
    pub tick: u64,
    /// The bits of the conditions heard.
    pub heard: u64,
    /// Their values.
    pub values: u64,
    /// The entry number to begin at.
    pub begin: u64,
}

/// "The kernel lookup takes plan, table, node, tick, heard bits and values, and an entry number to
/// begin at."
pub fn lookup(lines: &Lines, words: &[u32], question: Question) -> Answer {
    match refuse_plan(lines) {
        Some(number) => Answer::Refused(number),
        None => first_entry(lines, words, question),
    }
}

/// "It gives the number of the first entry, from there on, of that node [...] at that tick whose
/// known bits are all heard, with the heard values at those bits, or none." For a plan in which 2
/// to 9 find nothing.
pub fn first_entry(lines: &Lines, words: &[u32], question: Question) -> Answer {
    words
        .chunks_exact(ENTRY_WORDS)
        .zip(0u64..)
        .filter(|(_, number)| *number >= question.begin)
        .find(|(words, _)| fits(lines, &entry(words), question))
        .map_or(Answer::None, |(_, number)| Answer::Entry(number))
}

/// Whether an entry is of the node, at the tick, and its column is heard.
fn fits(lines: &Lines, entry: &Entry, question: Question) -> bool {
    u64::from(entry.tick) == question.tick
        && of_node(lines, entry, question.node)
        && column_heard(entry, question.heard, question.values)
}

/// "of that node (an edge or broadcast counts to its sender)". "An unknown node gives none, a row
/// the plan lacks belongs to no node".
fn of_node(lines: &Lines, entry: &Entry, node: u64) -> bool {
    row(lines, entry.row).is_some_and(|row| row_node(lines, row) == node)
}

/// "whose known bits are all heard, with the heard values at those bits".
fn column_heard(entry: &Entry, heard: u64, values: u64) -> bool {
    let known = u64::from(entry.known);
    known & !heard == 0 && u64::from(entry.values) & known == values & known
}

/// "The firmware calls the lookup from C with numbers and byte slices, the plan as its text, words
/// little-endian." "stray last words or bytes are ignored."
pub fn c_lookup(text: &[u8], table: &[u8], question: Question) -> u64 {
    let answer = match read(text) {
        Err(number) => Answer::Refused(number),
        Ok(lines) => lookup(&lines, &little_endian_words(table), question),
    };
    answer.number()
}

/// The words that little-endian bytes stand for; stray last bytes are not looked at.
pub fn little_endian_words(bytes: &[u8]) -> Vec<u32> {
    bytes
        .chunks_exact(4)
        .map(|b| u32::from_le_bytes([b[0], b[1], b[2], b[3]]))
        .collect()
}
