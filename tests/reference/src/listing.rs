//! The listing of a plan, in lent bytes and as the planning program prints it.

use crate::lines::Lines;
use crate::planner::{plan, Planned};
use crate::table::{entries, frames, row, Entry, Frame, Row, ENTRY_WORDS, FRAME_WORDS};
use crate::text::read;

/// "lending 3,000 entries and 2,000 frames": the words of the table.
pub const PROGRAM_WORDS: usize = 3_000 * ENTRY_WORDS;

/// "lending 3,000 entries and 2,000 frames": the words of the frame list.
pub const PROGRAM_FRAME_WORDS: usize = 2_000 * FRAME_WORDS;

/// The planning program: from the bytes on standard input to the bytes that it prints.
pub fn program(input: &[u8]) -> Vec<u8> {
    let planned = read(input).and_then(|lines| {
        let planned = plan(&lines, PROGRAM_WORDS, PROGRAM_FRAME_WORDS)?;
        Ok((lines, planned))
    });
    match planned {
        Err(number) => refused(number),
        Ok((lines, p)) => listing(&lines, p.delay, &p.passed_by_node, &p.words, &p.frames),
    }
}

/// "A refusal prints `(refused 9)`, with its number, alone."
pub fn refused(number: u8) -> Vec<u8> {
    format!("(refused {number})\n").into_bytes()
}

/// The listing: delay, the pass-over count of each node, entries in the order of the table, frames in
/// the order of the frame list. Document 02: "the listing's passed line becomes one line for each
/// node, `(passed (node 0) 0)`, in node order."
pub fn listing(
    lines: &Lines,
    delay: u64,
    passed: &[u64],
    words: &[u32],
    frame_words: &[u32],
) -> Vec<u8> {
    let mut text = format!("(delay {delay})\n");
    for (node, count) in passed.iter().enumerate() {
        text += &format!("(passed (node {node}) {count})\n");
    }
    for entry in entries(words) {
        text += &print_entry(lines, &entry);
    }
    for frame in frames(frame_words) {
        text += &print_frame(&frame);
    }
    text.into_bytes()
}

/// The listing of a text's plan, or the first refusal that applies with so many bytes lent for it. The
/// planner is lent what the planning program lends it. A refusal is the number alone: only the
/// program prints its line.
pub fn list_plan(text: &[u8], bytes_lent: usize) -> Result<Vec<u8>, u8> {
    let lines = read(text)?;
    let p = plan(&lines, usize::MAX, usize::MAX)?;
    let listing = listing(&lines, p.delay, &p.passed_by_node, &p.words, &p.frames);
    match refuse_listing(&p, listing.len(), bytes_lent) {
        Some(number) => Err(number),
        None => Ok(listing),
    }
}

/// "10. The planner's entries need more words, or a written text more bytes, than lent. 11. Its
/// frames need more words than lent." The text is the whole listing, of so many bytes, also where
/// its frames are more than 2,000.
pub fn refuse_listing(planned: &Planned, listing_bytes: usize, bytes_lent: usize) -> Option<u8> {
    if planned.words.len() > PROGRAM_WORDS || listing_bytes > bytes_lent {
        return Some(10);
    }
    if planned.frames.len() > PROGRAM_FRAME_WORDS {
        return Some(11);
    }
    None
}

/// "start, send and tell carry the number of a process, edge or condition that the plan has". An
/// entry of a row that the plan lacks gives no line.
fn print_entry(lines: &Lines, entry: &Entry) -> String {
    let when = print_column(lines, entry);
    let (tick, place) = (entry.tick, entry.place);
    match row(lines, entry.row) {
        None => String::new(),
        Some(Row::Process(n)) => format!("(start {n} {when} (at {tick}))\n"),
        Some(Row::Edge(n)) => format!("(send {n} {when} (at {tick}) (place {place}))\n"),
        Some(Row::Condition(n)) => format!("(tell {n} {when} (at {tick}) (place {place}))\n"),
    }
}

/// "conditions in a `when` are the plan's too and ascend strictly."
fn print_column(lines: &Lines, entry: &Entry) -> String {
    let mut when = "(when".to_string();
    for condition in 0..lines.conditions.len() {
        if entry.known >> condition & 1 == 1 {
            let value = entry.values >> condition & 1 == 1;
            when += &format!(" ({value} {condition})");
        }
    }
    when + ")"
}

fn print_frame(frame: &Frame) -> String {
    format!(
        "(frame {} (node {}) (bytes {}))\n",
        frame.tick, frame.node, frame.bytes
    )
}
