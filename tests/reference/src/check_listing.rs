//! The program that checks a printed table: from plan and listing to acceptance or a refusal.

use crate::check::check;
use crate::lines::Lines;
use crate::listing::refused;
use crate::planner::{plan_all, Ticks};
use crate::read_listing::{read_listing, Stated};
use crate::table::{frame_list, row, row_bytes, row_node, words, Entry, Frame, Row};
use crate::text::read;

/// The checking program: from the bytes on standard input to the bytes that it prints. Document 02:
/// "prints `(accepted)` or the refusal."
pub fn check_program(input: &[u8]) -> Vec<u8> {
    match check_input(input) {
        None => b"(accepted)\n".to_vec(),
        Some(number) => refused(number),
    }
}

/// Checks an input, and gives the first refusal that applies.
pub fn check_input(input: &[u8]) -> Option<u8> {
    let (text, listing) = split_input(input);
    check_listing(text, listing)
}

/// The plan text and the listing of an input. Document 02: "A program reads a plan up to the first
/// empty line, then a listing". "Without an empty line the listing is empty." A line is empty if its
/// line feed is the first byte or stands behind another line feed.
pub fn split_input(input: &[u8]) -> (&[u8], &[u8]) {
    let is_empty_line = |&p: &usize| input[p] == b'\n' && (p == 0 || input[p - 1] == b'\n');
    match (0..input.len()).find(is_empty_line) {
        Some(place) => (&input[..place], &input[place + 1..]),
        None => (input, &[]),
    }
}

/// Checks a listing for a plan text, and gives the first of 1 to 9 and 12 to 22 that applies.
pub fn check_listing(text: &[u8], listing: &[u8]) -> Option<u8> {
    match read(text) {
        Err(number) => Some(number),
        Ok(lines) => check_listing_of(&lines, listing, || pass_overs(&lines)),
    }
}

/// Checks a listing for a plan in which 2 to 9 find nothing and whose pass-over counts this gives.
/// Document 02: 21 is "tried after 9", 22 "tried after 20."
pub fn check_listing_of(
    lines: &Lines,
    listing: &[u8],
    pass_overs: impl FnOnce() -> Vec<u64>,
) -> Option<u8> {
    let stated = match read_listing(lines, listing) {
        Err(number) => return Some(number),
        Ok(stated) => stated,
    };
    if let Some(number) = check(lines, &words(&stated.entries), stated.delay) {
        return Some(number);
    }
    (wrong_frames(lines, &stated) || stated.passed != pass_overs()).then_some(22)
}

/// Document 02: "22: its frame lines are not those its entries give".
fn wrong_frames(lines: &Lines, stated: &Stated) -> bool {
    stated.frames != frames_given(lines, &stated.entries)
}

/// The frames that entries give, by the sentence on the frame list: one for each tick at which one
/// of them sends an item. At a tick there is one slot where 17 finds nothing.
pub fn frames_given(lines: &Lines, entries: &[Entry]) -> Vec<Frame> {
    let used = entries
        .iter()
        .filter_map(|entry| match row(lines, entry.row)? {
            Row::Process(_) => None,
            item => Some(Frame {
                tick: entry.tick,
                node: row_node(lines, item) as u32,
                bytes: entry.place + row_bytes(lines, item) as u32,
            }),
        });
    frame_list(used.collect())
}

/// Document 02: "or its passed line is not the plan's pass-over count", which point 3 makes a line and
/// a count for each node: those of the planning rules, whatever table is checked, and also where the
/// planner's table needs more words than lent.
pub fn pass_overs(lines: &Lines) -> Vec<u64> {
    plan_all(lines, Ticks::Eventful).passed_by_node
}
