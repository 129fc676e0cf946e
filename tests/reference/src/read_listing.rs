//! Reading a listing: what its lines state, for a plan in which 2 to 9 find nothing.

use crate::lines::Lines;
use crate::listing::listing;
use crate::table::{frame_words, row_number, words, Entry, Frame, Row};
use crate::text::Rest;

/// Document 02: "or has over 3,000 entries": the most that it may have.
pub const MOST_ENTRIES: usize = 3_000;

/// Document 02: "or 2,000 frames": the most that it may have.
pub const MOST_FRAMES: usize = 2_000;

/// What a listing states, entries and frames in the order in which their lines stand.
#[derive(Clone, Debug, PartialEq, Eq)]
pub struct Stated {
    /// The number of the delay line.
    pub delay: u64,
    /// The numbers of the passed lines, that of node 0 first.
    pub passed: Vec<u64>,
    /// The entries of the start, send and tell lines.
    pub entries: Vec<Entry>,
    /// The frames of the frame lines.
    pub frames: Vec<Frame>,
}

/// The listing that states this, as document 01 prints it.
pub fn print_stated(lines: &Lines, stated: &Stated) -> Vec<u8> {
    let (table, frames) = (words(&stated.entries), frame_words(&stated.frames));
    listing(lines, stated.delay, &stated.passed, &table, &frames)
}

/// Document 02: "21: the listing is not of its form, or has over 3,000 entries or 2,000 frames".
pub fn read_listing(lines: &Lines, listing: &[u8]) -> Result<Stated, u8> {
    let mut rest = Rest(listing);
    let stated = read_stated(lines, &mut rest).ok_or(21)?;
    let too_many = stated.entries.len() > MOST_ENTRIES || stated.frames.len() > MOST_FRAMES;
    if too_many || !rest.0.is_empty() {
        return Err(21);
    }
    Ok(stated)
}

/// Reads the delay line, the passed lines, the lines of entries and those of frames. Document 02:
/// "Within a row lines may stand in any order, and are read in it; rows and kinds keep theirs".
fn read_stated(lines: &Lines, rest: &mut Rest) -> Option<Stated> {
    let delay = read_delay(rest)?;
    let passed = (0..lines.slots.len() as u64).map(|node| read_passed(rest, node));
    let passed = passed.collect::<Option<Vec<u64>>>()?;
    let mut entries = Vec::new();
    while ["(start ", "(send ", "(tell "]
        .iter()
        .any(|&kind| rest.begins(kind))
    {
        entries.push(read_entry(lines, rest)?);
    }
    let mut frames = Vec::new();
    while rest.begins("(frame ") {
        frames.push(read_frame(rest)?);
    }
    entries.is_sorted_by_key(|e| e.row).then_some(Stated {
        delay,
        passed,
        entries,
        frames,
    })
}

/// Reads the delay line.
fn read_delay(rest: &mut Rest) -> Option<u64> {
    rest.expect("(delay ")?;
    let delay = rest.number()?;
    rest.expect(")\n")?;
    Some(delay)
}

/// Reads the passed line of a node. Document 02: "one line for each node, `(passed (node 0) 0)`, in
/// node order." "A listing with the old line, other nodes or another order is not of the form."
fn read_passed(rest: &mut Rest, node: u64) -> Option<u64> {
    rest.expect("(passed (node ")?;
    if rest.number()? != node {
        return None;
    }
    rest.expect(") ")?;
    let count = rest.number()?;
    rest.expect(")\n")?;
    Some(count)
}

/// Reads the line of an entry: a process starts, an edge or a condition also has a place. "start,
/// send and tell carry the number of a process, edge or condition that the plan has".
fn read_entry(lines: &Lines, rest: &mut Rest) -> Option<Entry> {
    let counts = (
        lines.processes.len(),
        lines.edges.len(),
        lines.conditions.len(),
    );
    let row = if rest.expect("(start ").is_some() {
        Row::Process(read_below(rest, counts.0)?)
    } else if rest.expect("(send ").is_some() {
        Row::Edge(read_below(rest, counts.1)?)
    } else {
        rest.expect("(tell ")?;
        Row::Condition(read_below(rest, counts.2)?)
    };
    rest.expect(" (when")?;
    let (known, values) = read_column(lines, rest)?;
    rest.expect(") (at ")?;
    let tick = rest.number()?;
    let place = match row {
        Row::Process(_) => 0,
        _ => {
            rest.expect(") (place ")?;
            rest.number()?
        }
    };
    rest.expect("))\n")?;
    Some(Entry {
        row: row_number(lines, row),
        known,
        values,
        tick: tick as u32,
        place: place as u32,
    })
}

/// Reads a number below a count.
fn read_below(rest: &mut Rest, count: usize) -> Option<usize> {
    let number = rest.number()? as usize;
    (number < count).then_some(number)
}

/// Reads the conditions of a `when`, which may be none, and gives their bits and their values.
/// "conditions in a `when` are the plan's too and ascend strictly."
fn read_column(lines: &Lines, rest: &mut Rest) -> Option<(u32, u32)> {
    let (mut known, mut values) = (0u32, 0u32);
    while rest.expect(" (").is_some() {
        let value = rest.one_of(&[("true ", 1), ("false ", 0)])?;
        let condition = read_below(rest, lines.conditions.len())?;
        rest.expect(")")?;
        let ascends = known >> condition == 0;
        if !ascends {
            return None;
        }
        known |= 1 << condition;
        values |= value << condition;
    }
    Some((known, values))
}

/// Reads a frame line. Nothing is asked of its numbers here.
fn read_frame(rest: &mut Rest) -> Option<Frame> {
    rest.expect("(frame ")?;
    let tick = rest.number()?;
    rest.expect(" (node ")?;
    let node = rest.number()?;
    rest.expect(") (bytes ")?;
    let bytes = rest.number()?;
    rest.expect("))\n")?;
    Some(Frame {
        tick: tick as u32,
        node: node as u32,
        bytes: bytes as u32,
    })
}
