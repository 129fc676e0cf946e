//! Listings about the limits of the form: 3,000 entries, 2,000 frames, the widest numbers; and plans
//! whose own table is larger than that, with sound listings that are not.

use crate::listings::{of_table, planned_listing, table_of, GREATEST};
use crate::passed_texts::line;
use crate::random::Random;
use crate::tables::{fully_merged, serial};
use crate::texts::split;
use reference::read_listing::{MOST_ENTRIES, MOST_FRAMES};
use reference::table::{row_number, Entry, Frame, Row};
use reference::{
    print_stated, Condition, Edge, Lines, PlanLine, Planned, Process, Slot, Stated, Waits, When,
};

/// A frame with the widest numbers.
const WIDEST_FRAME: Frame = Frame {
    tick: GREATEST as u32,
    node: GREATEST as u32,
    bytes: GREATEST as u32,
};

/// The longest listing that is of the form for a plan with an edge: each number as wide as it can be,
/// each column with every condition false, as many entries and frames as there may be.
pub fn longest(lines: &Lines) -> Stated {
    let entry = Entry {
        row: row_number(lines, Row::Edge(lines.edges.len() - 1)),
        known: (1 << lines.conditions.len()) - 1,
        values: 0,
        tick: GREATEST as u32,
        place: GREATEST as u32,
    };
    Stated {
        delay: GREATEST,
        passed: vec![GREATEST; lines.slots.len()],
        entries: vec![entry; MOST_ENTRIES],
        frames: vec![WIDEST_FRAME; MOST_FRAMES],
    }
}

/// A listing with one of its entries repeated until there are so many, where there are fewer.
pub fn with_entries(stated: &Stated, count: usize, random: &mut Random) -> Stated {
    let mut stated = stated.clone();
    let place = random.index(stated.entries.len());
    let more = count.saturating_sub(stated.entries.len());
    let again = vec![stated.entries[place]; more];
    stated.entries.splice(place..place, again);
    stated
}

/// A listing with widest frames put behind its own until there are so many.
pub fn with_widest_frames(stated: &Stated, count: usize) -> Stated {
    let mut stated = stated.clone();
    stated.frames.resize(count, WIDEST_FRAME);
    stated
}

/// A longest listing with the passed line of document 01 in place of those of the nodes, which is not
/// of the form.
pub fn with_the_old_line(longest: &[u8]) -> Vec<u8> {
    let all = split(longest).into_iter();
    let old = format!("(passed {GREATEST})\n").into_bytes();
    let others = all.filter(|line| !line.starts_with(b"(passed "));
    let mut others: Vec<&[u8]> = others.collect();
    others.insert(1, &old);
    others.concat()
}

/// A longest listing with a passed line for one node more than the plan has.
fn with_a_further_node(lines: &Lines, longest: &[u8]) -> Vec<u8> {
    let nodes = lines.slots.len();
    let further = line(nodes as u64, GREATEST).into_bytes();
    let mut all = split(longest);
    all.insert(1 + nodes, &further);
    all.concat()
}

/// Texts about the limits, made from a sound listing within them, each with its answer.
pub fn about_the_limits(
    lines: &Lines,
    stated: &Stated,
    random: &mut Random,
) -> Vec<(&'static str, Vec<u8>, u8)> {
    let repeated = |count, random: &mut Random| with_entries(stated, count, random);
    let full = longest(lines);
    let one_more = Stated {
        entries: [&full.entries[..], &full.entries[..1]].concat(),
        ..full.clone()
    };
    let most = repeated(MOST_ENTRIES, random);
    let too_many = repeated(MOST_ENTRIES + 1, random);
    let far_too_many = repeated(4 * MOST_ENTRIES, random);
    let all_frames = with_widest_frames(stated, MOST_FRAMES);
    let with_frame = with_widest_frames(stated, MOST_FRAMES + 1);
    let both = with_widest_frames(&most, MOST_FRAMES);
    let answer = |changed: &Stated| {
        if changed.entries != stated.entries {
            14
        } else if changed.frames != stated.frames {
            22
        } else {
            0
        }
    };
    let print = |stated: &Stated| print_stated(lines, stated);
    let longest = print(&full);
    vec![
        ("the longest", longest.clone(), 13),
        ("the longest and a byte", [&longest[..], b"("].concat(), 21),
        (
            "the longest with the old passed line",
            with_the_old_line(&longest),
            21,
        ),
        (
            "the longest with a passed line more",
            with_a_further_node(lines, &longest),
            21,
        ),
        (
            "the longest without its last byte",
            longest[..longest.len() - 1].to_vec(),
            21,
        ),
        ("the longest with an entry more", print(&one_more), 21),
        (
            "the longest with a frame more",
            print(&with_widest_frames(&full, MOST_FRAMES + 1)),
            21,
        ),
        ("3,000 entries", print(&most), answer(&most)),
        ("3,001 entries", print(&too_many), 21),
        ("12,000 entries", print(&far_too_many), 21),
        ("2,000 frames", print(&all_frames), answer(&all_frames)),
        ("2,001 frames", print(&with_frame), 21),
        (
            "20,000 frames",
            print(&with_widest_frames(stated, 20_000)),
            21,
        ),
        ("3,000 entries, 2,000 frames", print(&both), answer(&both)),
        (
            "3,000 entries, 2,001 frames",
            print(&with_widest_frames(&most, MOST_FRAMES + 1)),
            21,
        ),
        (
            "3,001 entries, 2,000 frames",
            print(&with_widest_frames(&too_many, MOST_FRAMES)),
            21,
        ),
    ]
}

/// Sound listings of a plan whose own table may be too large for a listing: a serial table and the
/// planner's, each with as few columns as its ticks allow, and each with the plan's pass-over counts.
pub fn short_listings(lines: &Lines, planned: &Planned, random: &mut Random) -> Vec<Stated> {
    let own = table_of(&planned_listing(planned));
    [serial(lines, random), own]
        .map(|table| of_table(lines, &fully_merged(&table), &planned.passed_by_node))
        .to_vec()
}

/// The deciders of `many_columns`, each of a condition.
const DECIDERS: u64 = 6;

/// The processes of `many_columns`.
const PROCESSES: u64 = 64;

/// A plan of six deciders on node 0, one behind the other, and 58 processes on node 1, to each of which
/// the last decider sends 1 byte; slots of node 1 and of node 0 in this order, of so many bytes, that
/// of node 0 of 7 or more. All values are known before a process starts on node 1, so that each has 64
/// entries, though it does not depend on any of them.
pub fn many_columns(plan: PlanLine, bytes: (u64, u64)) -> Lines {
    let deciders = (0..DECIDERS).map(|_| process(0));
    let others = (DECIDERS..PROCESSES).map(|_| process(1));
    let behind = (1..DECIDERS).map(|to| edge(to - 1, to));
    let messages = (DECIDERS..PROCESSES).map(|to| edge(DECIDERS - 1, to));
    Lines {
        plan,
        slots: vec![
            Slot {
                node: 1,
                bytes: bytes.0,
            },
            Slot {
                node: 0,
                bytes: bytes.1,
            },
        ],
        processes: deciders.chain(others).collect(),
        conditions: (0..DECIDERS).map(|process| Condition { process }).collect(),
        edges: behind.chain(messages).collect(),
    }
}

/// A process of 1 tick.
fn process(node: u64) -> Process {
    Process {
        node,
        ticks: 1,
        waits: Waits::All,
    }
}

/// An edge of 1 byte.
fn edge(from: u64, to: u64) -> Edge {
    Edge {
        from,
        to,
        bytes: 1,
        when: When::Always,
    }
}
