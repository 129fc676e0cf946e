//! Pass-overs for each unit, document 02, point 3: plans whose slots do not stand in node order, their
//! listings worked out by hand, and passed lines with their answers.

use crate::listing_readings::Reading;
use crate::listings::{Replaced, PASSED, PASSED_0, PASSED_1};
use crate::{bus, listed, With};
use reference::{Lines, When};

/// Changes of the passed lines. Counts are compared with all their digits.
pub(crate) const COUNTS: [Replaced; 35] = [
    (PASSED, "", 21),
    (PASSED_0, "", 21),
    (PASSED_1, "", 21),
    (PASSED, "(passed 0)\n", 21),
    (PASSED, "(passed 0)\n(passed 0)\n", 21),
    (PASSED_0, "(passed 0)\n", 21),
    (PASSED_1, "(passed 0)\n", 21),
    (PASSED_0, "(passed 0)\n(passed (node 0) 0)\n", 21),
    (PASSED_1, "(passed (node 1) 0)\n(passed 0)\n", 21),
    (PASSED, "(passed (node 1) 0)\n(passed (node 0) 0)\n", 21),
    (PASSED_0, "(passed (node 0) 0)\n(passed (node 0) 0)\n", 21),
    (PASSED_1, "(passed (node 1) 0)\n(passed (node 1) 0)\n", 21),
    (PASSED_1, "(passed (node 1) 0)\n(passed (node 2) 0)\n", 21),
    (PASSED_1, "(passed (node 0) 0)\n", 21),
    (PASSED_1, "(passed (node 2) 0)\n", 21),
    (PASSED_1, "(passed (node 257) 0)\n", 21),
    (PASSED_1, "(passed (node 999999999) 0)\n", 21),
    (PASSED_1, "(passed (node 4294967297) 0)\n", 21),
    (PASSED_0, "(passed (node 00) 0)\n", 21),
    (PASSED_1, "(passed (node 01) 0)\n", 21),
    (PASSED_0, "(passed (node ) 0)\n", 21),
    (PASSED_0, "(passed node 0 0)\n", 21),
    (PASSED_0, "(passed 0 (node 0))\n", 21),
    (PASSED_0, "(passed (node 0) (0))\n", 21),
    (PASSED_0, "(passed (node 0))\n", 21),
    (PASSED_0, "(passed (node 0) 1)\n", 22),
    (PASSED_1, "(passed (node 1) 1)\n", 22),
    (PASSED_0, "(passed (node 0) 999999999)\n", 22),
    (PASSED_1, "(passed (node 1) 999999999)\n", 22),
    (PASSED_1, "(passed (node 1) 256)\n", 22),
    (PASSED_0, "(passed (node 0) 1000000000)\n", 21),
    (PASSED_1, "(passed (node 1) 4294967296)\n", 21),
    (PASSED_0, "(passed (node 0) 00)\n", 21),
    (PASSED_1, "(passed (node 1) 00)\n", 21),
    (PASSED_1, "(passed (node 1) )\n", 21),
];

/// Slots of 1 byte, that of node 1 first. Process 0 on node 0 sends a byte each to three processes on
/// node 1, process 1 on node 1 to two on node 0.
pub fn two_slots_turned() -> Lines {
    bus(1, &[(1, 1), (0, 1)])
        .all(0, 1)
        .all(1, 1)
        .all(1, 1)
        .all(1, 1)
        .all(1, 1)
        .all(0, 1)
        .all(0, 1)
        .edge(0, 2, 1, When::Always)
        .edge(0, 3, 1, When::Always)
        .edge(0, 4, 1, When::Always)
        .edge(1, 5, 1, When::Always)
        .edge(1, 6, 1, When::Always)
}

/// Node 0 sends at odd ticks: it leaves two messages behind at 1 and one at 3. Node 1 sends at even
/// ticks and leaves one behind at 2.
pub const TWO_SLOTS_TURNED: &str = "\
(delay 7)
(passed (node 0) 2)
(passed (node 1) 1)
(start 0 (when) (at 0))
(start 1 (when) (at 0))
(start 2 (when) (at 2))
(start 3 (when) (at 4))
(start 4 (when) (at 6))
(start 5 (when) (at 3))
(start 6 (when) (at 5))
(send 0 (when) (at 1) (place 0))
(send 1 (when) (at 3) (place 0))
(send 2 (when) (at 5) (place 0))
(send 3 (when) (at 2) (place 0))
(send 4 (when) (at 4) (place 0))
(frame 1 (node 0) (bytes 1))
(frame 2 (node 1) (bytes 1))
(frame 3 (node 0) (bytes 1))
(frame 4 (node 1) (bytes 1))
(frame 5 (node 0) (bytes 1))
";

/// Slots of 1 byte of nodes 2, 0 and 1. Process 0 on node 2 decides, and sends a byte to node 0, and
/// one to node 1 if its condition is true.
pub fn three_slots_turned() -> Lines {
    bus(1, &[(2, 1), (0, 1), (1, 1)])
        .all(2, 1)
        .all(0, 1)
        .all(1, 1)
        .decides(0)
        .edge(0, 1, 1, When::Always)
        .edge(0, 2, 1, When::True(0))
}

/// At 3 the broadcast goes and the first message stays, in both combinations; at 6 the second message
/// stays, if the condition is true.
pub const THREE_SLOTS_TURNED: &str = "\
(delay 11)
(passed (node 0) 0)
(passed (node 1) 0)
(passed (node 2) 3)
(start 0 (when) (at 0))
(start 1 (when (false 0)) (at 7))
(start 1 (when (true 0)) (at 7))
(start 2 (when (true 0)) (at 10))
(send 0 (when (false 0)) (at 6) (place 0))
(send 0 (when (true 0)) (at 6) (place 0))
(send 1 (when (true 0)) (at 9) (place 0))
(tell 0 (when) (at 3) (place 0))
(frame 3 (node 2) (bytes 1))
(frame 6 (node 2) (bytes 1))
(frame 9 (node 2) (bytes 1))
";

/// Slots of 1 byte of nodes 2, 0 and 1. The process of node n sends a byte each to n + 2 processes of
/// the next node, so that n + 1 of its slots leave something behind: counts 1, 2 and 3.
pub fn three_counts() -> Lines {
    let mut lines = bus(1, &[(2, 1), (0, 1), (1, 1)])
        .all(0, 1)
        .all(1, 1)
        .all(2, 1);
    for node in 0..3 {
        for _ in 0..node + 2 {
            let to = lines.processes.len() as u64;
            lines = lines.all((node + 1) % 3, 1).edge(node, to, 1, When::Always);
        }
    }
    lines
}

/// The passed lines of these counts.
fn passed(counts: &[u64]) -> String {
    let lines = counts.iter().enumerate();
    lines
        .map(|(node, count)| format!("(passed (node {node}) {count})\n"))
        .collect()
}

/// Listings of these plans, with the plan's counts and with others, each with its answer.
pub fn turned() -> Vec<Reading> {
    let counts: [(fn() -> Lines, String, &[u64], &[&[u64]]); 3] = [
        (
            two_slots_turned,
            TWO_SLOTS_TURNED.to_string(),
            &[2, 1],
            &[
                &[1, 2],
                &[3, 3],
                &[3, 0],
                &[0, 3],
                &[0, 0],
                &[2, 2],
                &[1, 1],
                &[2, 0],
            ],
        ),
        (
            three_slots_turned,
            THREE_SLOTS_TURNED.to_string(),
            &[0, 0, 3],
            &[
                &[3, 0, 0],
                &[0, 3, 0],
                &[2, 1, 0],
                &[3, 3, 3],
                &[0, 0, 2],
                &[0, 0, 4],
                &[1, 1, 1],
            ],
        ),
        (
            three_counts,
            listed(&three_counts()),
            &[1, 2, 3],
            &[
                &[1, 3, 2],
                &[2, 1, 3],
                &[2, 3, 1],
                &[3, 1, 2],
                &[3, 2, 1],
                &[6, 6, 6],
                &[6, 0, 0],
                &[2, 2, 2],
            ],
        ),
    ];
    let mut all = Vec::new();
    for (plan, listing, right, others) in counts {
        let with = |lines: &str| {
            assert_eq!(listing.matches(&passed(right)).count(), 1);
            listing.replacen(&passed(right), lines, 1)
        };
        for counts in others {
            all.push(("other counts", plan(), with(&passed(counts)), 22));
        }
        let sum: u64 = right.iter().sum();
        let old = with(&format!("(passed {sum})\n"));
        all.push(("the old line", plan(), old, 21));
        let lines = passed(right);
        let mut lines: Vec<&str> = lines.split_inclusive('\n').collect();
        let doubled = [&lines[..], &lines[lines.len() - 1..]].concat().concat();
        all.push(("a line doubled", plan(), with(&doubled), 21));
        all.push(("a line missing", plan(), with(&lines[1..].concat()), 21));
        let slots = plan().slots;
        let in_slot_order: String = slots.iter().map(|s| lines[s.node as usize]).collect();
        all.push(("lines in slot order", plan(), with(&in_slot_order), 21));
        lines.reverse();
        all.push((
            "lines in descending order",
            plan(),
            with(&lines.concat()),
            21,
        ));
        all.push(("as printed", plan(), listing, 0));
    }
    all
}
