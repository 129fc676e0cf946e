//! S and the packing case with a head, worked out by hand from the planning rules and "a slot lasts
//! (bytes + head) × byte ticks."

use reference::Entry;

use crate::{S, S_LISTING};

/// S with another head, as text.
pub fn s_with_head(head: u64) -> String {
    S.replacen("(head 0)", &format!("(head {head})"), 1)
}

/// The listings of S by head.
///
/// With head 1 a slot lasts (2 + 1) × 2 = 6 ticks and a round 12: node 0's slot begins at 0, 12,
/// 24, node 1's at 6, 18, 30, 42. Process 0 ends at 4; condition 0 is told at 12 and known at 18.
/// If it is false, process 2 runs from 18 to 23, and process 3 from 23 to 25. If it is true, edge 0
/// is sent at 24 and arrives at 30; process 1 runs from 30 to 33; edge 2, not ready at 30, is sent
/// at 42 and arrives at 48; process 3 runs from 48 to 50.
///
/// With head 16 a slot lasts (2 + 16) × 2 = 36 ticks and a round 72: node 0's slot begins at 0, 72,
/// 144, node 1's at 36, 108, 180, 252. Condition 0 is told at 72 and known at 108. If it is false,
/// process 2 runs from 108 to 113, and process 3 from 113 to 115. If it is true, edge 0 is sent at
/// 144 and arrives at 180; process 1 runs from 180 to 183; edge 2, not ready at 180, is sent at 252
/// and arrives at 288; process 3 runs from 288 to 290.
pub const S_LISTINGS: [(u64, &str); 3] = [
    (0, S_LISTING),
    (
        1,
        "\
(delay 50)
(passed (node 0) 0)
(passed (node 1) 0)
(start 0 (when) (at 0))
(start 1 (when (true 0)) (at 30))
(start 2 (when (false 0)) (at 18))
(start 3 (when (false 0)) (at 23))
(start 3 (when (true 0)) (at 48))
(send 0 (when (true 0)) (at 24) (place 0))
(send 2 (when (true 0)) (at 42) (place 0))
(tell 0 (when) (at 12) (place 0))
(frame 12 (node 0) (bytes 1))
(frame 24 (node 0) (bytes 1))
(frame 42 (node 1) (bytes 2))
",
    ),
    (
        16,
        "\
(delay 290)
(passed (node 0) 0)
(passed (node 1) 0)
(start 0 (when) (at 0))
(start 1 (when (true 0)) (at 180))
(start 2 (when (false 0)) (at 108))
(start 3 (when (false 0)) (at 113))
(start 3 (when (true 0)) (at 288))
(send 0 (when (true 0)) (at 144) (place 0))
(send 2 (when (true 0)) (at 252) (place 0))
(tell 0 (when) (at 72) (place 0))
(frame 72 (node 0) (bytes 1))
(frame 144 (node 0) (bytes 1))
(frame 252 (node 1) (bytes 2))
",
    ),
];

/// The listings of the packing case by head.
///
/// With head 1 the slots last 4 + 1 = 5 and 1 + 1 = 2 ticks, a round 7. Process 0 ends at 1. The
/// slot that begins at 7 takes edges 0 and 2; edge 1 does not fit the byte left and goes at 14. The
/// first frame arrives at 12: process 1 runs from 12 to 14, process 3 from 14 to 16. The second
/// arrives at 19: process 2 runs from 19 to 21.
///
/// With head 16 the slots last 20 and 17 ticks, a round 37. The frames go at 37 and 74 and arrive
/// at 57 and 94: process 1 runs from 57 to 59, process 3 from 59 to 61, process 2 from 94 to 96.
pub const PACKING_LISTINGS: [(u64, &str); 2] = [
    (
        1,
        "\
(delay 21)
(passed (node 0) 1)
(passed (node 1) 0)
(start 0 (when) (at 0))
(start 1 (when) (at 12))
(start 2 (when) (at 19))
(start 3 (when) (at 14))
(send 0 (when) (at 7) (place 0))
(send 1 (when) (at 14) (place 0))
(send 2 (when) (at 7) (place 3))
(frame 7 (node 0) (bytes 4))
(frame 14 (node 0) (bytes 2))
",
    ),
    (
        16,
        "\
(delay 96)
(passed (node 0) 1)
(passed (node 1) 0)
(start 0 (when) (at 0))
(start 1 (when) (at 57))
(start 2 (when) (at 94))
(start 3 (when) (at 59))
(send 0 (when) (at 37) (place 0))
(send 1 (when) (at 74) (place 0))
(send 2 (when) (at 37) (place 3))
(frame 37 (node 0) (bytes 4))
(frame 74 (node 0) (bytes 2))
",
    ),
];

/// A change of a table: the number of an entry, what becomes of it, and the refusal that the table
/// then meets with its old delay, 0 for none.
pub type Change = (usize, fn(&mut Entry), u8);

/// Changes of the table of S with head 1, whose delay is 50.
pub const CHANGES_WITH_HEAD_1: [Change; 17] = [
    (START_2, |e| e.tick = 18, 0),
    (START_2, |e| e.tick = 17, 15),
    (TELL_0, |e| e.tick = 13, 15),
    (TELL_0, |e| e.tick = 11, 17),
    (TELL_0, |e| e.tick = 8, 17),
    (TELL_0, |e| e.tick = 0, 16),
    (START_1, |e| e.tick = 29, 16),
    (START_3_TRUE, |e| e.tick = 47, 16),
    (SEND_2, |e| e.tick = 43, 16),
    (SEND_2, |e| e.tick = 41, 17),
    (SEND_2, |e| e.tick = 40, 17),
    (SEND_0, |e| e.place = 1, 0),
    (SEND_0, |e| e.place = 2, 19),
    (SEND_2, |e| e.place = 1, 19),
    (TELL_0, |e| e.place = 1, 0),
    (TELL_0, |e| e.place = 2, 19),
    (START_3_TRUE, |e| e.tick = 49, 20),
];

const START_1: usize = 1;
const START_2: usize = 2;
const START_3_TRUE: usize = 4;
const SEND_0: usize = 5;
const SEND_2: usize = 6;
const TELL_0: usize = 7;

/// Forms of S's plan line that are not of the form: without the head, or with a head at another
/// place, twice, or of digits that no number has.
pub const WRONG_PLAN_LINES: [&str; 12] = [
    "(plan (byte 2) (pick urgency))",
    "(plan (head 0) (byte 2) (pick urgency))",
    "(plan (byte 2) (pick urgency) (head 0))",
    "(plan (byte 2) (head 0) (head 0) (pick urgency))",
    "(plan (byte 2) (head 0) (pick urgency) (head 0))",
    "(plan (head 0) (pick urgency))",
    "(plan (byte 2) (head) (pick urgency))",
    "(plan (byte 2) (head ) (pick urgency))",
    "(plan (byte 2) (head 00) (pick urgency))",
    "(plan (byte 2) (head 01) (pick urgency))",
    "(plan (byte 2) (head -1) (pick urgency))",
    "(plan (byte 2) (head 1000000000) (pick urgency))",
];

/// S with another plan line.
pub fn s_with_plan_line(line: &str) -> String {
    let (_, others) = S.split_once('\n').unwrap();
    format!("{line}\n{others}")
}
