//! Listings for S and whole inputs of the checking program, each with its answer by hand: 0 for
//! acceptance, or the number of the refusal.

use crate::passed_lines::COUNTS;
use crate::{S, S_LISTING};

/// What a listing or an input is, its text, and its answer.
pub type Worked = (&'static str, String, u8);

/// S with everything a round, 8 ticks, later. Its passed lines are the plan's counts all the same.
pub const S_A_ROUND_LATER: &str = "\
(delay 42)
(passed (node 0) 0)
(passed (node 1) 0)
(start 0 (when) (at 8))
(start 1 (when (true 0)) (at 28))
(start 2 (when (false 0)) (at 20))
(start 3 (when (false 0)) (at 25))
(start 3 (when (true 0)) (at 40))
(send 0 (when (true 0)) (at 24) (place 0))
(send 2 (when (true 0)) (at 36) (place 0))
(tell 0 (when) (at 16) (place 0))
(frame 16 (node 0) (bytes 1))
(frame 24 (node 0) (bytes 1))
(frame 36 (node 1) (bytes 2))
";

/// The listing of S with parts of it replaced, each of which stands in it once.
pub fn s_listing_with(changes: &[(&str, &str)]) -> String {
    let mut listing = S_LISTING.to_string();
    for (old, new) in changes {
        assert_eq!(listing.matches(old).count(), 1, "{old}");
        listing = listing.replacen(old, new, 1);
    }
    listing
}

const DELAY: &str = "(delay 34)\n";
pub(crate) const PASSED_0: &str = "(passed (node 0) 0)\n";
pub(crate) const PASSED_1: &str = "(passed (node 1) 0)\n";
/// Both passed lines.
pub(crate) const PASSED: &str = "(passed (node 0) 0)\n(passed (node 1) 0)\n";
const START_0: &str = "(start 0 (when) (at 0))\n";
const START_1: &str = "(start 1 (when (true 0)) (at 20))\n";
const START_2: &str = "(start 2 (when (false 0)) (at 12))\n";
const START_3_FALSE: &str = "(start 3 (when (false 0)) (at 17))\n";
const START_3_TRUE: &str = "(start 3 (when (true 0)) (at 32))\n";
const SEND_0: &str = "(send 0 (when (true 0)) (at 16) (place 0))\n";
const SEND_2: &str = "(send 2 (when (true 0)) (at 28) (place 0))\n";
const TELL_0: &str = "(tell 0 (when) (at 8) (place 0))\n";
const FRAME_8: &str = "(frame 8 (node 0) (bytes 1))\n";
const FRAME_16: &str = "(frame 16 (node 0) (bytes 1))\n";
const FRAME_28: &str = "(frame 28 (node 1) (bytes 2))\n";

/// A part of S's listing, what replaces it, and the answer.
pub(crate) type Replaced = (&'static str, &'static str, u8);

/// Changes of the delay line. Delays are compared with all their digits.
const DELAYS: [Replaced; 9] = [
    (DELAY, "", 21),
    (DELAY, "(delay 34)\n(delay 34)\n", 21),
    (DELAY, "(delay 33)\n", 20),
    (DELAY, "(delay 35)\n", 20),
    (DELAY, "(delay 999999999)\n", 20),
    (DELAY, "(delay 1000000000)\n", 21),
    (DELAY, "(delay 034)\n", 21),
    (DELAY, "(delay )\n", 21),
    (DELAY, "(delay -34)\n", 21),
];

/// Changes of the lines of entries. Where an item is moved the old frame lines stay, so that 22 would
/// apply as well.
const ENTRIES: [Replaced; 41] = [
    (START_0, "(start 0 (when) (at 4))\n", 0),
    (START_0, "(start 0 (when) (at 5))\n", 16),
    (START_0, "", 14),
    (
        START_0,
        "(start 0 (when) (at 0))\n(start 0 (when) (at 0))\n",
        14,
    ),
    (START_2, "(start 2 (when (false 0)) (at 11))\n", 15),
    (START_2, "(start 2 (when) (at 12))\n", 14),
    (START_2, "(start 2 (when (true 0)) (at 12))\n", 14),
    (START_3_TRUE, "(start 3 (when (true 0)) (at 31))\n", 16),
    (START_3_TRUE, "(start 3 (when (true 0)) (at 33))\n", 20),
    (
        START_3_TRUE,
        "(start 3 (when (true 0)) (at 999999999))\n",
        20,
    ),
    (
        START_3_TRUE,
        "(start 3 (when (true 0)) (at 1000000000))\n",
        21,
    ),
    (START_3_TRUE, "(start 3 (when (true 0)) (at 032))\n", 21),
    (SEND_2, "(send 2 (when (true 0)) (at 27) (place 0))\n", 17),
    (SEND_2, "(send 2 (when (true 0)) (at 28) (place 1))\n", 19),
    (SEND_2, "(send 2 (when (true 0)) (at 28) (place 63))\n", 19),
    (SEND_2, "(send 2 (when (true 0)) (at 28) (place 64))\n", 13),
    (
        SEND_2,
        "(send 2 (when (true 0)) (at 28) (place 999999999))\n",
        13,
    ),
    (
        SEND_2,
        "(send 2 (when (true 0)) (at 28) (place 1000000000))\n",
        21,
    ),
    (SEND_2, "(send 2 (when (true 0)) (at 28))\n", 21),
    (SEND_0, "(send 0 (when (true 0)) (at 16) (place 1))\n", 22),
    (TELL_0, "(tell 0 (when) (at 8) (place 1))\n", 22),
    (TELL_0, "(tell 0 (when) (at 8) (place 64))\n", 13),
    (TELL_0, "(tell 0 (when) (at 8))\n", 21),
    (TELL_0, "(tell 0 (when) (at 0) (place 0))\n", 16),
    (TELL_0, "(tell 1 (when) (at 8) (place 0))\n", 21),
    (START_3_TRUE, "(start 4 (when (true 0)) (at 32))\n", 21),
    (SEND_2, "(send 4 (when (true 0)) (at 28) (place 0))\n", 21),
    (SEND_2, "(send 1 (when (true 0)) (at 28) (place 0))\n", 13),
    (SEND_2, "(send 3 (when (true 0)) (at 28) (place 0))\n", 13),
    (START_2, "(start 2 (when (false 1)) (at 12))\n", 21),
    (START_2, "(start 2 (when (true 1)) (at 12))\n", 21),
    (
        START_2,
        "(start 2 (when (false 0) (false 0)) (at 12))\n",
        21,
    ),
    (START_2, "(start 2 (when (true 0) (false 0)) (at 12))\n", 21),
    (
        START_2,
        "(start 2 (when (false 0)) (at 12) (place 0))\n",
        21,
    ),
    (START_2, "(start 2 (when (false 0 )) (at 12))\n", 21),
    (START_2, "(start 2 (when (False 0)) (at 12))\n", 21),
    (START_2, "(start 02 (when (false 0)) (at 12))\n", 21),
    (START_2, "(start 2 (when (false 00)) (at 12))\n", 21),
    (START_0, "(start 0 (when ) (at 0))\n", 21),
    (START_0, "(start 0 (when always) (at 0))\n", 21),
    (START_0, "(start 0 (at 0))\n", 21),
];

/// Changes of the frame lines.
const FRAMES: [Replaced; 17] = [
    (FRAME_8, "", 22),
    (FRAME_28, "", 22),
    (
        FRAME_16,
        "(frame 16 (node 0) (bytes 1))\n(frame 16 (node 0) (bytes 1))\n",
        22,
    ),
    (
        FRAME_8,
        "(frame 0 (node 0) (bytes 1))\n(frame 8 (node 0) (bytes 1))\n",
        22,
    ),
    (
        FRAME_28,
        "(frame 28 (node 1) (bytes 2))\n(frame 32 (node 0) (bytes 1))\n",
        22,
    ),
    (FRAME_8, "(frame 9 (node 0) (bytes 1))\n", 22),
    (FRAME_8, "(frame 8 (node 1) (bytes 1))\n", 22),
    (FRAME_8, "(frame 8 (node 2) (bytes 1))\n", 22),
    (FRAME_8, "(frame 8 (node 999999999) (bytes 1))\n", 22),
    (FRAME_8, "(frame 8 (node 1000000000) (bytes 1))\n", 21),
    (FRAME_8, "(frame 8 (node 0) (bytes 2))\n", 22),
    (FRAME_8, "(frame 8 (node 0) (bytes 0))\n", 22),
    (FRAME_28, "(frame 28 (node 1) (bytes 1))\n", 22),
    (FRAME_28, "(frame 28 (node 1) (bytes 02))\n", 21),
    (FRAME_28, "(frame 28 (node 1))\n", 21),
    (FRAME_28, "(frame 28 (bytes 2) (node 1))\n", 21),
    (FRAME_28, "(frame 28 (node 1) (bytes 2) (place 0))\n", 21),
];

/// Listings of S with lines moved, and with more than one change.
fn rearranged() -> Vec<Worked> {
    let swapped = |a: &str, b: &str| {
        let with_mark = s_listing_with(&[(a, "first"), (b, a)]);
        with_mark.replacen("first", b, 1)
    };
    let moved = |line: &str, before: &str| {
        let both = format!("{line}{before}");
        s_listing_with(&[(line, ""), (before, &both)])
    };
    vec![
        (
            "the lines of row 3 exchanged",
            swapped(START_3_FALSE, START_3_TRUE),
            0,
        ),
        ("delay and passed exchanged", swapped(DELAY, PASSED_0), 21),
        ("delay behind passed", moved(DELAY, START_0), 21),
        ("passed lines exchanged", swapped(PASSED_0, PASSED_1), 21),
        ("an entry within passed", moved(START_0, PASSED_1), 21),
        ("starts out of order", swapped(START_0, START_1), 21),
        ("sends out of order", swapped(SEND_0, SEND_2), 21),
        ("a send before a start", moved(SEND_0, START_3_TRUE), 21),
        ("a tell before a send", moved(TELL_0, SEND_2), 21),
        ("a frame before an entry", moved(FRAME_8, TELL_0), 21),
        ("a frame before the totals", moved(FRAME_8, DELAY), 21),
        ("an entry before passed", moved(START_0, PASSED_0), 21),
        ("passed last", s_listing_with(&[(PASSED, "")]) + PASSED, 21),
        (
            "a passed line last",
            s_listing_with(&[(PASSED_1, "")]) + PASSED_1,
            21,
        ),
        ("two frames exchanged", swapped(FRAME_8, FRAME_16), 22),
        (
            "the last two frames exchanged",
            swapped(FRAME_16, FRAME_28),
            22,
        ),
        (
            "a place with its frame",
            s_listing_with(&[
                ("(at 16) (place 0)", "(at 16) (place 1)"),
                (
                    "(frame 16 (node 0) (bytes 1))",
                    "(frame 16 (node 0) (bytes 2))",
                ),
            ]),
            0,
        ),
        (
            "delay 33 and passed 1",
            s_listing_with(&[(DELAY, "(delay 33)\n"), (PASSED_1, "(passed (node 1) 1)\n")]),
            20,
        ),
        (
            "delay 33 and a frame missing",
            s_listing_with(&[(DELAY, "(delay 33)\n"), (FRAME_8, "")]),
            20,
        ),
        (
            "a frame missing and passed 1",
            s_listing_with(&[(FRAME_8, ""), (PASSED_0, "(passed (node 0) 1)\n")]),
            22,
        ),
        (
            "a place of 64 and process 4",
            s_listing_with(&[
                ("28) (place 0)", "28) (place 64)"),
                ("(start 3 (when (t", "(start 4 (when (t"),
            ]),
            21,
        ),
        (
            "a place of 64 and no start 0",
            s_listing_with(&[("28) (place 0)", "28) (place 64)"), (START_0, "")]),
            13,
        ),
        (
            "no entries",
            format!("{DELAY}{PASSED}{FRAME_8}{FRAME_16}{FRAME_28}"),
            14,
        ),
        (
            "no frames",
            S_LISTING[..S_LISTING.find(FRAME_8).unwrap()].to_string(),
            22,
        ),
    ]
}

/// Listings that stand behind S and an empty line, each with its answer.
pub fn behind_s() -> Vec<Worked> {
    let mut all = vec![
        ("as printed", S_LISTING.to_string(), 0),
        ("a round later", S_A_ROUND_LATER.to_string(), 0),
        (
            "a round later, passed 1",
            S_A_ROUND_LATER.replace("(passed (node 1) 0)", "(passed (node 1) 1)"),
            22,
        ),
        ("nothing", String::new(), 21),
        ("totals of 0 alone", format!("(delay 0)\n{PASSED}"), 14),
        (
            "the totals of document 01 alone",
            "(delay 0)\n(passed 0)\n".to_string(),
            21,
        ),
        (
            "the delay and one passed line",
            format!("(delay 34)\n{PASSED_0}"),
            21,
        ),
        ("the delay alone", "(delay 34)\n".to_string(), 21),
        ("a byte behind", format!("{S_LISTING}x"), 21),
        ("an empty line behind", format!("{S_LISTING}\n"), 21),
        ("an empty line before", format!("\n{S_LISTING}"), 21),
        (
            "an empty line within",
            S_LISTING.replacen(")\n(s", ")\n\n(s", 1),
            21,
        ),
        ("itself behind", S_LISTING.repeat(2), 21),
        ("no last line feed", S_LISTING.trim_end().to_string(), 21),
        ("carriage returns", S_LISTING.replace('\n', "\r\n"), 21),
        ("a refusal", "(refused 9)\n".to_string(), 21),
        ("the plan", S.to_string(), 21),
    ];
    let changes = DELAYS.into_iter().chain(COUNTS);
    for (old, new, answer) in changes.chain(ENTRIES).chain(FRAMES) {
        all.push((new, s_listing_with(&[(old, new)]), answer));
    }
    all.extend(rearranged());
    all
}

/// Inputs of the checking program, each with its answer.
pub fn inputs() -> Vec<Worked> {
    let without_slots = "(plan (byte 2) (head 0) (pick urgency))\n";
    let mut all = vec![
        ("S alone", S.to_string(), 21),
        ("S and an empty line", format!("{S}\n"), 21),
        ("S and two empty lines", format!("{S}\n\n{S_LISTING}"), 21),
        ("S and a line with a blank", format!("{S} \n{S_LISTING}"), 1),
        ("S and a carriage return", format!("{S}\r\n{S_LISTING}"), 1),
        (
            "S and its listing without an empty line",
            format!("{S}{S_LISTING}"),
            1,
        ),
        ("the listing first", format!("{S_LISTING}\n{S}"), 1),
        ("nothing", String::new(), 1),
        ("an empty line", "\n".to_string(), 1),
        ("an empty line first", format!("\n{S}\n{S_LISTING}"), 1),
        ("no slots", format!("{without_slots}\nx"), 2),
        ("no slots, nothing behind", without_slots.to_string(), 2),
        (
            "head 17",
            format!("{}\nx", S.replace("head 0", "head 17")),
            3,
        ),
        (
            "a long message",
            format!("{}\n", S.replace("(bytes 2) (when", "(bytes 3) (when")),
            9,
        ),
        (
            "S cut, then an empty line",
            format!("{}\n{S_LISTING}", &S[..S.len() - 1]),
            1,
        ),
        (
            "an empty line before the last edge",
            S.replace("\n(edge (from 2)", "\n\n(edge (from 2)") + S_LISTING,
            21,
        ),
        (
            "an empty line before the first slot",
            S.replacen("\n(slot", "\n\n(slot", 1) + S_LISTING,
            2,
        ),
    ];
    for (what, listing, answer) in behind_s() {
        all.push((what, format!("{S}\n{listing}"), answer));
    }
    all
}
