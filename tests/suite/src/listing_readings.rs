//! Listings of other plans than S, each with its answer by hand: our readings of document 02, points 2
//! and 3.

use crate::cases::{
    alone, broadcast_after_the_last_end, frame_of_two_lengths, one_and_five_ticks, packing,
};
use crate::heads::{PACKING_LISTINGS, S_LISTINGS};
use crate::passed_lines::turned;
use crate::{bus, s, With};
use reference::{Lines, When};

/// What a listing shows, its plan, its text, and its answer: 0 for acceptance, or a refusal.
pub type Reading = (&'static str, Lines, String, u8);

/// All of these listings.
pub fn readings() -> Vec<Reading> {
    let mut all = delays_of_ten_digits();
    all.extend(counts_of_the_plan());
    all.extend(greatest_last_byte());
    all.extend(several_conditions());
    all.extend(heads());
    all.extend(eighteen_and_nineteen());
    all.extend(turned());
    all
}

/// Document 01: processes of 1 and 5 ticks "both at 0: 18"; in the packing case "place 2 for the third:
/// 19", with the old frame lines or with those that the entries then give.
fn eighteen_and_nineteen() -> Vec<Reading> {
    let starts = |first: u64, delay: u64| {
        let start_1 = "(start 1 (when) (at 0))";
        format!("(delay {delay})\n(passed (node 0) 0)\n(start 0 (when) (at {first}))\n{start_1}\n")
    };
    let both = one_and_five_ticks;
    let place_2 = PACKING_LISTINGS[0].1.replace("(place 3)", "(place 2)");
    let its_frames = place_2.replace(
        "(frame 7 (node 0) (bytes 4))",
        "(frame 7 (node 0) (bytes 3))",
    );
    vec![
        ("one behind the other", both(), starts(5, 6), 0),
        ("overlapping by a tick", both(), starts(4, 5), 18),
        ("both at 0", both(), starts(0, 5), 18),
        ("both at 0, a wrong delay", both(), starts(0, 6), 18),
        ("place 2 for the third", packing().head(1), place_2, 19),
        ("and its frames", packing().head(1), its_frames, 19),
    ]
}

/// One process of 7 ticks alone. A delay of ten digits can be right, but no listing can say so.
fn delays_of_ten_digits() -> Vec<Reading> {
    let listing = |delay: u64, tick: u64| {
        format!("(delay {delay})\n(passed (node 0) 0)\n(start 0 (when) (at {tick}))\n")
    };
    let rows = [
        ("at 0", listing(7, 0), 0),
        (
            "as late as can be said",
            listing(999_999_999, 999_999_992),
            0,
        ),
        ("a tick later", listing(1_000_000_000, 999_999_993), 21),
        (
            "a tick later, nine digits",
            listing(999_999_999, 999_999_993),
            20,
        ),
        ("at the last tick", listing(1_000_000_006, 999_999_999), 21),
        ("after the last tick", listing(7, 1_000_000_000), 21),
        ("the delay 2^32 later", listing(4_294_967_303, 0), 21),
        (
            "a frame that nobody sends",
            listing(7, 0) + "(frame 0 (node 0) (bytes 1))\n",
            22,
        ),
    ];
    rows.map(|(what, text, answer)| (what, alone(), text, answer))
        .to_vec()
}

/// The packing case with one message a round, so that none is passed over. The plan's count is 1 all
/// the same: the planner passes the second message over once.
const ONE_MESSAGE_A_ROUND: &str = "\
(delay 21)
(passed (node 0) 1)
(passed (node 1) 0)
(start 0 (when) (at 0))
(start 1 (when) (at 9))
(start 2 (when) (at 14))
(start 3 (when) (at 19))
(send 0 (when) (at 5) (place 0))
(send 1 (when) (at 10) (place 0))
(send 2 (when) (at 15) (place 0))
(frame 5 (node 0) (bytes 3))
(frame 10 (node 0) (bytes 2))
(frame 15 (node 0) (bytes 1))
";

/// Slots of 1 byte (node 0) and 4, two deciders of 1 tick on node 0. The planner leaves a broadcast
/// behind at tick 5 in each of four combinations. Here the second decider runs later, so that none is
/// left behind.
const NO_BROADCAST_LEFT_BEHIND: &str = "\
(delay 7)
(passed (node 0) 4)
(passed (node 1) 0)
(start 0 (when) (at 0))
(start 1 (when) (at 6))
(tell 0 (when) (at 5) (place 0))
(tell 1 (when) (at 10) (place 0))
(frame 5 (node 0) (bytes 1))
(frame 10 (node 0) (bytes 1))
";

/// A listing with another count for node 0.
fn with(listing: &str, passed: u64) -> String {
    let (delay, rest) = listing.split_once('\n').unwrap();
    let (_, rest) = rest.split_once('\n').unwrap();
    format!("{delay}\n(passed (node 0) {passed})\n{rest}")
}

/// "its passed line is not the plan's pass-over count": not that of the checked table.
fn counts_of_the_plan() -> Vec<Reading> {
    let one = ONE_MESSAGE_A_ROUND;
    let none = NO_BROADCAST_LEFT_BEHIND;
    let deciders = broadcast_after_the_last_end;
    vec![
        (
            "nothing passed over, the plan's 1",
            packing(),
            one.to_string(),
            0,
        ),
        ("nothing passed over, 0", packing(), with(one, 0), 22),
        ("nothing passed over, 2", packing(), with(one, 2), 22),
        (
            "no broadcast left behind, the plan's 4",
            deciders(),
            none.to_string(),
            0,
        ),
        ("no broadcast left behind, 0", deciders(), with(none, 0), 22),
        (
            "no broadcast left behind, 1 of a combination",
            deciders(),
            with(none, 1),
            22,
        ),
    ]
}

/// The frame at 8 has 3 bytes if the condition is false, and 1 if it is true.
const TWO_LENGTHS: &str = "\
(delay 12)
(passed (node 0) 0)
(passed (node 1) 0)
(start 0 (when) (at 0))
(start 1 (when (true 0)) (at 11))
(start 2 (when (false 0)) (at 11))
(send 0 (when (true 0)) (at 8) (place 0))
(send 1 (when (false 0)) (at 8) (place 0))
(tell 0 (when) (at 4) (place 0))
(frame 4 (node 0) (bytes 1))
(frame 8 (node 0) (bytes 3))
";

/// "greatest last used byte counted from 1": of all combinations.
fn greatest_last_byte() -> Vec<Reading> {
    let with = |frame: &str| TWO_LENGTHS.replace("(frame 8 (node 0) (bytes 3))", frame);
    let (one, three) = (
        "(frame 8 (node 0) (bytes 1))",
        "(frame 8 (node 0) (bytes 3))",
    );
    let place_2 = TWO_LENGTHS.replace("(true 0)) (at 8) (place 0)", "(true 0)) (at 8) (place 2)");
    let rows = [
        ("the greatest", TWO_LENGTHS.to_string(), 0),
        ("the least", with(one), 22),
        ("both", with(&format!("{one}\n{three}")), 22),
        (
            "both, the greatest first",
            with(&format!("{three}\n{one}")),
            22,
        ),
        ("the sum", with("(frame 8 (node 0) (bytes 4))"), 22),
        ("the shorter one at the end", place_2, 0),
    ];
    rows.map(|(what, text, answer)| (what, frame_of_two_lengths(), text, answer))
        .to_vec()
}

/// Two deciders of 1 tick on node 0, one slot of 2 bytes, and a process of 1 tick behind both. The
/// values are told at 2 and known at 4.
fn three_in_a_row() -> Lines {
    bus(1, &[(0, 2)])
        .all(0, 1)
        .all(0, 1)
        .all(0, 1)
        .decides(0)
        .decides(1)
        .edge(0, 2, 1, When::Always)
        .edge(1, 2, 1, When::Always)
}

/// The last process starts at 4, in columns that are to be said.
fn in_columns(columns: &[&str]) -> String {
    let start = |column: &&str| format!("(start 2 (when{column}) (at 4))\n");
    let starts: Vec<String> = columns.iter().map(start).collect();
    format!(
        "(delay 5)\n(passed (node 0) 0)\n(start 0 (when) (at 0))\n(start 1 (when) (at 1))\n{}\
         (tell 0 (when) (at 2) (place 0))\n(tell 1 (when) (at 2) (place 1))\n\
         (frame 2 (node 0) (bytes 2))\n",
        starts.concat()
    )
}

/// "conditions in a `when` are the plan's too and ascend strictly"; "Within a row lines may stand in any
/// order".
fn several_conditions() -> Vec<Reading> {
    let rows: [(&str, &[&str], u8); 9] = [
        ("no column", &[""], 0),
        ("a condition", &[" (false 0)", " (true 0)"], 0),
        ("the other, true first", &[" (true 1)", " (false 1)"], 0),
        (
            "both, in any order of lines",
            &[
                " (true 0) (false 1)",
                " (false 0) (false 1)",
                " (true 0) (true 1)",
                " (false 0) (true 1)",
            ],
            0,
        ),
        (
            "three lines",
            &[" (true 0) (false 1)", " (false 0)", " (true 0) (true 1)"],
            0,
        ),
        (
            "one of four missing",
            &[" (true 0) (false 1)", " (false 0)"],
            14,
        ),
        ("two are met", &["", " (true 1)"], 14),
        (
            "descending",
            &[" (false 0)", " (true 1) (true 0)", " (true 0) (false 1)"],
            21,
        ),
        (
            "no space",
            &[" (false 0)", " (true 0)(true 1)", " (true 0) (false 1)"],
            21,
        ),
    ];
    rows.map(|(what, columns, answer)| (what, three_in_a_row(), in_columns(columns), answer))
        .to_vec()
}

/// S and the packing case with a head. With the listing of S with head 0, the value of S with head 1,
/// told at 8, is known at 14, but process 2 starts at 12 by it.
fn heads() -> Vec<Reading> {
    let mut all = vec![("another head", s().head(1), S_LISTINGS[0].1.to_string(), 15)];
    for (head, listing) in S_LISTINGS {
        all.push(("S with its head", s().head(head), listing.to_string(), 0));
        let by_number = s().head(head).by_number();
        all.push(("S by number", by_number, listing.to_string(), 0));
    }
    for (head, listing) in PACKING_LISTINGS {
        let lines = packing().head(head);
        all.push((
            "packing with its head",
            lines.clone(),
            listing.to_string(),
            0,
        ));
        all.push(("packing, passed 0", lines.clone(), with(listing, 0), 22));
        let of_the_receiver =
            listing.replace("0) 1)\n(passed (node 1) 0)", "0) 0)\n(passed (node 1) 1)");
        all.push(("packing, the receiver's", lines, of_the_receiver, 22));
    }
    all
}
