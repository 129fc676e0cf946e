//! The plans of the cases that document 01 prints, with document 02's parts, and of the tests of
//! our readings of both.

use crate::passed_lines::{three_counts, three_slots_turned, two_slots_turned};
use crate::{bus, s, With};
use reference::{Lines, When};

/// S with process 0 at other ticks.
pub fn s_with_first_ticks(ticks: u64) -> Lines {
    let mut lines = s();
    lines.processes[0].ticks = ticks;
    lines
}

/// S with its third edge at 3 bytes, which refusal 9 applies to.
pub fn s_with_a_long_message() -> Lines {
    let mut lines = s();
    lines.edges[2].bytes = 3;
    lines
}

/// One process of 7 ticks alone.
pub fn alone() -> Lines {
    bus(1, &[(0, 1)]).all(0, 7)
}

/// The packing case: process 0 sends 3, 2 and 1 bytes to three processes of 2 ticks.
pub fn packing() -> Lines {
    bus(1, &[(0, 4), (1, 1)])
        .all(0, 1)
        .all(1, 2)
        .all(1, 2)
        .all(1, 2)
        .edge(0, 1, 3, When::Always)
        .edge(0, 2, 2, When::Always)
        .edge(0, 3, 1, When::Always)
}

/// Processes of 1 and 5 ticks on one node.
pub fn one_and_five_ticks() -> Lines {
    bus(1, &[(0, 1)]).all(0, 1).all(0, 5)
}

/// A message that is ready as the slot begins.
pub fn ready_as_the_slot_begins() -> Lines {
    bus(1, &[(0, 2), (1, 2)])
        .all(0, 4)
        .all(1, 1)
        .edge(0, 1, 1, When::Always)
}

/// Process 2 has its input from 1 at tick 1; the value that rules out the other comes at 6.
pub fn any_waits() -> Lines {
    bus(1, &[(0, 2), (1, 2)])
        .all(0, 2)
        .all(1, 1)
        .any(1, 1)
        .decides(0)
        .edge(0, 2, 1, When::True(0))
        .edge(1, 2, 1, When::Always)
}

/// Process 0 sends one byte each to 1 (of 1 tick), 3 and 2 (of 5 ticks), in this order of edges.
pub fn three_messages() -> Lines {
    bus(1, &[(0, 3), (1, 1)])
        .all(0, 1)
        .all(1, 1)
        .all(1, 5)
        .all(1, 5)
        .edge(0, 1, 1, When::Always)
        .edge(0, 3, 1, When::Always)
        .edge(0, 2, 1, When::Always)
}

/// Both processes of node 0 decide, the second one condition 0, and the first one sends a message.
pub fn two_broadcasts() -> Lines {
    bus(1, &[(0, 3), (1, 1)])
        .all(0, 1)
        .all(0, 1)
        .all(1, 100)
        .decides(1)
        .decides(0)
        .edge(0, 2, 1, When::Always)
}

/// The second message is more urgent than the third, but does not fit behind the first.
pub fn misfit_in_the_middle() -> Lines {
    bus(1, &[(0, 2), (1, 1)])
        .all(0, 1)
        .all(1, 9)
        .all(1, 8)
        .all(1, 7)
        .edge(0, 1, 1, When::Always)
        .edge(0, 2, 2, When::Always)
        .edge(0, 3, 1, When::Always)
}

/// Three messages, each of which fills a slot.
pub fn three_full_slots() -> Lines {
    bus(1, &[(0, 2), (1, 1)])
        .all(0, 1)
        .all(1, 1)
        .all(1, 1)
        .all(1, 1)
        .edge(0, 1, 2, When::Always)
        .edge(0, 2, 2, When::Always)
        .edge(0, 3, 2, When::Always)
}

/// A broadcast is left behind in a slot after the last end.
pub fn broadcast_after_the_last_end() -> Lines {
    bus(1, &[(0, 1), (1, 4)])
        .all(0, 1)
        .all(0, 1)
        .decides(0)
        .decides(1)
}

/// Process 1 ends at tick 5, within the slot of node 0 that begins at 4 and is full then.
pub fn ready_within_a_slot() -> Lines {
    bus(1, &[(0, 2), (1, 2)])
        .all(0, 4)
        .all(0, 1)
        .all(1, 9)
        .edge(0, 2, 2, When::Always)
        .edge(1, 2, 2, When::Always)
}

/// Process 2 does not run if condition 0 is false, but process 1 sends to it all the same.
pub fn receiver_that_will_not_run() -> Lines {
    bus(1, &[(0, 2), (1, 2)])
        .all(0, 1)
        .all(0, 1)
        .all(1, 1)
        .decides(0)
        .edge(0, 2, 1, When::True(0))
        .edge(1, 2, 1, When::Always)
}

/// Process 0 ends as a slot of its node begins.
pub fn end_as_the_slot_begins() -> Lines {
    bus(1, &[(0, 4), (1, 4)])
        .all(0, 8)
        .all(0, 1)
        .all(1, 1)
        .edge(0, 1, 1, When::Always)
        .edge(0, 2, 1, When::Always)
}

/// Process 0 is urgent by an edge that carries only if its condition is true.
pub fn urgent_by_a_conditional_edge() -> Lines {
    bus(1, &[(0, 1)])
        .all(0, 1)
        .all(0, 1)
        .all(0, 9)
        .all(0, 2)
        .decides(0)
        .edge(0, 2, 1, When::True(0))
        .edge(1, 3, 1, When::Always)
}

/// Process 2 has its input at 1; the value comes at 4 and lets it start at that very tick.
pub fn any_starts_as_the_value_comes() -> Lines {
    bus(1, &[(0, 2)])
        .all(0, 1)
        .all(0, 1)
        .any(0, 1)
        .decides(0)
        .edge(0, 2, 1, When::True(0))
        .edge(1, 2, 1, When::Always)
}

/// With condition 0 false, 1 and then 2 are known inactive, so 4 need not wait for 2.
pub fn inactive_in_turn() -> Lines {
    bus(1, &[(0, 1)])
        .all(0, 1)
        .all(0, 1)
        .all(0, 1)
        .all(0, 1)
        .any(0, 1)
        .decides(0)
        .edge(0, 1, 1, When::True(0))
        .edge(1, 2, 1, When::Always)
        .edge(2, 4, 1, When::Always)
        .edge(3, 4, 1, When::Always)
}

/// Process 1 decides condition 1 and runs if condition 0 is true; 2 runs if it is false.
pub fn inner_decision() -> Lines {
    bus(1, &[(0, 2), (1, 2)])
        .all(0, 1)
        .all(0, 1)
        .all(0, 1)
        .decides(0)
        .decides(1)
        .edge(0, 1, 1, When::True(0))
        .edge(0, 2, 1, When::False(0))
}

/// With condition 0 false, process 1 does not run; two messages of 2 bytes compete.
pub fn pass_over_without_the_inner_decision() -> Lines {
    bus(1, &[(0, 2), (1, 2)])
        .all(0, 1)
        .all(0, 1)
        .all(1, 1)
        .all(1, 1)
        .decides(0)
        .decides(1)
        .edge(0, 1, 1, When::True(0))
        .edge(0, 2, 2, When::False(0))
        .edge(0, 3, 2, When::False(0))
}

/// A condition that no `when` names.
pub fn unused_condition() -> Lines {
    bus(1, &[(0, 1)])
        .all(0, 1)
        .all(0, 1)
        .decides(0)
        .edge(0, 1, 1, When::Always)
        .all(0, 1)
        .edge(1, 2, 1, When::Always)
}

/// Both deciders have ended as the slot of 1 byte begins at tick 5, and so has the message.
pub fn broadcasts_that_do_not_fit() -> Lines {
    bus(1, &[(0, 1), (1, 4)])
        .all(0, 1)
        .all(0, 1)
        .all(1, 1)
        .decides(0)
        .decides(1)
        .edge(0, 2, 1, When::Always)
}

/// Starts at one tick and with equal known bits, for false and for true.
pub fn false_and_true_at_one_tick() -> Lines {
    bus(1, &[(0, 1)])
        .all(0, 1)
        .any(0, 1)
        .decides(0)
        .edge(0, 1, 1, When::True(0))
        .all(0, 3)
        .edge(0, 2, 1, When::Always)
}

/// The frame at 8 has 1 byte if the condition is true, and 3 if it is false.
pub fn frame_of_two_lengths() -> Lines {
    bus(1, &[(0, 3), (1, 1)])
        .all(0, 1)
        .all(1, 1)
        .all(1, 1)
        .decides(0)
        .edge(0, 1, 1, When::True(0))
        .edge(0, 2, 3, When::False(0))
}

/// 57 processes wait for a long one, so that each has an entry for every combination: more than
/// 3,000 entries.
pub fn too_many_entries() -> Lines {
    let mut lines = bus(1, &[(0, 6)]);
    for process in 0..6 {
        lines = lines.all(0, 1).decides(process);
    }
    lines = lines.all(0, 1_000);
    for process in 7..64 {
        lines = lines.all(0, 1).edge(6, process, 1, When::Always);
    }
    lines.by_number()
}

/// Process 15 ends at a different tick in each of the 64 combinations and then sends 33 messages
/// of a whole slot each, to processes that never run: more than 2,000 frames, but not more than
/// 3,000 entries.
pub fn too_many_frames() -> Lines {
    let mut lines = bus(1, &[(0, 6), (1, 1)]);
    for process in 0..6 {
        lines = lines.all(0, 1).decides(process);
    }
    for condition in 0..6 {
        lines = lines.all(1, 300 << condition);
    }
    lines = lines.all(0, 1).all(0, 1).all(0, 1).any(1, 1);
    for condition in 0..6 {
        lines = lines
            .edge(condition, 6 + condition, 1, When::True(condition))
            .edge(6 + condition, 15, 1, When::Always);
    }
    lines = lines
        .edge(0, 12, 1, When::True(0))
        .edge(0, 13, 1, When::False(0))
        .edge(12, 14, 1, When::Always)
        .edge(13, 14, 1, When::Always)
        .edge(0, 15, 1, When::Always);
    for process in 16..49 {
        lines =
            lines
                .all(0, 1)
                .edge(14, process, 1, When::Always)
                .edge(15, process, 1, When::Always);
    }
    lines
}

/// All of these plans, with a name.
pub fn all() -> Vec<(&'static str, Lines)> {
    vec![
        ("S", s()),
        ("S with process 0 at 8 ticks", s_with_first_ticks(8)),
        ("S with process 0 at 9 ticks", s_with_first_ticks(9)),
        ("S with its third edge at 3 bytes", s_with_a_long_message()),
        ("S with head 1", s().head(1)),
        ("S with head 16", s().head(16)),
        ("S with head 17", s().head(17)),
        (
            "S with its third edge at 3 bytes and head 16",
            s_with_a_long_message().head(16),
        ),
        ("one process alone", alone()),
        ("packing", packing()),
        ("packing with head 1", packing().head(1)),
        ("packing with head 16", packing().head(16)),
        ("1 and 5 ticks", one_and_five_ticks()),
        ("1 and 5 ticks, by number", one_and_five_ticks().by_number()),
        ("ready as the slot begins", ready_as_the_slot_begins()),
        ("any waits", any_waits()),
        ("three messages", three_messages()),
        ("three messages, by number", three_messages().by_number()),
        ("two broadcasts", two_broadcasts()),
        ("two broadcasts, by number", two_broadcasts().by_number()),
        ("misfit in the middle", misfit_in_the_middle()),
        ("three full slots", three_full_slots()),
        (
            "broadcast after the last end",
            broadcast_after_the_last_end(),
        ),
        ("ready within a slot", ready_within_a_slot()),
        ("receiver that will not run", receiver_that_will_not_run()),
        ("end as the slot begins", end_as_the_slot_begins()),
        (
            "urgent by a conditional edge",
            urgent_by_a_conditional_edge(),
        ),
        (
            "any starts as the value comes",
            any_starts_as_the_value_comes(),
        ),
        ("inactive in turn", inactive_in_turn()),
        ("inner decision", inner_decision()),
        (
            "pass-over without the inner decision",
            pass_over_without_the_inner_decision(),
        ),
        ("unused condition", unused_condition()),
        ("broadcasts that do not fit", broadcasts_that_do_not_fit()),
        ("false and true at one tick", false_and_true_at_one_tick()),
        ("frame of two lengths", frame_of_two_lengths()),
        ("two slots turned", two_slots_turned()),
        ("three slots turned", three_slots_turned()),
        ("three counts", three_counts()),
        ("too many entries", too_many_entries()),
        ("too many frames", too_many_frames()),
    ]
}
