//! The bus: slots, rounds, and when a slot begins.

use crate::lines::Lines;

/// The place in bus order of a node's slot.
pub fn slot_of(lines: &Lines, node: u64) -> usize {
    lines.slots.iter().position(|s| s.node == node).unwrap()
}

/// Document 02: "a slot lasts (bytes + head) × byte ticks."
pub fn slot_ticks(lines: &Lines, slot: usize) -> u64 {
    (lines.slots[slot].bytes + lines.plan.head) * lines.plan.byte
}

/// The ticks that the slot of a node lasts.
pub fn slot_ticks_of(lines: &Lines, node: u64) -> u64 {
    slot_ticks(lines, slot_of(lines, node))
}

/// "a round is the sum of its slots".
pub fn round_ticks(lines: &Lines) -> u64 {
    (0..lines.slots.len()).map(|s| slot_ticks(lines, s)).sum()
}

/// The tick within a round at which a slot begins.
pub fn slot_offset(lines: &Lines, slot: usize) -> u64 {
    (0..slot).map(|s| slot_ticks(lines, s)).sum()
}

/// "round 0 begins at tick 0": whether a slot begins at a tick.
pub fn begins_at(lines: &Lines, slot: usize, tick: u64) -> bool {
    tick % round_ticks(lines) == slot_offset(lines, slot)
}

/// The slot that begins at a tick. At most one does, as every slot lasts at least a tick.
pub fn slot_that_begins(lines: &Lines, tick: u64) -> Option<usize> {
    (0..lines.slots.len()).find(|&slot| begins_at(lines, slot, tick))
}

/// The first tick after this one at which a slot begins.
pub fn next_beginning(lines: &Lines, slot: usize, tick: u64) -> u64 {
    let round = round_ticks(lines);
    let this_round = tick / round * round + slot_offset(lines, slot);
    if this_round > tick {
        this_round
    } else {
        this_round + round
    }
}
