//! Pass-over counts that are not the plan's: passed lines of the form that 22 applies to.

use crate::listings::{high_bit, GREATEST};
use crate::pass_overs::{by_receiver, by_sender};
use crate::random::Random;
use reference::{Lines, Stated};

/// What the counts are, and the counts, node 0 first.
pub type Counts = (&'static str, Vec<u64>);

/// Counts made from those of a sound listing, each of them different from these; of every way that
/// the plan has room for. The last one has another count for one node only.
pub fn wrong_counts(lines: &Lines, stated: &Stated, random: &mut Random) -> Vec<Counts> {
    let right = &stated.passed;
    let sum: u64 = right.iter().sum();
    let node = random.index(right.len());
    let with = |node: usize, count: u64| {
        let mut counts = right.clone();
        counts[node] = count;
        counts
    };
    let mut alone = vec![0; right.len()];
    alone[0] = sum;
    let mut rotated = right.clone();
    rotated.rotate_left(1);
    let mut all = vec![
        ("counts of two nodes exchanged", exchanged(right, random)),
        ("one moved to another node", one_moved(right, random)),
        ("counts of the next nodes", rotated),
        ("counts in slot order", in_slot_order(lines, right)),
        ("the sum on every line", vec![sum; right.len()]),
        ("the sum on the first line", alone),
        ("0 on every line", vec![0; right.len()]),
        (
            "counts of the receivers",
            by_receiver(lines, &stated.entries),
        ),
        (
            "counts of the checked table",
            by_sender(lines, &stated.entries),
        ),
        ("one more", with(node, right[node] + 1)),
        ("one less", with(node, right[node].saturating_sub(1))),
        ("nine digits", with(node, GREATEST)),
        (
            "another count",
            with(node, wrong_count(right[node], random)),
        ),
    ];
    all.retain(|(_, counts)| counts != right && counts.iter().all(|&count| count <= GREATEST));
    all
}

/// The counts of two nodes exchanged, different ones where there are.
fn exchanged(right: &[u64], random: &mut Random) -> Vec<u64> {
    let mut counts = right.to_vec();
    let one = random.index(right.len());
    let others: Vec<usize> = (0..right.len())
        .filter(|&other| right[other] != right[one])
        .collect();
    counts.swap(one, random.some_of(&others).unwrap_or(one));
    counts
}

/// One pass-over counted for another node, where there is one and another: the sum stays.
fn one_moved(right: &[u64], random: &mut Random) -> Vec<u64> {
    let mut counts = right.to_vec();
    let from: Vec<usize> = (0..right.len()).filter(|&node| right[node] > 0).collect();
    if let Some(from) = random.some_of(&from) {
        let to = random.index(right.len());
        counts[from] -= 1;
        counts[to] += 1;
    }
    counts
}

/// The counts in the order in which the slots stand.
pub fn in_slot_order(lines: &Lines, right: &[u64]) -> Vec<u64> {
    let nodes = lines.slots.iter().map(|slot| slot.node as usize);
    nodes.map(|node| right[node]).collect()
}

/// Another count of at most nine digits.
fn wrong_count(right: u64, random: &mut Random) -> u64 {
    let any = random.below(GREATEST + 1);
    let less = right.saturating_sub(1);
    let low_bits = right + high_bit(random);
    let others = [right + 1, less, 0, 1, GREATEST, low_bits, any];
    let others: Vec<u64> = others.into_iter().filter(|&p| p != right).collect();
    random.one_of(&others)
}
