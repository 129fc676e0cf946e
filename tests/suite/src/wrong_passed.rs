//! Planners, readers and checkers that are wrong about the passed lines of document 02, point 3. The
//! tests have to tell each of them from the reference.

use generate::pass_overs::by_receiver;
use generate::wrong_counts::in_slot_order;
use reference::check_listing::check_listing_of;
use reference::table::entries;
use reference::{listing, read_listing, Lines, Planned};

/// A planner that keeps other counts.
pub type Planner = fn(&Lines, &Planned) -> Vec<u64>;

/// Planners with other counts, each with what is wrong about it.
pub const PLANNERS: [(&str, Planner); 8] = [
    ("counts of two nodes exchanged", |_, planned| {
        let mut counts = planned.passed_by_node.clone();
        let last = counts.len() - 1;
        counts.swap(0, last);
        counts
    }),
    ("the count of the receiver's node", |lines, planned| {
        by_receiver(lines, &entries(&planned.words))
    }),
    ("the sum on every line", |lines, planned| {
        vec![planned.passed; lines.slots.len()]
    }),
    ("the sum on the first line", |lines, planned| {
        let mut counts = vec![0; lines.slots.len()];
        counts[0] = planned.passed;
        counts
    }),
    ("counts in slot order", |lines, planned| {
        in_slot_order(lines, &planned.passed_by_node)
    }),
    ("counts of the slots in node order", |lines, planned| {
        let slots = lines.slots.iter().zip(&planned.passed_by_node);
        let mut counts = vec![0; lines.slots.len()];
        for (slot, &count) in slots {
            counts[slot.node as usize] = count;
        }
        counts
    }),
    ("only the last node counted", |lines, planned| {
        let mut counts = vec![0; lines.slots.len()];
        *counts.last_mut().unwrap() = *planned.passed_by_node.last().unwrap();
        counts
    }),
    ("no count", |lines, _| vec![0; lines.slots.len()]),
];

/// What a planner with other counts prints.
pub fn printed_by(planner: Planner, lines: &Lines, planned: &Planned) -> Vec<u8> {
    let counts = planner(lines, planned);
    listing(
        lines,
        planned.delay,
        &counts,
        &planned.words,
        &planned.frames,
    )
}

/// A listing with the right counts, but with its passed lines in slot order.
pub fn printed_in_slot_order(lines: &Lines, planned: &Planned) -> Vec<u8> {
    let right = &planned.passed_by_node;
    let own = listing(lines, planned.delay, right, &planned.words, &planned.frames);
    let all = split(&own);
    let in_order = lines.slots.iter().map(|slot| all[1 + slot.node as usize]);
    let rest = &all[1 + lines.slots.len()..];
    [&all[..1], &in_order.collect::<Vec<_>>(), rest]
        .concat()
        .concat()
}

/// A checker of listings: a plan, a listing, and what is planned for the plan.
pub type Checker = fn(&Lines, &[u8], &Planned) -> Option<u8>;

/// Checkers that read or compare the passed lines in another way, each with what is wrong about it.
pub const CHECKERS: [(&str, Checker); 16] = [
    ("22 compares the sums only", |lines, listing, planned| {
        accepting(lines, listing, planned, |stated, right| {
            stated.iter().sum::<u64>() == right.iter().sum()
        })
    }),
    (
        "22 compares the first line only",
        |lines, listing, planned| {
            accepting(lines, listing, planned, |stated, right| {
                stated[0] == right[0]
            })
        },
    ),
    (
        "22 compares the last line only",
        |lines, listing, planned| {
            accepting(lines, listing, planned, |stated, right| {
                stated.last() == right.last()
            })
        },
    ),
    ("22 compares in any order", |lines, listing, planned| {
        accepting(lines, listing, planned, |stated, right| {
            let (mut stated, mut right) = (stated.to_vec(), right.to_vec());
            stated.sort_unstable();
            right.sort_unstable();
            stated == right
        })
    }),
    ("22 compares no counts", |lines, listing, planned| {
        accepting(lines, listing, planned, |_, _| true)
    }),
    ("22 compares in slot order", |lines, listing, planned| {
        check_listing_of(lines, listing, || {
            in_slot_order(lines, &planned.passed_by_node)
        })
    }),
    (
        "22 compares with the receivers' counts",
        |lines, listing, planned| {
            check_listing_of(lines, listing, || {
                by_receiver(lines, &entries(&planned.words))
            })
        },
    ),
    ("22 compares with the sum", |lines, listing, planned| {
        check_listing_of(lines, listing, || vec![planned.passed; lines.slots.len()])
    }),
    ("the old line is read", |lines, listing, planned| {
        let right = &planned.passed_by_node;
        let old = format!("(passed {})\n", planned.passed);
        reading(lines, listing, right, |passed| {
            if *passed == [old.as_bytes()] {
                *passed = split_owned(&passed_lines(right));
            }
        })
    }),
    ("only the old line is read", |lines, listing, planned| {
        let right = &planned.passed_by_node;
        let old = format!("(passed {})\n", planned.passed);
        reading(lines, listing, right, |passed| {
            *passed = match *passed == [old.as_bytes()] {
                true => split_owned(&passed_lines(right)),
                false => Vec::new(),
            };
        })
    }),
    ("lines are read in any order", |lines, listing, planned| {
        reading(lines, listing, &planned.passed_by_node, |passed| {
            passed.sort();
        })
    }),
    ("lines are read in slot order", |lines, listing, planned| {
        reading(lines, listing, &planned.passed_by_node, |passed| {
            if passed.len() == lines.slots.len() {
                let mut in_order = passed.clone();
                for (slot, line) in lines.slots.iter().zip(&*passed) {
                    in_order[slot.node as usize] = line.clone();
                }
                *passed = in_order;
            }
        })
    }),
    (
        "the node of a line is not read",
        |lines, listing, planned| {
            reading(lines, listing, &planned.passed_by_node, |passed| {
                for (node, line) in passed.iter_mut().enumerate() {
                    *line = with_node(line, |_| Some(node as u64));
                }
            })
        },
    ),
    (
        "further passed lines are skipped",
        |lines, listing, planned| {
            reading(lines, listing, &planned.passed_by_node, |passed| {
                passed.truncate(lines.slots.len());
            })
        },
    ),
    (
        "a node number may begin with 0",
        |lines, listing, planned| {
            reading(lines, listing, &planned.passed_by_node, |passed| {
                for line in passed.iter_mut() {
                    *line = with_node(line, Some);
                }
            })
        },
    ),
    (
        "a node number is cut to 8 bits",
        |lines, listing, planned| {
            reading(lines, listing, &planned.passed_by_node, |passed| {
                for line in passed.iter_mut() {
                    *line = with_node(line, |node| (node > 255).then_some(node % 256));
                }
            })
        },
    ),
];

/// Checks a listing, but with counts that are taken for right where this says so of the stated and the
/// right ones.
fn accepting(
    lines: &Lines,
    listing: &[u8],
    planned: &Planned,
    is_right: fn(&[u64], &[u64]) -> bool,
) -> Option<u8> {
    let right = &planned.passed_by_node;
    let counts = match read_listing(lines, listing) {
        Ok(stated) if is_right(&stated.passed, right) => stated.passed,
        _ => right.clone(),
    };
    check_listing_of(lines, listing, || counts)
}

/// Checks a listing after the passed lines behind its first line were changed.
fn reading(
    lines: &Lines,
    listing: &[u8],
    right: &[u64],
    change: impl FnOnce(&mut Vec<Vec<u8>>),
) -> Option<u8> {
    let all = split(listing);
    let is_passed = |line: &&&[u8]| line.starts_with(b"(passed ");
    let count = all.iter().skip(1).take_while(is_passed).count();
    let mut passed: Vec<Vec<u8>> = all.iter().skip(1).take(count).map(|l| l.to_vec()).collect();
    change(&mut passed);
    let rest: Vec<u8> = all
        .iter()
        .skip(1 + count)
        .copied()
        .flatten()
        .copied()
        .collect();
    let first = all.first().copied().unwrap_or_default();
    let listing = [first, &passed.concat(), &rest].concat();
    check_listing_of(lines, &listing, || right.to_vec())
}

/// A passed line with another number of its node, if it has one that is read and another is given.
fn with_node(line: &[u8], change: impl FnOnce(u64) -> Option<u64>) -> Vec<u8> {
    let text = String::from_utf8_lossy(line);
    let changed = || {
        let (node, rest) = text.strip_prefix("(passed (node ")?.split_once(") ")?;
        let node = change(node.parse().ok()?)?;
        Some(format!("(passed (node {node}) {rest}").into_bytes())
    };
    changed().unwrap_or_else(|| line.to_vec())
}

/// The passed lines of these counts.
fn passed_lines(counts: &[u64]) -> Vec<u8> {
    let lines = counts.iter().enumerate();
    lines
        .flat_map(|(node, count)| format!("(passed (node {node}) {count})\n").into_bytes())
        .collect()
}

fn split(text: &[u8]) -> Vec<&[u8]> {
    text.split_inclusive(|&b| b == b'\n').collect()
}

fn split_owned(text: &[u8]) -> Vec<Vec<u8>> {
    split(text).into_iter().map(<[u8]>::to_vec).collect()
}
