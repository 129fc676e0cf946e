//! Listing texts whose passed lines are not of the form.

use crate::random::Random;
use crate::texts::{damaged, split, Damaged};
use reference::{print_stated, Lines, Stated};

/// Document 02: "A listing with the old line, other nodes or another order is not of the form."
/// Texts made from a listing, refusal 21 for each, of every way that the plan has room for.
pub fn wrong_passed_lines(lines: &Lines, stated: &Stated, random: &mut Random) -> Vec<Damaged> {
    let text = print_stated(lines, stated);
    let all = split(&text);
    let nodes = lines.slots.len();
    let (delay, rest) = (all[0], all[1 + nodes..].concat());
    let right: Vec<String> = (0..nodes)
        .map(|node| line(node as u64, stated.passed[node]))
        .collect();
    let with = |what, passed: &[String]| {
        let text = [delay, passed.concat().as_bytes(), &rest].concat();
        damaged(what, text, Some(21))
    };
    let mut found: Vec<Damaged> = wrong_sets(lines, stated, &right, random)
        .into_iter()
        .map(|(what, passed)| with(what, &passed))
        .collect();
    let place = random.index(nodes);
    for (what, line) in wrong_line(place as u64, stated.passed[place], nodes as u64, random) {
        let mut passed = right.clone();
        passed[place] = line;
        found.push(with(what, &passed));
    }
    found
}

/// The passed line of a node.
pub fn line(node: u64, count: u64) -> String {
    format!("(passed (node {node}) {count})\n")
}

/// Lines too many, too few, or in another order; each is of the form for itself, or is the old line.
fn wrong_sets(
    lines: &Lines,
    stated: &Stated,
    right: &[String],
    random: &mut Random,
) -> Vec<(&'static str, Vec<String>)> {
    let nodes = right.len();
    let place = random.index(nodes);
    let old = format!("(passed {})\n", stated.passed.iter().sum::<u64>());
    let inserted = |at: usize, line: &str| {
        let mut passed = right.to_vec();
        passed.insert(at, line.to_string());
        passed
    };
    let mut missing = right.to_vec();
    missing.remove(place);
    let mut sets = vec![
        ("the old passed line", vec![old.clone()]),
        ("the old passed line first", inserted(0, &old)),
        ("the old passed line last", inserted(nodes, &old)),
        ("no passed lines", Vec::new()),
        ("a passed line missing", missing),
        ("a passed line doubled", inserted(place, &right[place])),
        (
            "a passed line of a further node",
            inserted(nodes, &line(nodes as u64, 0)),
        ),
        (
            "passed lines from node 1 on",
            (0..nodes)
                .map(|n| line(n as u64 + 1, stated.passed[n]))
                .collect(),
        ),
    ];
    let descending: Vec<String> = right.iter().rev().cloned().collect();
    let slots = lines.slots.iter().map(|slot| slot.node as usize);
    let in_slot_order: Vec<String> = slots.map(|node| right[node].clone()).collect();
    let mut exchanged = right.to_vec();
    if nodes > 1 {
        let other = place + random.between(1, nodes as u64 - 1) as usize;
        exchanged.swap(place, other % nodes);
    }
    for (what, passed) in [
        ("passed lines exchanged", exchanged),
        ("passed lines in descending order", descending),
        ("passed lines in slot order", in_slot_order),
    ] {
        if passed != right {
            sets.push((what, passed));
        }
    }
    sets
}

/// Lines in place of the one of a node of so many, none of which is of the form.
fn wrong_line(
    node: u64,
    count: u64,
    nodes: u64,
    random: &mut Random,
) -> Vec<(&'static str, String)> {
    let others: Vec<u64> = (0..nodes).filter(|&other| other != node).collect();
    let lacking = random.one_of(&[nodes, nodes + 1, node + 256, 65_536 + node, 999_999_999]);
    let other = random.some_of(&others).unwrap_or(lacking);
    let ten = |number: u64, random: &mut Random| {
        let any = random.between(1_000_000_000, 9_999_999_999);
        random.one_of(&[1_000_000_000 + number, (1 << 32) + number, any])
    };
    let (ten_node, ten_count) = (ten(node, random), ten(count, random));
    let zeros = "0".repeat(random.between(1, 8) as usize);
    let passed = |node: &str, count: &str| format!("(passed (node {node}) {count})\n");
    let (n, c) = (&node.to_string(), &count.to_string());
    vec![
        ("the old line for one node", format!("(passed {count})\n")),
        ("the number of another node", line(other, count)),
        ("a node that the plan lacks", line(lacking, count)),
        (
            "a node with a leading zero",
            passed(&format!("{zeros}{n}"), c),
        ),
        ("a node of ten digits", line(ten_node, count)),
        ("no node", passed("", c)),
        (
            "a count with a leading zero",
            passed(n, &format!("{zeros}{c}")),
        ),
        ("a count of ten digits", line(node, ten_count)),
        ("no count", passed(n, "")),
        (
            "a passed line without its count",
            format!("(passed (node {n}))\n"),
        ),
        (
            "the count before the node",
            format!("(passed {c} (node {n}))\n"),
        ),
        ("a count in brackets", passed(n, &format!("({c})"))),
        (
            "a node without brackets",
            format!("(passed node {n} {c})\n"),
        ),
        (
            "a slot in place of the node",
            format!("(passed (slot {n}) {c})\n"),
        ),
    ]
}
