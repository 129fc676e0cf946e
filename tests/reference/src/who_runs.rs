//! Who runs: combinations, carrying edges, active processes, and what is known of them.

use crate::lines::{Edge, Lines, Waits, When};

/// "A combination gives every condition true or false." Bit c is set if condition c is true.
pub type Combination = u32;

/// All combinations of a plan.
pub fn combinations(lines: &Lines) -> std::ops::Range<Combination> {
    0..1 << lines.conditions.len()
}

/// The value that a combination gives a condition.
pub fn value(combination: Combination, condition: usize) -> bool {
    combination >> condition & 1 == 1
}

/// Whether a `when` is met in a combination.
pub fn when_met(when: When, combination: Combination) -> bool {
    match when.condition() {
        None => true,
        Some((condition, asked)) => value(combination, condition as usize) == asked,
    }
}

/// Which processes are active and which edges carry in a combination.
#[derive(Clone, Debug)]
pub struct WhoRuns {
    /// For each process, whether it is active.
    pub active: Vec<bool>,
    /// For each edge, whether it carries.
    pub carries: Vec<bool>,
}

/// Who runs in a combination. Every edge leads from a lower to a higher process, so each process
/// is settled before the edges out of it are asked for.
pub fn who_runs(lines: &Lines, combination: Combination) -> WhoRuns {
    let mut active = Vec::new();
    for (process, into) in lines.edges_into().iter().enumerate() {
        let carrying = into
            .iter()
            .filter(|&&edge| carries(&active, &lines.edges[edge], combination))
            .count();
        active.push(is_active(
            lines.processes[process].waits,
            into.len(),
            carrying,
        ));
    }
    let carries = lines
        .edges
        .iter()
        .map(|edge| carries(&active, edge, combination))
        .collect();
    WhoRuns { active, carries }
}

/// "An edge carries if its from process is active and its `when` is met."
fn carries(active: &[bool], edge: &Edge, combination: Combination) -> bool {
    active[edge.from as usize] && when_met(edge.when, combination)
}

/// "A process with no edge into it is active and counts as `all`; another is active if all (`all`)
/// or at least one (`any`) of its edges carry."
fn is_active(waits: Waits, edges_into: usize, carrying: usize) -> bool {
    if edges_into == 0 {
        return true;
    }
    match waits {
        Waits::All => carrying == edges_into,
        Waits::Any => carrying > 0,
    }
}

/// The conditions known at a tick and their values, as bits.
#[derive(Clone, Copy, Debug, PartialEq, Eq)]
pub struct Column {
    /// Bit c is set if condition c is known.
    pub known: u32,
    /// Bit c is set if condition c is known to be true.
    pub values: u32,
}

/// For each edge, whether it is known never to deliver: "its `when` is known unmet, or its from
/// process is known inactive (for `all`, some edge into it is known never to deliver; for `any`,
/// all of them are)."
pub fn known_never(lines: &Lines, into: &[Vec<usize>], heard: Column) -> Vec<bool> {
    let mut never = vec![false; lines.edges.len()];
    let mut inactive: Vec<bool> = Vec::new();
    for (process, into) in into.iter().enumerate() {
        for &edge in into {
            let from = lines.edges[edge].from as usize;
            never[edge] = known_unmet(lines.edges[edge].when, heard) || inactive[from];
        }
        inactive.push(known_inactive(lines.processes[process].waits, into, &never));
    }
    never
}

/// Whether a `when` is known unmet.
fn known_unmet(when: When, heard: Column) -> bool {
    match when.condition() {
        None => false,
        Some((condition, asked)) => {
            let known = heard.known >> condition & 1 == 1;
            known && value(heard.values, condition as usize) != asked
        }
    }
}

/// Whether a process is known inactive. One with no edge into it is active, so it never is.
fn known_inactive(waits: Waits, into: &[usize], never: &[bool]) -> bool {
    if into.is_empty() {
        return false;
    }
    match waits {
        Waits::All => into.iter().any(|&edge| never[edge]),
        Waits::Any => into.iter().all(|&edge| never[edge]),
    }
}
