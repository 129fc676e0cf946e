//! The planner: the table made from the courses of all combinations.

use crate::bus::round_ticks;
use crate::lines::Lines;
use crate::refuse::refuse_plan;
use crate::table::{frame_list, frame_words, in_order, words};
use crate::who_runs::combinations;

pub use crate::course::{plan_combination, urgencies, Course, Ticks};

/// What the planner gives for a plan.
#[derive(Clone, Debug, PartialEq, Eq)]
pub struct Planned {
    /// The start table.
    pub words: Vec<u32>,
    /// The frame list.
    pub frames: Vec<u32>,
    /// The pass-over count of each sending node, node 0 first. Document 02: "The planner now keeps a
    /// count for each sending node".
    pub passed_by_node: Vec<u64>,
    /// The one pass-over count of document 01. It is kept apart from those of the nodes, of which
    /// document 02 says: "Added up they give the old count."
    pub passed: u64,
    /// The delay of each combination.
    pub delays: Vec<u64>,
    /// The greatest delay.
    pub delay: u64,
}

/// Plans, or gives the first of 2 to 11 that applies. Refusals 10 and 11 come after all planning:
/// "10. The planner's entries need more words [...] than lent. 11. Its frames need more words than
/// lent."
pub fn plan(lines: &Lines, words_lent: usize, frame_words_lent: usize) -> Result<Planned, u8> {
    if let Some(number) = refuse_plan(lines) {
        return Err(number);
    }
    let planned = plan_all(lines, Ticks::Eventful);
    if planned.words.len() > words_lent {
        return Err(10);
    }
    if planned.frames.len() > frame_words_lent {
        return Err(11);
    }
    Ok(planned)
}

/// Plans every combination of a plan in which 2 to 9 find nothing.
pub fn plan_all(lines: &Lines, ticks: Ticks) -> Planned {
    let courses: Vec<Course> = combinations(lines)
        .map(|combination| plan_combination(lines, combination, ticks))
        .collect();
    let entries = courses.iter().flat_map(|c| c.entries.clone()).collect();
    let used = courses.iter().flat_map(|c| c.frames.clone()).collect();
    let delays: Vec<u64> = courses.iter().map(Course::delay).collect();
    Planned {
        words: words(&in_order(entries)),
        frames: frame_words(&frame_list(used)),
        passed: courses.iter().map(|c| c.slots_passed).sum(),
        passed_by_node: passed_by_node(lines, &courses),
        delay: delays.iter().copied().max().unwrap(),
        delays,
    }
}

/// "The pass-over count sums, over all combinations, every slot in which a ready item of its node
/// was not taken." Document 02: "a count for each sending node", which is the node of the slot,
/// wherever that stands in the round.
fn passed_by_node(lines: &Lines, courses: &[Course]) -> Vec<u64> {
    (0..lines.slots.len())
        .map(|node| courses.iter().map(|c| c.passed[node]).sum())
        .collect()
}

/// "No delay exceeds all ticks added up plus 2 × round × (edges + conditions)."
pub fn delay_bound(lines: &Lines) -> u64 {
    let ticks: u64 = lines.processes.iter().map(|p| p.ticks).sum();
    let items = (lines.edges.len() + lines.conditions.len()) as u64;
    ticks + 2 * round_ticks(lines) * items
}
