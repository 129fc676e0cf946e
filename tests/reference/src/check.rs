//! The checker: whether a table is sound for a plan and a stated delay.

use crate::bus::{begins_at, slot_of};
use crate::lines::Lines;
use crate::refuse::refuse_plan;
use crate::table::{
    arrival, entries, row, row_bytes, row_node, row_number, row_process, Entry, Row, ENTRY_WORDS,
};
use crate::who_runs::{combinations, who_runs, Combination, WhoRuns};

/// The highest tick that an entry may have.
pub const LAST_TICK: u32 = 999_999_999;

/// A refusal's number and the sentence that says when it applies to a combination.
type Sentence = (u8, fn(&Course) -> bool);

/// Checks a table and a stated delay, and gives the first of 2 to 9 and 12 to 20 that applies.
/// "Each sentence is tried over the whole input before the next."
pub fn check(lines: &Lines, words: &[u32], delay: u64) -> Option<u8> {
    if let Some(number) = refuse_plan(lines) {
        return Some(number);
    }
    // "12. A checked table's words are not a multiple of five."
    if !words.len().is_multiple_of(ENTRY_WORDS) {
        return Some(12);
    }
    let entries = entries(words);
    if entries.iter().any(|entry| wrong_entry(lines, entry)) {
        return Some(13);
    }
    if combinations(lines).any(|combination| wrong_rows(lines, &entries, combination)) {
        return Some(14);
    }
    let courses: Vec<Course> = combinations(lines)
        .map(|combination| Course::of(lines, &entries, combination))
        .collect();
    let sentences: [Sentence; 5] = [
        (15, uses_unknown_value),
        (16, too_early),
        (17, outside_slot),
        (18, processes_overlap),
        (19, wrong_places),
    ];
    for (number, applies) in sentences {
        if courses.iter().any(applies) {
            return Some(number);
        }
    }
    // "20. The stated delay is not the greatest delay."
    if courses.iter().map(Course::delay).max() != Some(delay) {
        return Some(20);
    }
    None
}

/// "13. An entry has no such row, is a local edge's, has known bits without condition, value bits
/// outside the known, tick above 999,999,999, place above 63, or a process's place not 0."
fn wrong_entry(lines: &Lines, entry: &Entry) -> bool {
    let wrong_row = match row(lines, entry.row) {
        None => true,
        Some(Row::Edge(edge)) => lines.local(edge),
        Some(Row::Process(_)) => entry.place != 0,
        Some(Row::Condition(_)) => false,
    };
    wrong_row
        || entry.known >> lines.conditions.len() != 0
        || entry.values & !entry.known != 0
        || entry.tick > LAST_TICK
        || entry.place > 63
}

/// "14. In some combination a due row [...] has not exactly one entry whose column is met, or
/// another row has one."
fn wrong_rows(lines: &Lines, entries: &[Entry], combination: Combination) -> bool {
    let who = who_runs(lines, combination);
    let mut met = vec![0; lines.rows()];
    for entry in entries.iter().filter(|e| e.met(combination)) {
        met[entry.row as usize] += 1;
    }
    (0..lines.rows() as u32).any(|number| {
        let expected = usize::from(due(lines, &who, row(lines, number).unwrap()));
        met[number as usize] != expected
    })
}

/// "a due row (active process, carrying edge between nodes, active decider's broadcast)".
pub fn due(lines: &Lines, who: &WhoRuns, row: Row) -> bool {
    match row {
        Row::Process(process) => who.active[process],
        Row::Edge(edge) => who.carries[edge] && !lines.local(edge),
        Row::Condition(condition) => who.active[lines.conditions[condition].process as usize],
    }
}

/// The starts and items of a combination: "In 14 to 20 a combination's starts and items are its
/// met entries, at their own ticks".
pub struct Course<'a> {
    lines: &'a Lines,
    who: WhoRuns,
    /// The met entries.
    pub met: Vec<Entry>,
    /// For each row, its met entry.
    by_row: Vec<Option<Entry>>,
}

impl<'a> Course<'a> {
    /// The course of a combination in a table in which 12 to 14 find nothing.
    pub fn of(lines: &'a Lines, entries: &[Entry], combination: Combination) -> Self {
        let met: Vec<Entry> = entries
            .iter()
            .copied()
            .filter(|e| e.met(combination))
            .collect();
        let mut by_row = vec![None; lines.rows()];
        for entry in &met {
            by_row[entry.row as usize] = Some(*entry);
        }
        Course {
            lines,
            who: who_runs(lines, combination),
            met,
            by_row,
        }
    }

    /// The tick of a row's start or item.
    pub fn tick(&self, row: Row) -> Option<u64> {
        let entry = self.by_row[row_number(self.lines, row) as usize]?;
        Some(u64::from(entry.tick))
    }

    /// The end of a process: its full ticks after its start.
    pub fn end(&self, process: u64) -> Option<u64> {
        let start = self.tick(Row::Process(process as usize))?;
        Some(start + self.lines.processes[process as usize].ticks)
    }

    /// "an item arrives one slot length after its tick, whether or not a slot begins there."
    pub fn arrival(&self, row: Row) -> Option<u64> {
        Some(arrival(self.lines, row, self.tick(row)?))
    }

    /// The tick from which on the value of a condition is known.
    pub fn known_from(&self, condition: usize) -> Option<u64> {
        self.arrival(Row::Condition(condition))
    }

    /// The tick at which a carrying edge delivers: a local one as it would be ready, another as
    /// its item arrives.
    pub fn delivered_from(&self, edge: usize) -> Option<u64> {
        if !self.lines.local(edge) {
            return self.arrival(Row::Edge(edge));
        }
        let end = self.end(self.lines.edges[edge].from)?;
        match self.lines.edges[edge].when.condition() {
            None => Some(end),
            Some((condition, _)) => Some(end.max(self.known_from(condition as usize)?)),
        }
    }

    /// The last end of a process.
    pub fn delay(&self) -> u64 {
        (0..self.lines.processes.len() as u64)
            .filter_map(|p| self.end(p))
            .max()
            .unwrap()
    }

    /// The row of a met entry.
    fn row(&self, entry: &Entry) -> Row {
        row(self.lines, entry.row).unwrap()
    }

    /// The met entries of processes.
    fn starts(&self) -> Vec<Entry> {
        let starts = self.met.iter().copied();
        starts
            .filter(|e| matches!(self.row(e), Row::Process(_)))
            .collect()
    }

    /// The met entries of edges and conditions.
    fn items(&self) -> Vec<Entry> {
        let items = self.met.iter().copied();
        items
            .filter(|e| !matches!(self.row(e), Row::Process(_)))
            .collect()
    }
}

/// "15. In some combination a met column uses a value not known by its tick."
fn uses_unknown_value(course: &Course) -> bool {
    course.met.iter().any(|entry| {
        (0..course.lines.conditions.len())
            .filter(|condition| entry.known >> condition & 1 == 1)
            .any(|condition| later(course.known_from(condition), entry.tick))
    })
}

/// "16. A process starts before a carrying edge has delivered, or an item before its sender's
/// end."
fn too_early(course: &Course) -> bool {
    course.met.iter().any(|entry| match course.row(entry) {
        Row::Process(process) => starts_before_input(course, process, entry.tick),
        item => later(course.end(row_process(course.lines, item)), entry.tick),
    })
}

/// Whether a process that starts at a tick does so before a carrying edge into it has delivered.
fn starts_before_input(course: &Course, process: usize, tick: u32) -> bool {
    (0..course.lines.edges.len())
        .filter(|&edge| course.lines.edges[edge].to == process as u64 && course.who.carries[edge])
        .any(|edge| later(course.delivered_from(edge), tick))
}

/// "17. An item's tick is not a beginning of its sender's slot."
fn outside_slot(course: &Course) -> bool {
    course.items().iter().any(|item| {
        let node = row_node(course.lines, course.row(item));
        let slot = slot_of(course.lines, node);
        !begins_at(course.lines, slot, u64::from(item.tick))
    })
}

/// "18. Two processes overlap on a node." One may start at the tick at which the other ends.
fn processes_overlap(course: &Course) -> bool {
    some_two(&course.starts(), |a, b| {
        let (one, other) = (u64::from(a.row), u64::from(b.row));
        course.lines.node(one) == course.lines.node(other)
            && later(course.end(one), b.tick)
            && later(course.end(other), a.tick)
    })
}

/// "19. Two items of a frame share a byte, or one passes the slot's last byte." The items of a
/// frame are those of one node at one tick. Document 02: "Capacity and places still count data
/// only."
fn wrong_places(course: &Course) -> bool {
    let lines = course.lines;
    let items = course.items();
    let node = |item: &Entry| row_node(lines, course.row(item));
    let last = |item: &Entry| u64::from(item.place) + row_bytes(lines, course.row(item));
    let passes_last = |item: &Entry| last(item) > lines.slots[slot_of(lines, node(item))].bytes;
    items.iter().any(passes_last)
        || some_two(&items, |a, b| {
            a.tick == b.tick
                && node(a) == node(b)
                && u64::from(a.place) < last(b)
                && u64::from(b.place) < last(a)
        })
}

/// Whether something comes after a tick, or never.
fn later(from: Option<u64>, tick: u32) -> bool {
    from.is_none_or(|from| from > u64::from(tick))
}

/// Whether two of these stand in a relation.
fn some_two(all: &[Entry], related: impl Fn(&Entry, &Entry) -> bool) -> bool {
    (0..all.len()).any(|b| (0..b).any(|a| related(&all[a], &all[b])))
}
