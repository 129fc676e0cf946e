//! Where a refused listing fails: the first line at which the sentence of its refusal does.

use crate::bus::{begins_at, slot_of};
use crate::check::{check, due, Course};
use crate::check_listing::{check_listing_of, frames_given};
use crate::lines::Lines;
use crate::read_listing::{read_listing, Stated};
use crate::table::{row, row_bytes, row_node, row_process, Entry, Frame, Row};
use crate::who_runs::{combinations, who_runs, Combination};

/// The number of the passed line of node 0.
const FIRST_PASSED: usize = 2;

/// Where a listing fails.
#[derive(Clone, Debug, PartialEq, Eq)]
pub struct FailingListing {
    /// The number of the refusal.
    pub number: u8,
    /// The first line of the listing at which the refusal's sentence fails, counted from 1; none
    /// where a row has no met entry.
    pub line: Option<usize>,
    /// For 14: the first met entry of a row that has two. For 18 and 19: the first earlier line that
    /// this one collides with, if it does.
    pub earlier: Option<usize>,
    /// For 14 to 19: the lowest combination in which the sentence fails.
    pub combination: Option<Combination>,
    /// For 14: the lowest row that fails in it.
    pub row: Option<Row>,
    /// For 20: the greatest delay.
    pub delay: Option<u64>,
    /// For 22: the frame that the entries give there, if they give one.
    pub frame: Option<Frame>,
}

impl FailingListing {
    /// A place of which only the line is known.
    fn at(number: u8, line: usize) -> Self {
        FailingListing {
            number,
            line: Some(line),
            earlier: None,
            combination: None,
            row: None,
            delay: None,
            frame: None,
        }
    }
}

/// Where a listing fails for a plan in which 2 to 9 find nothing and whose pass-over counts these
/// are, if one of 13 to 22 applies to it.
pub fn failing_listing(
    lines: &Lines,
    listing: &[u8],
    pass_overs: &[u64],
) -> Option<FailingListing> {
    let number = check_listing_of(lines, listing, || pass_overs.to_vec())?;
    let Ok(stated) = read_listing(lines, listing) else {
        return Some(FailingListing::at(21, first_odd_line(lines, listing)));
    };
    Some(match number {
        13 => FailingListing::at(13, first_wrong_entry(lines, &stated)),
        14 => wrong_row(lines, &stated),
        20 => FailingListing {
            delay: greatest_delay(lines, &stated),
            ..FailingListing::at(20, 1)
        },
        22 => wrong_frame(lines, &stated),
        _ => in_courses(lines, &stated, number),
    })
}

/// Document 02: "21: the listing is not of its form, or has over 3,000 entries or 2,000 frames". The
/// first line that no listing of the form has after those before it.
fn first_odd_line(lines: &Lines, listing: &[u8]) -> usize {
    let ends = (1..=listing.len()).filter(|&p| listing[p - 1] == b'\n');
    let ends: Vec<usize> = ends.collect();
    let begins_a_listing = |&end: &usize| {
        let above = ends.partition_point(|&other| other <= end);
        let more = missing_passed(lines, above);
        read_listing(lines, &[&listing[..end], &more].concat()).is_ok()
    };
    ends.partition_point(begins_a_listing) + 1
}

/// The passed lines that a listing of the form has behind so many lines, one or more.
pub fn missing_passed(lines: &Lines, above: usize) -> Vec<u8> {
    (above - 1..lines.slots.len())
        .flat_map(|node| format!("(passed (node {node}) 0)\n").into_bytes())
        .collect()
}

/// The line of an entry, by its place among the entries: the delay line and a passed line for each
/// node stand above them.
pub fn line_of(lines: &Lines, entry: usize) -> usize {
    1 + lines.slots.len() + entry + 1
}

/// "13. An entry [...]": the first that is refused also alone.
fn first_wrong_entry(lines: &Lines, stated: &Stated) -> usize {
    let is_wrong = |entry: &Entry| check(lines, &entry.words(), 0) == Some(13);
    let place = stated.entries.iter().position(is_wrong).unwrap();
    line_of(lines, place)
}

/// The places of the entries of a row whose columns are met in a combination.
fn met_of(lines: &Lines, stated: &Stated, wanted: Row, combination: Combination) -> Vec<usize> {
    (0..stated.entries.len())
        .filter(|&e| row(lines, stated.entries[e].row) == Some(wanted))
        .filter(|&e| stated.entries[e].met(combination))
        .collect()
}

/// "14. In some combination a due row [...] has not exactly one entry whose column is met, or
/// another row has one."
fn wrong_row(lines: &Lines, stated: &Stated) -> FailingListing {
    let wrong = |combination| {
        let who = who_runs(lines, combination);
        let rows = (0..lines.rows() as u32).map(|number| row(lines, number).unwrap());
        rows.map(|row| (row, met_of(lines, stated, row, combination)))
            .find(|(row, met)| met.len() != usize::from(due(lines, &who, *row)))
            .map(|(row, met)| (combination, row, met, due(lines, &who, row)))
    };
    let (combination, row, met, is_due) = combinations(lines).find_map(wrong).unwrap();
    let too_many = usize::from(is_due);
    FailingListing {
        line: met.get(too_many).map(|&e| line_of(lines, e)),
        earlier: met.first().filter(|_| is_due).map(|&e| line_of(lines, e)),
        combination: Some(combination),
        row: Some(row),
        ..FailingListing::at(14, 0)
    }
}

/// A combination with its course and the places of its met entries.
struct Met<'a> {
    lines: &'a Lines,
    entries: &'a [Entry],
    combination: Combination,
    course: Course<'a>,
}

impl<'a> Met<'a> {
    fn of(lines: &'a Lines, stated: &'a Stated, combination: Combination) -> Self {
        Met {
            lines,
            entries: &stated.entries,
            combination,
            course: Course::of(lines, &stated.entries, combination),
        }
    }

    /// The places of the entries that are met.
    fn places(&self) -> Vec<usize> {
        (0..self.entries.len())
            .filter(|&e| self.entries[e].met(self.combination))
            .collect()
    }

    /// The row of an entry.
    fn row(&self, entry: usize) -> Row {
        row(self.lines, self.entries[entry].row).unwrap()
    }

    /// The tick of an entry.
    fn tick(&self, entry: usize) -> u64 {
        self.entries[entry].tick.into()
    }

    /// The node of an entry.
    fn node(&self, entry: usize) -> u64 {
        row_node(self.lines, self.row(entry))
    }

    /// Whether an entry is an item's.
    fn is_item(&self, entry: usize) -> bool {
        !matches!(self.row(entry), Row::Process(_))
    }

    /// "15. In some combination a met column uses a value not known by its tick."
    fn uses_unknown(&self, entry: usize) -> bool {
        let named = |c: &usize| self.entries[entry].known >> c & 1 == 1;
        let known = |c: usize| self.course.known_from(c);
        (0..self.lines.conditions.len())
            .filter(named)
            .any(|c| known(c).is_none_or(|from| from > self.tick(entry)))
    }

    /// "16. A process starts before a carrying edge has delivered, or an item before its sender's
    /// end."
    fn is_early(&self, entry: usize) -> bool {
        let Row::Process(process) = self.row(entry) else {
            let sender = row_process(self.lines, self.row(entry));
            return self.course.end(sender) > Some(self.tick(entry));
        };
        let carries = who_runs(self.lines, self.combination).carries;
        let into = (0..carries.len()).filter(|&e| self.lines.edges[e].to == process as u64);
        into.filter(|&e| carries[e])
            .any(|e| self.course.delivered_from(e) > Some(self.tick(entry)))
    }

    /// "17. An item's tick is not a beginning of its sender's slot."
    fn is_outside(&self, entry: usize) -> bool {
        let slot = slot_of(self.lines, self.node(entry));
        self.is_item(entry) && !begins_at(self.lines, slot, self.tick(entry))
    }

    /// "18. Two processes overlap on a node."
    fn overlap(&self, a: usize, b: usize) -> bool {
        let end = |e: usize| self.course.end(row_process(self.lines, self.row(e)));
        !self.is_item(a)
            && !self.is_item(b)
            && self.node(a) == self.node(b)
            && end(a) > Some(self.tick(b))
            && end(b) > Some(self.tick(a))
    }

    /// The places in the frame that an item has.
    fn bytes(&self, entry: usize) -> std::ops::Range<u64> {
        let first = u64::from(self.entries[entry].place);
        first..first + row_bytes(self.lines, self.row(entry))
    }

    /// "19. Two items of a frame share a byte,".
    fn share_a_byte(&self, a: usize, b: usize) -> bool {
        self.is_item(a)
            && self.is_item(b)
            && (self.tick(a), self.node(a)) == (self.tick(b), self.node(b))
            && self.bytes(a).any(|byte| self.bytes(b).contains(&byte))
    }

    /// "or one passes the slot's last byte."
    fn passes_last(&self, entry: usize) -> bool {
        let slot = slot_of(self.lines, self.node(entry));
        self.is_item(entry) && self.bytes(entry).end > self.lines.slots[slot].bytes
    }

    /// The first met entry that a sentence is about, and the first before it that it collides with.
    fn failing(&self, number: u8) -> Option<(usize, Option<usize>)> {
        let places = self.places();
        let alone = |is_so: fn(&Self, usize) -> bool| {
            let found = places.iter().find(|&&e| is_so(self, e));
            found.map(|&e| (e, None))
        };
        let of_two = |are_so: fn(&Self, usize, usize) -> bool| {
            places.iter().find_map(|&b| {
                let before = places.iter().take_while(|&&a| a < b);
                let a = before.copied().find(|&a| are_so(self, a, b))?;
                Some((b, Some(a)))
            })
        };
        match number {
            15 => alone(Self::uses_unknown),
            16 => alone(Self::is_early),
            17 => alone(Self::is_outside),
            18 => of_two(Self::overlap),
            _ => alone(Self::passes_last)
                .into_iter()
                .chain(of_two(Self::share_a_byte))
                .min(),
        }
    }
}

/// 15 to 19: the lowest combination in which the sentence fails, and its first line.
fn in_courses(lines: &Lines, stated: &Stated, number: u8) -> FailingListing {
    let fails = |combination| {
        let place = Met::of(lines, stated, combination).failing(number)?;
        Some((combination, place))
    };
    let (combination, (entry, earlier)) = combinations(lines).find_map(fails).unwrap();
    FailingListing {
        earlier: earlier.map(|e| line_of(lines, e)),
        combination: Some(combination),
        ..FailingListing::at(number, line_of(lines, entry))
    }
}

/// "20. The stated delay is not the greatest delay."
fn greatest_delay(lines: &Lines, stated: &Stated) -> Option<u64> {
    combinations(lines)
        .map(|c| Course::of(lines, &stated.entries, c).delay())
        .max()
}

/// Document 02: "22: its frame lines are not those its entries give, or its passed line is not the
/// plan's pass-over count". The first frame line that is another, or missing, or one too many. Where
/// there is none, the first passed line, whichever of them is at fault: which one is known only to
/// who plans.
fn wrong_frame(lines: &Lines, stated: &Stated) -> FailingListing {
    let given = frames_given(lines, &stated.entries);
    let most = given.len().max(stated.frames.len());
    match (0..most).find(|&f| given.get(f) != stated.frames.get(f)) {
        None => FailingListing::at(22, FIRST_PASSED),
        Some(place) => FailingListing {
            frame: given.get(place).copied(),
            ..FailingListing::at(22, line_of(lines, stated.entries.len() + place))
        },
    }
}
