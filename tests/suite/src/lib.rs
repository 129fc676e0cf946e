//! What the tests share: document 01's example with document 02's parts, short ways to write plans,
//! the plans of the cases, listings with their answers, random inputs, planners and checkers that are wrong,
//! pictures that are compared with their tables, and divisions in the sources.

pub mod cases;
pub mod comparing_listings;
pub mod divisions;
pub mod drawing;
pub mod heads;
pub mod listing_readings;
pub mod listings;
pub mod passed_lines;
pub mod tally;
pub mod telling;
pub mod telling_listings;
pub mod wrong_passed;

use generate::frames::{fewest_entries, with_frames};
use generate::{plan, Kind, Random};
use reference::lookup::Question;
use reference::{Condition, Edge, Lines, Pick, PlanLine, Planned, Process, Slot, Waits, When};

/// The plan text S of document 01. Document 02: "document 01's cases have 0 there."
pub const S: &str = "\
(plan (byte 2) (head 0) (pick urgency))
(slot (node 0) (bytes 2))
(slot (node 1) (bytes 2))
(process (node 0) (ticks 4) (waits all))
(process (node 1) (ticks 3) (waits all))
(process (node 0) (ticks 5) (waits all))
(process (node 0) (ticks 2) (waits any))
(condition (process 0))
(edge (from 0) (to 1) (bytes 1) (when (true 0)))
(edge (from 0) (to 2) (bytes 1) (when (false 0)))
(edge (from 1) (to 3) (bytes 2) (when always))
(edge (from 2) (to 3) (bytes 1) (when always))
";

/// The listing of S that document 01 prints, with the passed lines of document 02: "one line for each
/// node, `(passed (node 0) 0)`, in node order."
pub const S_LISTING: &str = "\
(delay 34)
(passed (node 0) 0)
(passed (node 1) 0)
(start 0 (when) (at 0))
(start 1 (when (true 0)) (at 20))
(start 2 (when (false 0)) (at 12))
(start 3 (when (false 0)) (at 17))
(start 3 (when (true 0)) (at 32))
(send 0 (when (true 0)) (at 16) (place 0))
(send 2 (when (true 0)) (at 28) (place 0))
(tell 0 (when) (at 8) (place 0))
(frame 8 (node 0) (bytes 1))
(frame 16 (node 0) (bytes 1))
(frame 28 (node 1) (bytes 2))
";

/// The lines of S.
pub fn s() -> Lines {
    reference::read(S.as_bytes()).unwrap()
}

/// The full ticks of each process.
pub fn full_times(lines: &Lines) -> Vec<u64> {
    lines.processes.iter().map(|p| p.ticks).collect()
}

/// Running times from 0 to the ticks, often 0 or the full ticks.
pub fn random_times(lines: &Lines, random: &mut Random) -> Vec<u64> {
    full_times(lines)
        .into_iter()
        .map(|ticks| {
            let between = random.between(0, ticks);
            random.one_of(&[0, ticks, between])
        })
        .collect()
}

/// A plan with no head, pick urgency and these slots, given as node and bytes.
pub fn bus(byte: u64, slots: &[(u64, u64)]) -> Lines {
    let slots = slots.iter().map(|&(node, bytes)| Slot { node, bytes });
    Lines {
        plan: PlanLine {
            byte,
            head: 0,
            pick: Pick::Urgency,
        },
        slots: slots.collect(),
        processes: Vec::new(),
        conditions: Vec::new(),
        edges: Vec::new(),
    }
}

/// Short ways to add lines to a plan.
pub trait With {
    /// Adds an `all` process.
    fn all(self, node: u64, ticks: u64) -> Self;
    /// Adds an `any` process.
    fn any(self, node: u64, ticks: u64) -> Self;
    /// Adds a condition.
    fn decides(self, process: u64) -> Self;
    /// Adds an edge.
    fn edge(self, from: u64, to: u64, bytes: u64, when: When) -> Self;
    /// Takes a head of so many bytes.
    fn head(self, head: u64) -> Self;
    /// Takes pick number.
    fn by_number(self) -> Self;
}

impl With for Lines {
    fn all(self, node: u64, ticks: u64) -> Self {
        with_process(self, node, ticks, Waits::All)
    }

    fn any(self, node: u64, ticks: u64) -> Self {
        with_process(self, node, ticks, Waits::Any)
    }

    fn decides(mut self, process: u64) -> Self {
        self.conditions.push(Condition { process });
        self
    }

    fn edge(mut self, from: u64, to: u64, bytes: u64, when: When) -> Self {
        self.edges.push(Edge {
            from,
            to,
            bytes,
            when,
        });
        self
    }

    fn head(mut self, head: u64) -> Self {
        self.plan.head = head;
        self
    }

    fn by_number(mut self) -> Self {
        self.plan.pick = Pick::Number;
        self
    }
}

fn with_process(mut lines: Lines, node: u64, ticks: u64, waits: Waits) -> Lines {
    lines.processes.push(Process { node, ticks, waits });
    lines
}

/// Plans with as many words as it takes.
pub fn planned(lines: &Lines) -> Planned {
    reference::plan(lines, usize::MAX, usize::MAX).unwrap()
}

/// The listing of a plan with as many words as it takes.
pub fn listed(lines: &Lines) -> String {
    let p = planned(lines);
    let listing = reference::listing(lines, p.delay, &p.passed_by_node, &p.words, &p.frames);
    String::from_utf8(listing).unwrap()
}

/// Plans with as many entries and frames as the planning program has room for, and with one more of
/// either or both; each with its refusal by the program, 10 before 11.
pub fn about_the_room(random: &mut Random) -> Vec<(Lines, Option<u8>)> {
    let fewest = fewest_entries(2_000);
    let counts = [
        (1_999, 3_000, None),
        (2_000, fewest, None),
        (2_000, 3_000, None),
        (2_000, 3_001, Some(10)),
        (2_001, fewest + 1, Some(11)),
        (2_001, 3_000, Some(11)),
        (2_001, 3_001, Some(10)),
        (2_100, 3_000, Some(11)),
        (2_100, 3_020, Some(10)),
    ];
    counts
        .map(|(frames, entries, refusal)| (with_frames(frames, entries, random), refusal))
        .to_vec()
}

/// The lines of the listing that begin so.
pub fn listed_from(lines: &Lines, begin: &str) -> Vec<String> {
    let listing = listed(lines);
    let found = listing.lines().filter(|line| line.starts_with(begin));
    found.map(str::to_string).collect()
}

/// A question to the lookup.
pub fn question(node: u64, tick: u64, heard: u64, values: u64, begin: u64) -> Question {
    Question {
        node,
        tick,
        heard,
        values,
        begin,
    }
}

/// How many random plans of each kind a test looks at.
pub const MANY: [(Kind, u64); 9] = [
    (Kind::Tiny, 1_500),
    (Kind::DenseBus, 250),
    (Kind::ManyConditions, 200),
    (Kind::NestedAny, 300),
    (Kind::Largest, 4),
    (Kind::LongestRound, 100),
    (Kind::ShortestRound, 250),
    (Kind::UnevenBus, 400),
    (Kind::LongGaps, 250),
];

/// The same, for tests that take long for each plan.
pub const FEW: [(Kind, u64); 8] = [
    (Kind::Tiny, 400),
    (Kind::DenseBus, 40),
    (Kind::ManyConditions, 30),
    (Kind::NestedAny, 60),
    (Kind::LongestRound, 20),
    (Kind::ShortestRound, 60),
    (Kind::UnevenBus, 80),
    (Kind::LongGaps, 60),
];

/// Calls a test with random plans and the generator for whatever else is random in it. A plan that
/// fails can be found again by the text that is printed.
pub fn for_plans(seed: u64, counts: &[(Kind, u64)], mut test: impl FnMut(&Lines, &mut Random)) {
    for &(kind, count) in counts {
        for number in 0..count {
            let mut random = Random::new(seed << 32 ^ (kind as u64) << 24 ^ number);
            let lines = plan(kind, &mut random);
            let shown = ShownOnPanic(&lines);
            test(&lines, &mut random);
            drop(shown);
        }
    }
}

/// Prints the plan that a test was busy with, if the test fails.
struct ShownOnPanic<'a>(&'a Lines);

impl Drop for ShownOnPanic<'_> {
    fn drop(&mut self) {
        if std::thread::panicking() {
            let text = reference::print(self.0);
            println!("with this plan:\n{}", String::from_utf8_lossy(&text));
        }
    }
}
