//! A run of a table by the units, and what demand 3 claims about it.

use crate::bus::slot_ticks_of;
use crate::lines::Lines;
use crate::lookup::{Answer, Question};
use crate::table::{entries, row, row_node, row_process, Entry, Row};
use crate::who_runs::{value, who_runs, Combination};

/// "It takes each tick from 0 to 999,999,999 in turn": the last of them.
pub const LAST_TICK: u64 = 999_999_999;

/// A process that has started in a run.
#[derive(Clone, Copy, Debug, PartialEq, Eq)]
pub struct Start {
    /// The process.
    pub process: usize,
    /// The tick of its start.
    pub tick: u64,
    /// The tick of its end, which may lie past the last tick.
    pub end: u64,
}

/// An item that has been sent in a run.
#[derive(Clone, Copy, Debug, PartialEq, Eq)]
pub struct Item {
    /// What was sent: the message of an edge or the broadcast of a condition.
    pub row: Row,
    /// The tick at which it was sent.
    pub tick: u64,
    /// Its place in the frame.
    pub place: u64,
}

/// A run: "all starts and items so far with their ticks, items also with their place in the frame;
/// at first there are none." What has been heard follows from them.
#[derive(Clone, Debug)]
pub struct Run<'a> {
    lines: &'a Lines,
    combination: Combination,
    times: &'a [u64],
    /// The starts, in the order in which they came.
    pub starts: Vec<Start>,
    /// The items, in the order in which they came.
    pub items: Vec<Item>,
}

/// "A run is fed a plan, a table, a combination, for each process a running time from 0 to its
/// ticks, and the lookup's answers." For a plan in which 2 to 9 find nothing.
///
/// Ticks that no entry of the table has are skipped: the lookup gives only entries "at that tick",
/// so there each unit is given none. What ends or arrives at such a tick is taken up at the next
/// tick that is looked at, before anyone asks, as nobody asks in between with an effect.
pub fn run<'a>(
    lines: &'a Lines,
    words: &[u32],
    combination: Combination,
    times: &'a [u64],
    lookup: &mut dyn FnMut(Question) -> Answer,
) -> Run<'a> {
    let ticks = ticks_with_entries(&entries(words));
    run_over(&ticks, lines, words, combination, times, lookup)
}

/// The run, taking these ticks in turn.
pub fn run_over<'a>(
    ticks: &[u64],
    lines: &'a Lines,
    words: &[u32],
    combination: Combination,
    times: &'a [u64],
    lookup: &mut dyn FnMut(Question) -> Answer,
) -> Run<'a> {
    let entries = entries(words);
    let mut run = Run {
        lines,
        combination,
        times,
        starts: Vec::new(),
        items: Vec::new(),
    };
    for &tick in ticks {
        run.take_tick(&entries, tick, lookup);
    }
    run
}

/// The ticks up to the last that some entry has, in turn.
fn ticks_with_entries(entries: &[Entry]) -> Vec<u64> {
    let mut ticks: Vec<u64> = entries.iter().map(|e| u64::from(e.tick)).collect();
    ticks.retain(|&tick| tick <= LAST_TICK);
    ticks.sort_unstable();
    ticks.dedup();
    ticks
}

impl Run<'_> {
    /// "ends and arrivals first, then each unit calls the lookup with its node, the tick and the
    /// values heard". The values heard are the same at every unit and do not change within a tick.
    fn take_tick(
        &mut self,
        entries: &[Entry],
        tick: u64,
        lookup: &mut dyn FnMut(Question) -> Answer,
    ) {
        let (heard, values) = self.heard_by(tick);
        for slot in &self.lines.slots {
            let question = Question {
                node: slot.node,
                tick,
                heard,
                values,
                begin: 0,
            };
            self.ask(entries, question, lookup);
        }
    }

    /// "beginning at entry 0, then one past each entry given, until it gives none or refuses." A
    /// number that is no entry's, which no lookup as laid down gives, counts as none.
    fn ask(
        &mut self,
        entries: &[Entry],
        mut question: Question,
        lookup: &mut dyn FnMut(Question) -> Answer,
    ) {
        while let Answer::Entry(number) = lookup(question) {
            let Some(entry) = entries.get(number as usize) else {
                return;
            };
            self.obey(entry, question.tick);
            question.begin = number + 1;
        }
    }

    /// "A process's entry starts it, and it ends its running time later, even where that lies past
    /// the last tick; any other entry sends its item."
    fn obey(&mut self, entry: &Entry, tick: u64) {
        match row(self.lines, entry.row) {
            None => {}
            Some(Row::Process(process)) => self.starts.push(Start {
                process,
                tick,
                end: tick + self.times[process],
            }),
            Some(item) => self.items.push(Item {
                row: item,
                tick,
                place: u64::from(entry.place),
            }),
        }
    }

    /// The end of a process by this run: of its first start, if it has several.
    fn end(&self, process: u64) -> Option<u64> {
        let starts = self.starts.iter();
        starts
            .filter(|s| s.process as u64 == process)
            .map(|s| s.end)
            .min()
    }

    /// Whether an item was ready as it was sent, by this run's ends: a broadcast and a message
    /// that does not depend on a condition at the sender's end, a conditional message when
    /// sender's end and known value have both come.
    fn was_ready(&self, item: &Item) -> bool {
        let ended = has_come(self.end(row_process(self.lines, item.row)), item.tick);
        let known = match item.row {
            Row::Edge(edge) => match self.lines.edges[edge].when.condition() {
                None => true,
                Some((condition, _)) => has_come(self.heard_from(condition as usize), item.tick),
            },
            _ => true,
        };
        ended && known
    }

    /// The first arrival of an item of a row. "Items arrive as in 14 to 20, but one sent before it
    /// is ready, by this run's ends, counts for nothing."
    fn arrival(&self, row: Row) -> Option<u64> {
        let slot_ticks = slot_ticks_of(self.lines, row_node(self.lines, row));
        let items = self.items.iter().filter(|item| item.row == row);
        items
            .filter(|item| self.was_ready(item))
            .map(|item| item.tick + slot_ticks)
            .min()
    }

    /// "A broadcast that arrives makes the combination's value heard." One that arrives after the
    /// last tick is never heard.
    fn heard_from(&self, condition: usize) -> Option<u64> {
        let arrival = self.arrival(Row::Condition(condition))?;
        (arrival <= LAST_TICK).then_some(arrival)
    }

    /// The bits of the conditions heard by a tick, and their values.
    fn heard_by(&self, tick: u64) -> (u64, u64) {
        let mut heard = 0;
        let mut values = 0;
        for condition in 0..self.lines.conditions.len() {
            if has_come(self.heard_from(condition), tick) {
                heard |= 1 << condition;
                values |= u64::from(value(self.combination, condition)) << condition;
            }
        }
        (heard, values)
    }

    /// The tick at which a carrying edge delivers, "by this run's ends and arrivals": a local one
    /// as it would be ready, another as its item arrives.
    fn delivered_from(&self, edge: usize) -> Option<u64> {
        if !self.lines.local(edge) {
            return self.arrival(Row::Edge(edge));
        }
        let end = self.end(self.lines.edges[edge].from)?;
        match self.lines.edges[edge].when.condition() {
            None => Some(end),
            Some((condition, _)) => Some(end.max(self.heard_from(condition as usize)?)),
        }
    }

    /// What demand 3 claims about the whole run: "each process that is due starts once, after its
    /// inputs, alone on its unit; none other starts; all end within the stated delay."
    pub fn keeps_demand_three(&self, delay: u64) -> bool {
        self.each_due_starts_once()
            && self.none_other_starts()
            && self.each_after_its_inputs()
            && self.each_alone()
            && self.all_end_within(delay)
    }

    /// "each process that is due starts once". "A process is due if active."
    pub fn each_due_starts_once(&self) -> bool {
        let who = who_runs(self.lines, self.combination);
        (0..self.lines.processes.len())
            .filter(|&process| who.active[process])
            .all(|process| self.starts.iter().filter(|s| s.process == process).count() == 1)
    }

    /// "none other starts".
    pub fn none_other_starts(&self) -> bool {
        let who = who_runs(self.lines, self.combination);
        self.starts.iter().all(|s| who.active[s.process])
    }

    /// "It starts after its inputs if by then every carrying edge into it has delivered, by this
    /// run's ends and arrivals."
    pub fn each_after_its_inputs(&self) -> bool {
        let who = who_runs(self.lines, self.combination);
        self.starts.iter().all(|start| {
            (0..self.lines.edges.len())
                .filter(|&edge| who.carries[edge])
                .filter(|&edge| self.lines.edges[edge].to == start.process as u64)
                .all(|edge| has_come(self.delivered_from(edge), start.tick))
        })
    }

    /// "It is alone on its unit if no other process there runs between its start and its end."
    pub fn each_alone(&self) -> bool {
        let node = |start: &Start| self.lines.node(start.process as u64);
        self.starts.iter().enumerate().all(|(number, a)| {
            let earlier = self.starts[..number].iter();
            earlier
                .filter(|b| node(a) == node(b))
                .all(|b| a.end <= b.tick || b.end <= a.tick)
        })
    }

    /// "all end within the stated delay."
    pub fn all_end_within(&self, delay: u64) -> bool {
        self.starts.iter().all(|s| s.end <= delay)
    }

    /// The last end of a process: "If each takes its full ticks, some combination ends exactly at
    /// that delay."
    pub fn last_end(&self) -> Option<u64> {
        self.starts.iter().map(|s| s.end).max()
    }
}

/// Whether something that comes at a tick has come by another.
fn has_come(from: Option<u64>, tick: u64) -> bool {
    from.is_some_and(|from| from <= tick)
}
