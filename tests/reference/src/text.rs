//! The plan text: its printed form, reading and writing.

use crate::lines::{Condition, Edge, Lines, Pick, PlanLine, Process, Slot, Waits, When};
use crate::refuse::refuse_plan;

/// "The text exceeds 16,384 bytes": the longest text that does not.
pub const LONGEST_TEXT: usize = 16_384;

/// "numbers have one to nine decimal digits".
pub const MOST_DIGITS: usize = 9;

/// The printed form of the lines: "One bracket form a line, single spaces, each line ended by a
/// line feed". "Line kinds stand in the order of this example".
pub fn print(lines: &Lines) -> Vec<u8> {
    let mut text = String::new();
    text += &print_plan_line(&lines.plan);
    for slot in &lines.slots {
        text += &print_slot(slot);
    }
    for process in &lines.processes {
        text += &print_process(process);
    }
    for condition in &lines.conditions {
        text += &print_condition(condition);
    }
    for edge in &lines.edges {
        text += &print_edge(edge);
    }
    text.into_bytes()
}

/// Document 02: "The plan line gains `(head 0)` [...] after byte".
fn print_plan_line(plan: &PlanLine) -> String {
    let pick = match plan.pick {
        Pick::Urgency => "urgency",
        Pick::Number => "number",
    };
    format!(
        "(plan (byte {}) (head {}) (pick {}))\n",
        plan.byte, plan.head, pick
    )
}

fn print_slot(slot: &Slot) -> String {
    format!("(slot (node {}) (bytes {}))\n", slot.node, slot.bytes)
}

fn print_process(process: &Process) -> String {
    let waits = match process.waits {
        Waits::All => "all",
        Waits::Any => "any",
    };
    format!(
        "(process (node {}) (ticks {}) (waits {}))\n",
        process.node, process.ticks, waits
    )
}

fn print_condition(condition: &Condition) -> String {
    format!("(condition (process {}))\n", condition.process)
}

fn print_edge(edge: &Edge) -> String {
    format!(
        "(edge (from {}) (to {}) (bytes {}) (when {}))\n",
        edge.from,
        edge.to,
        edge.bytes,
        print_when(edge.when)
    )
}

fn print_when(when: When) -> String {
    match when {
        When::Always => "always".to_string(),
        When::True(condition) => format!("(true {condition})"),
        When::False(condition) => format!("(false {condition})"),
    }
}

/// The plan writer: "Planner, checker, lookup and plan writer retry 2 to 9 on the plan they are
/// handed." "10. [...] a written text more bytes, than lent."
pub fn write(lines: &Lines, bytes_lent: usize) -> Result<Vec<u8>, u8> {
    if let Some(number) = refuse_plan(lines) {
        return Err(number);
    }
    let text = print(lines);
    if text.len() > bytes_lent {
        return Err(10);
    }
    Ok(text)
}

/// Reads a plan text, or gives the first refusal of 1 to 9 that applies.
pub fn read(text: &[u8]) -> Result<Lines, u8> {
    let lines = read_form(text).ok_or(1)?;
    match refuse_plan(&lines) {
        Some(number) => Err(number),
        None => Ok(lines),
    }
}

/// "1. The text exceeds 16,384 bytes or is not of the form above."
pub fn read_form(text: &[u8]) -> Option<Lines> {
    if text.len() > LONGEST_TEXT {
        return None;
    }
    read_any_length(text)
}

/// The lines of a text of the form above, however long it is.
pub fn read_any_length(text: &[u8]) -> Option<Lines> {
    let mut rest = Rest(text);
    let lines = read_lines(&mut rest)?;
    if rest.0.is_empty() {
        Some(lines)
    } else {
        None
    }
}

/// "There is one plan line; slots stand in bus order. Processes, conditions and edges are numbered
/// from 0 in the order they stand."
fn read_lines(rest: &mut Rest) -> Option<Lines> {
    Some(Lines {
        plan: read_plan_line(rest)?,
        slots: read_all(rest, "(slot ", read_slot)?,
        processes: read_all(rest, "(process ", read_process)?,
        conditions: read_all(rest, "(condition ", read_condition)?,
        edges: read_all(rest, "(edge ", read_edge)?,
    })
}

/// Reads the lines of one kind: as many as begin as this kind does, which may be none.
fn read_all<T>(
    rest: &mut Rest,
    begin: &str,
    read_one: fn(&mut Rest) -> Option<T>,
) -> Option<Vec<T>> {
    let mut found = Vec::new();
    while rest.begins(begin) {
        found.push(read_one(rest)?);
    }
    Some(found)
}

/// Document 02: "A plan text without a part that this or a later point adds is no longer of the
/// form".
fn read_plan_line(rest: &mut Rest) -> Option<PlanLine> {
    rest.expect("(plan (byte ")?;
    let byte = rest.number()?;
    rest.expect(") (head ")?;
    let head = rest.number()?;
    rest.expect(") (pick ")?;
    let pick = rest.one_of(&[("urgency", Pick::Urgency), ("number", Pick::Number)])?;
    rest.expect("))\n")?;
    Some(PlanLine { byte, head, pick })
}

fn read_slot(rest: &mut Rest) -> Option<Slot> {
    rest.expect("(slot (node ")?;
    let node = rest.number()?;
    rest.expect(") (bytes ")?;
    let bytes = rest.number()?;
    rest.expect("))\n")?;
    Some(Slot { node, bytes })
}

fn read_process(rest: &mut Rest) -> Option<Process> {
    rest.expect("(process (node ")?;
    let node = rest.number()?;
    rest.expect(") (ticks ")?;
    let ticks = rest.number()?;
    rest.expect(") (waits ")?;
    let waits = rest.one_of(&[("all", Waits::All), ("any", Waits::Any)])?;
    rest.expect("))\n")?;
    Some(Process { node, ticks, waits })
}

fn read_condition(rest: &mut Rest) -> Option<Condition> {
    rest.expect("(condition (process ")?;
    let process = rest.number()?;
    rest.expect("))\n")?;
    Some(Condition { process })
}

fn read_edge(rest: &mut Rest) -> Option<Edge> {
    rest.expect("(edge (from ")?;
    let from = rest.number()?;
    rest.expect(") (to ")?;
    let to = rest.number()?;
    rest.expect(") (bytes ")?;
    let bytes = rest.number()?;
    rest.expect(") (when ")?;
    let when = read_when(rest)?;
    rest.expect("))\n")?;
    Some(Edge {
        from,
        to,
        bytes,
        when,
    })
}

fn read_when(rest: &mut Rest) -> Option<When> {
    if rest.expect("always").is_some() {
        return Some(When::Always);
    }
    let value = rest.one_of(&[("(true ", true), ("(false ", false)])?;
    let condition = rest.number()?;
    rest.expect(")")?;
    Some(if value {
        When::True(condition)
    } else {
        When::False(condition)
    })
}

/// The part of a text that has not been read yet.
pub(crate) struct Rest<'a>(pub(crate) &'a [u8]);

impl Rest<'_> {
    /// Whether these letters come next.
    pub(crate) fn begins(&self, letters: &str) -> bool {
        self.0.starts_with(letters.as_bytes())
    }

    /// Reads exactly these letters.
    pub(crate) fn expect(&mut self, letters: &str) -> Option<()> {
        if !self.begins(letters) {
            return None;
        }
        self.0 = &self.0[letters.len()..];
        Some(())
    }

    /// Reads the first of these words that comes next, and gives what it means.
    pub(crate) fn one_of<T: Copy>(&mut self, words: &[(&str, T)]) -> Option<T> {
        words
            .iter()
            .find(|(word, _)| self.expect(word).is_some())
            .map(|&(_, meaning)| meaning)
    }

    /// "numbers have one to nine decimal digits and no needless leading zero."
    pub(crate) fn number(&mut self) -> Option<u64> {
        let digits = self.0.iter().take_while(|b| b.is_ascii_digit()).count();
        let (number, rest) = self.0.split_at(digits);
        let needless_zero = digits > 1 && number[0] == b'0';
        if digits == 0 || digits > MOST_DIGITS || needless_zero {
            return None;
        }
        self.0 = rest;
        Some(number.iter().fold(0, |n, &b| n * 10 + u64::from(b - b'0')))
    }
}
