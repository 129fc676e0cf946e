//! Where a refused text fails: the first line at which the sentence of its refusal does.

use crate::lines::{Condition, Edge, Lines, PlanLine, Process, Slot};
use crate::text::{read, read_any_length, LONGEST_TEXT};

/// Where a text fails.
#[derive(Clone, Copy, Debug, PartialEq, Eq)]
pub struct Failing {
    /// The number of the refusal.
    pub number: u8,
    /// The first line at which the refusal's sentence fails, counted from 1.
    pub line: usize,
    /// For 4, 5 and 7: the earlier line that this one collides with, if it does.
    pub earlier: Option<usize>,
    /// For 1: the most bytes of the line with which a text of the form could go on there.
    pub fitting: usize,
}

/// Where a text fails, if one of 1 to 9 applies to it.
pub fn failing(text: &[u8]) -> Option<Failing> {
    let number = read(text).err()?;
    if number == 1 {
        return Some(form(text));
    }
    let lines = read_any_length(text)?;
    let failing = match number {
        2 => counts(&lines),
        3 => sizes(&lines),
        4 => earliest(wrong_nodes(&lines), shared_nodes(&lines)),
        5 => earliest(wrong_processes(&lines), shared_processes(&lines)),
        6 => wrong_ends(&lines),
        7 => shared_ends(&lines),
        8 => undecided_whens(&lines),
        _ => too_long_messages(&lines),
    };
    failing.map(|(line, earlier)| Failing {
        number,
        line,
        earlier,
        fitting: 0,
    })
}

/// "1. The text exceeds 16,384 bytes or is not of the form above." The first line that no text of
/// the form has after those before it. Only the first 16,384 bytes count; where a text of the form
/// could begin with these, the line of the byte after them.
fn form(text: &[u8]) -> Failing {
    let counted = &text[..text.len().min(LONGEST_TEXT)];
    let ends = line_ends(counted);
    let good = ends.partition_point(|&end| read_any_length(&text[..end]).is_some());
    let begin = if good == 0 { 0 } else { ends[good - 1] };
    let end = ends.get(good).copied().unwrap_or(counted.len());
    let lengths: Vec<usize> = (1..=end - begin).collect();
    let can_stand = |&length: &usize| begins_a_text(&text[..begin], &text[begin..begin + length]);
    Failing {
        number: 1,
        line: good + 1,
        earlier: None,
        fitting: lengths.partition_point(can_stand),
    }
}

/// Where the lines of a text end, each behind its line feed.
fn line_ends(text: &[u8]) -> Vec<usize> {
    (1..=text.len()).filter(|&p| text[p - 1] == b'\n').collect()
}

/// Lines of every kind.
const LINES: [&str; 9] = [
    "(plan (byte 1) (head 1) (pick urgency))\n",
    "(plan (byte 1) (head 1) (pick number))\n",
    "(slot (node 1) (bytes 1))\n",
    "(process (node 1) (ticks 1) (waits all))\n",
    "(process (node 1) (ticks 1) (waits any))\n",
    "(condition (process 1))\n",
    "(edge (from 1) (to 1) (bytes 1) (when always))\n",
    "(edge (from 1) (to 1) (bytes 1) (when (true 1)))\n",
    "(edge (from 1) (to 1) (bytes 1) (when (false 1)))\n",
];

/// Whether some text of the form begins with these lines, none or of the form, and with this part
/// of the next: then the end of some line completes it. Of the lines before it, the first and the
/// last decide what may stand there.
fn begins_a_text(before: &[u8], part: &[u8]) -> bool {
    let lines: Vec<&[u8]> = before.split_inclusive(|&b| b == b'\n').collect();
    let before = match lines[..] {
        [] => Vec::new(),
        [only] => only.to_vec(),
        [first, .., last] => [first, last].concat(),
    };
    let completes =
        |end: &str| read_any_length(&[&before, part, end.as_bytes()].concat()).is_some();
    LINES
        .iter()
        .any(|line| (0..=line.len()).any(|begin| completes(&line[begin..])))
}

/// A line that fails, counted from 1, and the earlier line that it collides with, if it does.
type Place = (usize, Option<usize>);

/// The place of the lower line.
fn earliest(a: Option<Place>, b: Option<Place>) -> Option<Place> {
    a.into_iter().chain(b).min()
}

/// "2. There are not 1 to 8 slots, 1 to 64 processes, at most 6 conditions, at most 128 edges." A
/// line that is missing is missed where the lines of its kind would end.
fn counts(lines: &Lines) -> Option<Place> {
    let kinds = [
        (lines.slots.len(), 1, 8),
        (lines.processes.len(), 1, 64),
        (lines.conditions.len(), 0, 6),
        (lines.edges.len(), 0, 128),
    ];
    let mut before = 1;
    for (count, least, most) in kinds {
        if count < least || count > most {
            return Some((before + count.min(most) + 1, None));
        }
        before += count;
    }
    None
}

/// A line of a plan.
enum Line {
    Plan(PlanLine),
    Slot(Slot),
    Process(Process),
    Condition(Condition),
    Edge(Edge),
}

/// "Line kinds stand in the order of this example".
fn in_order(lines: &Lines) -> Vec<Line> {
    let mut all = vec![Line::Plan(lines.plan)];
    all.extend(lines.slots.iter().copied().map(Line::Slot));
    all.extend(lines.processes.iter().copied().map(Line::Process));
    all.extend(lines.conditions.iter().copied().map(Line::Condition));
    all.extend(lines.edges.iter().copied().map(Line::Edge));
    all
}

/// The first line that is so.
fn first(lines: &Lines, is_so: impl Fn(Line) -> bool) -> Option<Place> {
    let place = in_order(lines).into_iter().position(is_so)?;
    Some((place + 1, None))
}

/// The first edge that is so.
fn first_edge(lines: &Lines, is_so: impl Fn(Edge) -> bool) -> Option<Place> {
    first(lines, |line| match line {
        Line::Edge(edge) => is_so(edge),
        _ => false,
    })
}

/// The first line that has the key of an earlier one.
fn first_shared<K: PartialEq>(lines: &Lines, key: impl Fn(Line) -> Option<K>) -> Option<Place> {
    let keys: Vec<Option<K>> = in_order(lines).into_iter().map(key).collect();
    (0..keys.len()).find_map(|b| {
        let earlier = (0..b).find(|&a| keys[a].is_some() && keys[a] == keys[b])?;
        Some((b + 1, Some(earlier + 1)))
    })
}

/// "3. `byte` is outside 1 to 1,000, slot or edge bytes outside 1 to 64, or ticks outside 1 to
/// 100,000." Document 02, of the head: "Figures above 16 meet refusal 3."
fn sizes(lines: &Lines) -> Option<Place> {
    first(lines, |line| match line {
        Line::Plan(plan) => !(1..=1_000).contains(&plan.byte) || plan.head > 16,
        Line::Slot(slot) => !(1..=64).contains(&slot.bytes),
        Line::Process(process) => !(1..=100_000).contains(&process.ticks),
        Line::Condition(_) => false,
        Line::Edge(edge) => !(1..=64).contains(&edge.bytes),
    })
}

/// "4. A node number is not below the slot count,".
fn wrong_nodes(lines: &Lines) -> Option<Place> {
    let slots = lines.slots.len() as u64;
    first(lines, |line| match line {
        Line::Slot(slot) => slot.node >= slots,
        Line::Process(process) => process.node >= slots,
        _ => false,
    })
}

/// "or two slots share a node."
fn shared_nodes(lines: &Lines) -> Option<Place> {
    first_shared(lines, |line| match line {
        Line::Slot(slot) => Some(slot.node),
        _ => None,
    })
}

/// "5. A condition names no process,".
fn wrong_processes(lines: &Lines) -> Option<Place> {
    let processes = lines.processes.len() as u64;
    first(lines, |line| match line {
        Line::Condition(condition) => condition.process >= processes,
        _ => false,
    })
}

/// "or one already named."
fn shared_processes(lines: &Lines) -> Option<Place> {
    first_shared(lines, |line| match line {
        Line::Condition(condition) => Some(condition.process),
        _ => None,
    })
}

/// "6. An edge names no process, or from is not below to."
fn wrong_ends(lines: &Lines) -> Option<Place> {
    let processes = lines.processes.len() as u64;
    first_edge(lines, |edge| {
        edge.from >= processes || edge.to >= processes || edge.from >= edge.to
    })
}

/// "7. Two edges share both from and to."
fn shared_ends(lines: &Lines) -> Option<Place> {
    first_shared(lines, |line| match line {
        Line::Edge(edge) => Some((edge.from, edge.to)),
        _ => None,
    })
}

/// "8. A `when` names a condition its from process does not decide."
fn undecided_whens(lines: &Lines) -> Option<Place> {
    first_edge(lines, |edge| match edge.when.condition() {
        None => false,
        Some((condition, _)) => {
            let named = lines.conditions.get(condition as usize);
            named.map(|c| c.process) != Some(edge.from)
        }
    })
}

/// "9. A message between nodes is longer than its sender's slot."
fn too_long_messages(lines: &Lines) -> Option<Place> {
    first_edge(lines, |edge| {
        let (sender, receiver) = (lines.node(edge.from), lines.node(edge.to));
        let slot = lines.slots.iter().find(|s| s.node == sender);
        sender != receiver && slot.is_some_and(|s| edge.bytes > s.bytes)
    })
}
