//! Reads a plan text in one pass over its bytes, into lines whose memory is used again.

use reference::{Condition, Edge, Lines, Pick, PlanLine, Process, Slot, Waits, When};

/// The longest text that is read.
const LONGEST_TEXT: usize = 16_384;

/// Lines to read into.
pub fn no_lines() -> Lines {
    Lines {
        plan: PlanLine {
            byte: 0,
            head: 0,
            pick: Pick::Number,
        },
        slots: Vec::with_capacity(8),
        processes: Vec::with_capacity(64),
        conditions: Vec::with_capacity(6),
        edges: Vec::with_capacity(128),
    }
}

/// Reads a text of the form of a plan into the lines. False is refusal 1, and the lines then hold
/// what was read before; refusals 2 to 9 are left to the planner.
pub fn read(text: &[u8], lines: &mut Lines) -> bool {
    text.len() <= LONGEST_TEXT
        && Rest(text)
            .lines(lines)
            .is_some_and(|rest| rest.0.is_empty())
}

/// The part of a text that has not been read yet.
#[derive(Clone, Copy)]
struct Rest<'a>(&'a [u8]);

impl<'a> Rest<'a> {
    /// Reads exactly these letters. Their number is fixed, so they are compared as a few words.
    #[inline(always)]
    fn after<const LENGTH: usize>(self, letters: &[u8; LENGTH]) -> Option<Self> {
        let (first, rest) = self.0.split_first_chunk::<LENGTH>()?;
        (first == letters).then_some(Rest(rest))
    }

    /// Reads a number of one to nine digits without a needless leading zero, and the bracket that
    /// ends it.
    #[inline(always)]
    fn number(self) -> Option<(u64, Self)> {
        let (&first, mut rest) = self.0.split_first()?;
        let mut number = u64::from(first.wrapping_sub(b'0'));
        if number > 9 {
            return None;
        }
        let most = if number == 0 { 0 } else { 8 };
        let mut more = 0;
        loop {
            let (&byte, after) = rest.split_first()?;
            rest = after;
            if byte == b')' {
                return Some((number, Rest(rest)));
            }
            let digit = byte.wrapping_sub(b'0');
            more += 1;
            if digit > 9 || more > most {
                return None;
            }
            number = number * 10 + u64::from(digit);
        }
    }

    fn lines(self, lines: &mut Lines) -> Option<Self> {
        lines.slots.clear();
        lines.processes.clear();
        lines.conditions.clear();
        lines.edges.clear();
        let mut rest = self.plan_line(lines)?;
        while let Some(line) = rest.after(b"(slot (node ") {
            rest = line.slot(lines)?;
        }
        while let Some(line) = rest.after(b"(process (node ") {
            rest = line.process(lines)?;
        }
        while let Some(line) = rest.after(b"(condition (process ") {
            rest = line.condition(lines)?;
        }
        while let Some(line) = rest.after(b"(edge (from ") {
            rest = line.edge(lines)?;
        }
        Some(rest)
    }

    fn plan_line(self, lines: &mut Lines) -> Option<Self> {
        let (byte, rest) = self.after(b"(plan (byte ")?.number()?;
        let (head, rest) = rest.after(b" (head ")?.number()?;
        let (pick, rest) = match rest.after(b" (pick urgency))\n") {
            Some(rest) => (Pick::Urgency, rest),
            None => (Pick::Number, rest.after(b" (pick number))\n")?),
        };
        lines.plan = PlanLine { byte, head, pick };
        Some(rest)
    }

    #[inline(always)]
    fn slot(self, lines: &mut Lines) -> Option<Self> {
        let (node, rest) = self.number()?;
        let (bytes, rest) = rest.after(b" (bytes ")?.number()?;
        lines.slots.push(Slot { node, bytes });
        rest.after(b")\n")
    }

    #[inline(always)]
    fn process(self, lines: &mut Lines) -> Option<Self> {
        let (node, rest) = self.number()?;
        let (ticks, rest) = rest.after(b" (ticks ")?.number()?;
        let (waits, rest) = match rest.after(b" (waits all))\n") {
            Some(rest) => (Waits::All, rest),
            None => (Waits::Any, rest.after(b" (waits any))\n")?),
        };
        lines.processes.push(Process { node, ticks, waits });
        Some(rest)
    }

    #[inline(always)]
    fn condition(self, lines: &mut Lines) -> Option<Self> {
        let (process, rest) = self.number()?;
        lines.conditions.push(Condition { process });
        rest.after(b")\n")
    }

    #[inline(always)]
    fn edge(self, lines: &mut Lines) -> Option<Self> {
        let (from, rest) = self.number()?;
        let (to, rest) = rest.after(b" (to ")?.number()?;
        let (bytes, rest) = rest.after(b" (bytes ")?.number()?;
        let (when, rest) = rest.when()?;
        lines.edges.push(Edge {
            from,
            to,
            bytes,
            when,
        });
        Some(rest)
    }

    /// Reads what an edge depends on, to the end of the line.
    #[inline(always)]
    fn when(self) -> Option<(When, Self)> {
        if let Some(rest) = self.after(b" (when always))\n") {
            return Some((When::Always, rest));
        }
        let (when, rest) = match self.after(b" (when (true ") {
            Some(rest) => {
                let (condition, rest) = rest.number()?;
                (When::True(condition), rest)
            }
            None => {
                let (condition, rest) = self.after(b" (when (false ")?.number()?;
                (When::False(condition), rest)
            }
        };
        Some((when, rest.after(b"))\n")?))
    }
}

#[cfg(test)]
mod tests {
    use super::*;
    use generate::broken::{broken, NUMBERS};
    use generate::texts::damaged_texts;
    use generate::{plan, Random, KINDS};
    use reference::print;
    use reference::text::read_form;

    fn same(text: &[u8], lines: &mut Lines) {
        let found = read(text, lines).then_some(&*lines);
        let shown = String::from_utf8_lossy(text);
        assert_eq!(found, read_form(text).as_ref(), "{shown}");
    }

    #[test]
    fn reads_what_the_reference_reads() {
        let mut lines = no_lines();
        for kind in KINDS {
            for number in 0..300 {
                let mut random = Random::new((kind as u64) << 32 | number);
                let plan = plan(kind, &mut random);
                same(&print(&plan), &mut lines);
                for damaged in damaged_texts(&plan, &mut random) {
                    same(&damaged.text, &mut lines);
                }
                for number in NUMBERS {
                    if let Some(plan) = broken(&plan, number, &mut random) {
                        same(&print(&plan), &mut lines);
                    }
                }
            }
        }
    }

    #[test]
    fn the_head_stands_between_byte_and_pick() {
        let mut lines = no_lines();
        let mut reads = |line: &str| read(line.as_bytes(), &mut lines).then_some(lines.plan.head);
        assert_eq!(reads("(plan (byte 2) (head 0) (pick urgency))\n"), Some(0));
        assert_eq!(reads("(plan (byte 2) (head 17) (pick number))\n"), Some(17));
        for line in [
            "(plan (byte 2) (pick urgency))\n",
            "(plan (byte 2) (head) (pick urgency))\n",
            "(plan (byte 2) (head 00) (pick urgency))\n",
            "(plan (head 0) (byte 2) (pick urgency))\n",
            "(plan (byte 2) (pick urgency) (head 0))\n",
            "(plan (byte 2) (head 0) (head 0) (pick urgency))\n",
        ] {
            assert_eq!(reads(line), None, "{line}");
        }
    }

    #[test]
    fn any_byte_in_place_of_another() {
        let mut lines = no_lines();
        let plan = plan(generate::Kind::NestedAny, &mut Random::new(1));
        let text = print(&plan);
        for place in 0..text.len() {
            for byte in 0..=255 {
                let mut text = text.clone();
                text[place] = byte;
                same(&text, &mut lines);
            }
            same(&text[..place], &mut lines);
        }
    }
}
