//! The whole way from a plan text to what the planning program prints: reading, planning and
//! printing, each tuned.

use reference::Lines;

use crate::baseline::{Outcome, Planner};
use crate::printing::{Printer, PROGRAM_FRAME_WORDS, PROGRAM_WORDS};
use crate::reading::{no_lines, read};

/// The planning program with its memory, which is used again for each text.
pub struct Program {
    lines: Lines,
    planner: Planner,
    words: Vec<u32>,
    frame_words: Vec<u32>,
    printer: Printer,
}

impl Default for Program {
    fn default() -> Self {
        Program {
            lines: no_lines(),
            planner: Planner::default(),
            words: vec![0; PROGRAM_WORDS],
            frame_words: vec![0; PROGRAM_FRAME_WORDS],
            printer: Printer::default(),
        }
    }
}

impl Program {
    /// Reads a text and plans into the lent words, or gives the first of refusals 1 to 11 that
    /// applies.
    pub fn plan(
        &mut self,
        text: &[u8],
        words: &mut [u32],
        frame_words: &mut [u32],
    ) -> Result<Outcome, u8> {
        if !read(text, &mut self.lines) {
            return Err(1);
        }
        self.planner.plan(&self.lines, words, frame_words)
    }

    /// What the planning program prints for a text.
    pub fn listing(&mut self, text: &[u8]) -> &[u8] {
        if !read(text, &mut self.lines) {
            return self.printer.refused(1);
        }
        let (words, frame_words) = (&mut self.words, &mut self.frame_words);
        match self.planner.plan(&self.lines, words, frame_words) {
            Err(number) => self.printer.refused(number),
            Ok(outcome) => self
                .printer
                .listing(&self.lines, &outcome, words, frame_words),
        }
    }
}

#[cfg(test)]
mod tests {
    use super::*;
    use generate::broken::{broken, NUMBERS};
    use generate::frames::with_frames;
    use generate::texts::damaged_texts;
    use generate::{plan, Kind, Random};
    use reference::print;

    const COUNTS: [(Kind, u64); 8] = [
        (Kind::Tiny, 3_000),
        (Kind::DenseBus, 300),
        (Kind::ManyConditions, 300),
        (Kind::NestedAny, 300),
        (Kind::Largest, 16),
        (Kind::LongestRound, 200),
        (Kind::ShortestRound, 300),
        (Kind::LongGaps, 300),
    ];

    #[test]
    fn prints_what_the_reference_prints() {
        let mut program = Program::default();
        let mut same = |text: &[u8]| {
            let (ours, expected) = (program.listing(text), reference::program(text));
            assert!(ours == expected, "{}", String::from_utf8_lossy(text));
        };
        for (frames, entries) in [(2_000, 3_000), (2_001, 3_000), (2_001, 3_001)] {
            same(&print(&with_frames(frames, entries, &mut Random::new(1))));
        }
        for (kind, count) in COUNTS {
            for number in 0..count {
                let mut random = Random::new((kind as u64) << 32 | number);
                let lines = plan(kind, &mut random);
                same(&print(&lines));
                if kind == Kind::Tiny {
                    damaged_texts(&lines, &mut random)
                        .iter()
                        .for_each(|damaged| same(&damaged.text));
                }
                for number in NUMBERS {
                    if let Some(lines) = broken(&lines, number, &mut random) {
                        same(&print(&lines));
                    }
                }
            }
        }
    }
}
