//! What is measured: the inputs of a class, the ways, and the check that all ways of a set agree.

use std::hint::black_box;

use bench::baseline::{Outcome, Planner};
use bench::printing::{Printer, PROGRAM_FRAME_WORDS, PROGRAM_WORDS};
use bench::program::Program;
use bench::reading::{no_lines, read};
use reference::Lines;

use crate::classes::Class;

/// The least number of inputs of a class that begin with a text.
const LEAST_TEXTS: u64 = 8;

/// Enough words for the largest plan.
const WORDS: usize = 198 * 64 * 5;
const FRAME_WORDS: usize = 134 * 64 * 3;

/// The name of the way that the others are compared with.
const BASELINE: &str = "baseline";

/// A way whose instructions are not counted: under valgrind it would take minutes.
pub const UNCOUNTED: &str = "reference";

/// A plan as lines and as text, and what the baseline gives for it.
#[cfg_attr(not(have_archive), allow(dead_code))]
pub struct Input {
    lines: Lines,
    text: Vec<u8>,
    outcome: Outcome,
    words: Vec<u32>,
    frame_words: Vec<u32>,
    /// The words of its table as bytes.
    table: Vec<u8>,
    /// Its listing, where the planning program accepts it.
    pub listing: Vec<u8>,
    /// The same with a byte behind it, so that it is read to its end and refused.
    longer_listing: Vec<u8>,
}

/// A name and what is done with an input. What it gives stays in its own memory.
pub type Way = (&'static str, Box<dyn FnMut(&Input)>);

/// Ways that are compared with each other.
pub struct Set {
    /// The name of the set.
    pub name: &'static str,
    /// What its ways do.
    pub about: &'static str,
    /// Makes the ways, each with its memory.
    pub ways: fn() -> Vec<Way>,
    /// Whether the ways do the same, so that they are compared with the first.
    pub compared: bool,
    /// Whether the inputs are those that the planning program accepts.
    accepted: bool,
    /// Whether its ways read the listings of the inputs.
    pub listings: bool,
}

/// All sets.
pub const SETS: [Set; 6] = [
    Set {
        name: "planning",
        about: "from lines to words",
        ways: planning,
        compared: true,
        accepted: false,
        listings: false,
    },
    Set {
        name: "parts",
        about: "of the baseline, on the plans of the lines below",
        ways: parts,
        compared: false,
        accepted: true,
        listings: false,
    },
    Set {
        name: "words",
        about: "from text to words; 3,000 entries and 2,000 frames lent, and enough",
        ways: to_words,
        compared: true,
        accepted: true,
        listings: false,
    },
    Set {
        name: "listing",
        about: "from text to listing; 3,000 entries and 2,000 frames lent, and enough",
        ways: to_listing,
        compared: true,
        accepted: true,
        listings: false,
    },
    Set {
        name: "reading",
        about: "an empty listing, and the plan's own with a byte behind it: both are refused with 21",
        ways: reading_listings,
        compared: false,
        accepted: true,
        listings: true,
    },
    Set {
        name: "checking",
        about: "the plan's own listing, to planning, checking its table and reading it one after another",
        ways: checking_listings,
        compared: true,
        accepted: true,
        listings: true,
    },
];

/// The inputs of a class.
pub fn inputs(set: &Set, class: &Class) -> Vec<Input> {
    let (words, frame_words, count) = if set.accepted {
        (
            PROGRAM_WORDS,
            PROGRAM_FRAME_WORDS,
            class.count.max(LEAST_TEXTS) as usize,
        )
    } else {
        (WORDS, FRAME_WORDS, class.count as usize)
    };
    let mut planner = Planner::default();
    let mut program = Program::default();
    let (mut words, mut frame_words) = (vec![0; words], vec![0; frame_words]);
    (0..)
        .map(|number| class.plan(number))
        .filter_map(|lines| {
            let outcome = planner.plan(&lines, &mut words, &mut frame_words).ok()?;
            let text = reference::print(&lines);
            let listing = program.listing(&text).to_vec();
            Some(Input {
                text,
                table: bytes(&words[..outcome.words]),
                longer_listing: [&listing[..], b"x"].concat(),
                listing,
                lines,
                outcome,
                words: words[..outcome.words].to_vec(),
                frame_words: frame_words[..outcome.frame_words].to_vec(),
            })
        })
        .take(count)
        .collect()
}

/// Words as bytes, the lowest first.
fn bytes(words: &[u32]) -> Vec<u8> {
    words.iter().flat_map(|word| word.to_le_bytes()).collect()
}

fn planning() -> Vec<Way> {
    let mut planner = Planner::default();
    let (mut words, mut frame_words) = (vec![0; WORDS], vec![0; FRAME_WORDS]);
    vec![
        (
            BASELINE,
            Box::new(move |input| {
                let outcome = planner.plan(&input.lines, &mut words, &mut frame_words);
                let _ = black_box(outcome);
            }),
        ),
        (
            UNCOUNTED,
            Box::new(|input| {
                let _ = black_box(reference::plan(&input.lines, WORDS, FRAME_WORDS));
            }),
        ),
    ]
}

fn parts() -> Vec<Way> {
    let mut lines = no_lines();
    let mut planner = Planner::default();
    let (mut words, mut frame_words) = (vec![0; PROGRAM_WORDS], vec![0; PROGRAM_FRAME_WORDS]);
    let mut printer = Printer::default();
    vec![
        (
            "reading",
            Box::new(move |input| {
                black_box(read(&input.text, &mut lines));
            }),
        ),
        (
            "planning",
            Box::new(move |input| {
                let outcome = planner.plan(&input.lines, &mut words, &mut frame_words);
                let _ = black_box(outcome);
            }),
        ),
        (
            "printing",
            Box::new(move |input| {
                let (words, frame_words) = (&input.words, &input.frame_words);
                black_box(printer.listing(&input.lines, &input.outcome, words, frame_words));
            }),
        ),
    ]
}

fn to_words() -> Vec<Way> {
    let mut program = Program::default();
    let (mut words, mut frame_words) = (vec![0; PROGRAM_WORDS], vec![0; PROGRAM_FRAME_WORDS]);
    let baseline: Way = (
        BASELINE,
        Box::new(move |input| {
            let outcome = program.plan(&input.text, &mut words, &mut frame_words);
            let _ = black_box(outcome);
        }),
    );
    std::iter::once(baseline).chain(ours::to_words()).collect()
}

fn to_listing() -> Vec<Way> {
    let mut program = Program::default();
    let baseline: Way = (
        BASELINE,
        Box::new(move |input| {
            black_box(program.listing(&input.text));
        }),
    );
    std::iter::once(baseline)
        .chain(ours::to_listing())
        .collect()
}

fn reading_listings() -> Vec<Way> {
    ours::reading_listings()
}

fn checking_listings() -> Vec<Way> {
    ours::checking_listings()
}

/// Stops the program unless everything that is measured gives for the inputs what the reference
/// gives.
pub fn compare(set: &Set, inputs: &[Input]) {
    let mut program = Program::default();
    for input in inputs {
        let planned = reference::plan(&input.lines, WORDS, FRAME_WORDS).expect("a plan");
        assert!(input.words == planned.words && input.frame_words == planned.frames);
        assert_eq!(input.outcome, outcome(&planned));
        if !set.accepted {
            continue;
        }
        let (mut words, mut frame_words) = (vec![0; WORDS], vec![0; FRAME_WORDS]);
        let outcome = program.plan(&input.text, &mut words, &mut frame_words);
        assert_eq!(outcome, Ok(input.outcome));
        assert!(words.starts_with(&input.words) && frame_words.starts_with(&input.frame_words));
        assert!(program.listing(&input.text) == reference::program(&input.text));
        ours::compare(input);
    }
}

/// What the reference gives, in the form of the baseline.
fn outcome(planned: &reference::Planned) -> Outcome {
    let mut passed_by_node = [0; 8];
    passed_by_node[..planned.passed_by_node.len()].copy_from_slice(&planned.passed_by_node);
    Outcome {
        words: planned.words.len(),
        frame_words: planned.frames.len(),
        passed_by_node,
        delay: planned.delay,
    }
}

/// The ways of our archive.
#[cfg(have_archive)]
mod ours {
    use super::*;
    use ::ours::archive::{check_listing, check_table, plan_listing, plan_table};
    use bench::printing::LONGEST_LISTING;

    const NAME: &str = "ours";

    pub fn to_words() -> Option<Way> {
        let mut table = vec![0; PROGRAM_WORDS * 4];
        let mut frames = vec![0; PROGRAM_FRAME_WORDS * 4];
        let go = move |input: &Input| {
            let mut totals = [0; 44];
            black_box(plan_table(
                &input.text,
                &mut table,
                &mut frames,
                &mut totals,
            ));
            black_box(totals);
        };
        Some((NAME, Box::new(go)))
    }

    pub fn to_listing() -> Option<Way> {
        let mut out = vec![0; LONGEST_LISTING];
        let go = move |input: &Input| {
            black_box(plan_listing(&input.text, &mut out));
        };
        Some((NAME, Box::new(go)))
    }

    pub fn reading_listings() -> Vec<Way> {
        let empty = |input: &Input| {
            black_box(check_listing(&input.text, &[]));
        };
        let whole = |input: &Input| {
            black_box(check_listing(&input.text, &input.longer_listing));
        };
        vec![("empty", Box::new(empty)), ("whole", Box::new(whole))]
    }

    pub fn checking_listings() -> Vec<Way> {
        let mut words = to_words().expect("our archive").1;
        let mut reading = reading_listings().pop().expect("two ways").1;
        let parts = move |input: &Input| {
            words(input);
            black_box(check_table(&input.text, &input.table, input.outcome.delay));
            reading(input);
        };
        let ours = |input: &Input| {
            black_box(check_listing(&input.text, &input.listing));
        };
        vec![("parts", Box::new(parts)), (NAME, Box::new(ours))]
    }

    pub fn compare(input: &Input) {
        let answers =
            [&input.listing, &input.longer_listing].map(|l| check_listing(&input.text, l));
        assert_eq!(answers, [0, u64::MAX - 21]);
        let mut table = vec![0; PROGRAM_WORDS * 4];
        let mut frames = vec![0; PROGRAM_FRAME_WORDS * 4];
        let mut totals = [0; 44];
        let answer = plan_table(&input.text, &mut table, &mut frames, &mut totals);
        let outcome = &input.outcome;
        assert_eq!(answer, outcome.words as u64 * 4);
        assert!(table.starts_with(&bytes(&input.words)));
        assert!(frames.starts_with(&bytes(&input.frame_words)));
        let mut numbers = vec![
            outcome.words as u32,
            outcome.frame_words as u32,
            outcome.delay as u32,
        ];
        numbers.extend(outcome.passed_by_node.map(|count| count as u32));
        assert_eq!(totals[..], bytes(&numbers));
        let mut out = vec![0; LONGEST_LISTING];
        let listing = reference::list_plan(&input.text, out.len()).expect("a listing");
        assert_eq!(plan_listing(&input.text, &mut out), listing.len() as u64);
        assert!(out.starts_with(&listing));
    }
}

/// No ways: the archive is not built.
#[cfg(not(have_archive))]
mod ours {
    use super::{Input, Way};

    pub fn to_words() -> Option<Way> {
        None
    }

    pub fn to_listing() -> Option<Way> {
        None
    }

    pub fn reading_listings() -> Vec<Way> {
        Vec::new()
    }

    pub fn checking_listings() -> Vec<Way> {
        Vec::new()
    }

    pub fn compare(_: &Input) {}
}
