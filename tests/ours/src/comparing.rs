//! What the tests share that compare the archive with the reference: how many plans they look at,
//! words as bytes, and lent bytes that are watched.

use std::ops::Range;

use generate::{Kind, Random};
use reference::lookup::Question;
use reference::Planned;

use crate::archive;

/// How many random plans an ordinary run of the tests goes by.
pub const PLANS: u64 = 21_000;

/// How many random plans the tests go by: the variable `RISCADRU_PLANS`, or `PLANS`.
pub fn plans() -> u64 {
    match std::env::var("RISCADRU_PLANS") {
        Ok(number) => number.parse().expect("RISCADRU_PLANS: not a number"),
        Err(_) => PLANS,
    }
}

/// Of a thousand of the plans that the tests go by, how many a test takes of each kind.
pub type Shares = [(Kind, u64); 9];

/// How many random plans of a kind a test with these shares takes, at least one.
pub fn count(shares: &Shares, kind: Kind) -> u64 {
    let share = shares.iter().find(|(of, _)| *of == kind);
    (plans() * share.expect("a share of each kind").1).div_ceil(1_000)
}

/// A question in the numbers of C, as the reference is asked it.
pub fn as_asked(question: archive::Question) -> Question {
    Question {
        node: question.node.into(),
        tick: question.tick.into(),
        heard: question.heard.into(),
        values: question.values.into(),
        begin: question.first as u64,
    }
}

/// Words as bytes, the lowest first.
pub fn bytes(words: &[u32]) -> Vec<u8> {
    words.iter().flat_map(|word| word.to_le_bytes()).collect()
}

/// The totals that the archive's planner writes: the words of the table, those of the frame list, the
/// worst delay, and the pass-over count of each node, node 0 first.
pub fn totals(planned: &Planned) -> Vec<u32> {
    let sizes = [planned.words.len() as u64, planned.frames.len() as u64];
    let all = sizes.iter().chain([&planned.delay]);
    all.chain(&planned.passed_by_node)
        .map(|&total| u32::try_from(total).unwrap())
        .collect()
}

/// Random bytes, so many.
pub fn random_bytes(length: usize, random: &mut Random) -> Vec<u8> {
    (0..length).map(|_| random.bits() as u8).collect()
}

/// Bytes of which a part is lent. Those on either side of it are there to stay as they were.
#[derive(Clone)]
pub struct Lent {
    /// All bytes.
    pub bytes: Vec<u8>,
    part: Range<usize>,
}

impl Lent {
    /// Lends so many bytes, filled with a random pattern, at a random place in memory.
    pub fn new(length: usize, random: &mut Random) -> Self {
        let first = random.between(16, 24) as usize;
        let step = random.bits() as u8 | 1;
        let bytes = (0..first + length + 24).map(|i| (i as u8).wrapping_mul(step) ^ 0x5a);
        Lent {
            bytes: bytes.collect(),
            part: first..first + length,
        }
    }

    /// Lends so many bytes, all 0, with none on either side.
    pub fn exact(length: usize) -> Self {
        Lent {
            bytes: vec![0; length],
            part: 0..length,
        }
    }

    /// The lent part.
    pub fn lent(&mut self) -> &mut [u8] {
        &mut self.bytes[self.part.clone()]
    }

    /// So many bytes at the front of the lent part.
    pub fn front(&self, length: usize) -> &[u8] {
        &self.bytes[self.part.clone()][..length]
    }

    /// All bytes, with these at the front of the lent part.
    pub fn with(&self, front: &[u8]) -> Vec<u8> {
        let mut after = self.bytes.clone();
        after[self.part.start..][..front.len()].copy_from_slice(front);
        after
    }

    /// Asserts that all bytes are these.
    pub fn assert_is(&self, after: &[u8], what: &str, context: &str) {
        let differs = (0..after.len()).find(|&i| self.bytes[i] != after[i]);
        if let Some(place) = differs {
            panic!(
                "byte {} of the {} bytes lent for the {what} is {}, not {}; {context}",
                place as i64 - self.part.start as i64,
                self.part.len(),
                self.bytes[place],
                after[place]
            );
        }
    }
}
