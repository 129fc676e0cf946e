//! How often a checker of listings gave each answer.

/// How often each answer was given: acceptance at place 0, refusal N at place N.
#[derive(Default)]
pub struct Tally([u64; 23]);

impl Tally {
    /// Counts an answer.
    pub fn add(&mut self, answer: Option<u8>) {
        self.0[usize::from(answer.unwrap_or(0))] += 1;
    }

    /// How often one of these answers was given.
    pub fn count(&self, answers: impl IntoIterator<Item = usize>) -> u64 {
        answers.into_iter().map(|answer| self.0[answer]).sum()
    }

    /// How many answers were given.
    pub fn total(&self) -> u64 {
        self.count(0..self.0.len())
    }

    /// Asserts that each of these answers was given at least so often, and 10 to 12 never.
    pub fn assert_each(&self, answers: impl IntoIterator<Item = usize>, least: u64) {
        println!("{} answers: {:?}", self.total(), self.0);
        let rare: Vec<usize> = answers.into_iter().filter(|&n| self.0[n] < least).collect();
        assert!(rare.is_empty(), "fewer than {least} of {rare:?}");
        assert_eq!(self.count(10..=12), 0);
    }
}
