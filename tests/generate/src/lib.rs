//! Random plans, broken plans, damaged texts, and tables and listings, damaged or sound, for tests.
//!
//! Everything follows from a seed, so that a test that fails can be run again.

pub mod any_tables;
pub mod broken;
pub mod frames;
pub mod inputs;
pub mod listing_cases;
pub mod listing_limits;
pub mod listing_texts;
pub mod listings;
pub mod pass_overs;
pub mod passed_texts;
pub mod plans;
pub mod random;
mod shapes;
pub mod tables;
pub mod texts;
pub mod wrong_counts;

pub use plans::{plan, Kind, KINDS};
pub use random::Random;
