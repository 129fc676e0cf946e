//! Document 01 with points 1 to 3 of document 02 in plain Rust, sentence by sentence.
//!
//! Every function stands under the sentence of document 01 that it says again, or of document 02,
//! which is then named. Nothing here is made to be fast: the crate is the measure that other
//! implementations are compared with.

pub mod bus;
pub mod check;
pub mod check_listing;
pub mod course;
pub mod failing;
pub mod failing_listing;
pub mod lines;
pub mod listing;
pub mod lookup;
pub mod planner;
pub mod read_listing;
pub mod refuse;
pub mod run;
pub mod table;
pub mod text;
pub mod who_runs;

pub use check::check;
pub use check_listing::{check_input, check_listing, check_program};
pub use failing::{failing, Failing};
pub use failing_listing::{failing_listing, FailingListing};
pub use lines::{Condition, Edge, Lines, Pick, PlanLine, Process, Slot, Waits, When};
pub use listing::{list_plan, listing, program, refused};
pub use lookup::{c_lookup, lookup, row_query, Answer};
pub use planner::{plan, Planned};
pub use read_listing::{print_stated, read_listing, Stated};
pub use refuse::refuse_plan;
pub use run::run;
pub use table::Entry;
pub use text::{print, read, write};
