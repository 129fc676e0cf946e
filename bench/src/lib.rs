//! A tuned planner, with tuned reading and printing, to measure others against.

pub mod baseline;
pub mod printing;
pub mod program;
pub mod reading;
pub mod refuse;
