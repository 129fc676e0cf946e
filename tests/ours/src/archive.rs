//! The functions of the archive, each declared once and wrapped safely.
//!
//! To add a function:
//! 1. declare it in the block below, exactly as the header has it, slices as pointer and length;
//! 2. write a safe function of the same name here that takes slices and numbers, and that says in
//!    its `SAFETY` comment why pointers and lengths belong together;
//! 3. compare it with the function of the crate `reference` in `tests/`.

use std::ops::Range;

mod linked {
    unsafe extern "C" {
        pub fn riscadru_copy_plan(
            text: *const u8,
            text_length: usize,
            out: *mut u8,
            out_length: usize,
        ) -> u64;

        pub fn riscadru_plan_table(
            text: *const u8,
            text_length: usize,
            table: *mut u8,
            table_length: usize,
            frames: *mut u8,
            frames_length: usize,
            totals: *mut u8,
            totals_length: usize,
        ) -> u64;

        pub fn riscadru_plan_listing(
            text: *const u8,
            text_length: usize,
            out: *mut u8,
            out_length: usize,
        ) -> u64;

        pub fn riscadru_check_table(
            text: *const u8,
            text_length: usize,
            table: *const u8,
            table_length: usize,
            delay: u64,
        ) -> u64;

        pub fn riscadru_check_listing(
            text: *const u8,
            text_length: usize,
            listing: *const u8,
            listing_length: usize,
        ) -> u64;

        pub fn riscadru_lookup(
            text: *const u8,
            text_length: usize,
            table: *const u8,
            table_length: usize,
            node: u32,
            tick: u32,
            heard: u32,
            values: u32,
            first: usize,
        ) -> u64;

        pub fn riscadru_row_start(table: *const u8, table_length: usize, row: u32) -> u64;

        pub fn riscadru_row_length(table: *const u8, table_length: usize, row: u32) -> u64;
    }
}

/// The number that stands for a refusal.
pub fn refused(number: u8) -> u64 {
    u64::MAX - u64::from(number)
}

/// The number by which the lookup says that there is no such entry.
pub const NONE: u64 = u64::MAX;

/// The number by which the checker accepts a table, or a listing.
pub const ACCEPTED: u64 = 0;

/// Reads a plan text and writes the plan again, to the front of the lent bytes.
pub fn copy_plan(text: &[u8], out: &mut [u8]) -> u64 {
    // SAFETY: each pointer and length are those of one slice, and the two slices do not overlap.
    unsafe { linked::riscadru_copy_plan(text.as_ptr(), text.len(), out.as_mut_ptr(), out.len()) }
}

/// Plans a plan text: start table, frame list and totals, the last of them a pass-over count for each
/// node, to the front of the lent bytes.
pub fn plan_table(text: &[u8], table: &mut [u8], frames: &mut [u8], totals: &mut [u8]) -> u64 {
    // SAFETY: each pointer and length are those of one slice, and the four slices do not overlap.
    unsafe {
        linked::riscadru_plan_table(
            text.as_ptr(),
            text.len(),
            table.as_mut_ptr(),
            table.len(),
            frames.as_mut_ptr(),
            frames.len(),
            totals.as_mut_ptr(),
            totals.len(),
        )
    }
}

/// Plans a plan text and writes the listing to the front of the lent bytes.
pub fn plan_listing(text: &[u8], out: &mut [u8]) -> u64 {
    // SAFETY: each pointer and length are those of one slice, and the two slices do not overlap.
    unsafe { linked::riscadru_plan_listing(text.as_ptr(), text.len(), out.as_mut_ptr(), out.len()) }
}

/// Checks a table and a stated delay for a plan text.
pub fn check_table(text: &[u8], table: &[u8], delay: u64) -> u64 {
    // SAFETY: each pointer and length are those of one slice, and neither slice is written.
    unsafe {
        linked::riscadru_check_table(
            text.as_ptr(),
            text.len(),
            table.as_ptr(),
            table.len(),
            delay,
        )
    }
}

/// Checks a listing for a plan text.
pub fn check_listing(text: &[u8], listing: &[u8]) -> u64 {
    // SAFETY: each pointer and length are those of one slice, and neither slice is written.
    unsafe {
        linked::riscadru_check_listing(text.as_ptr(), text.len(), listing.as_ptr(), listing.len())
    }
}

/// What a unit asks the lookup, in the numbers of C.
#[derive(Clone, Copy, Debug)]
pub struct Question {
    /// The node that asks.
    pub node: u32,
    /// The tick.
    pub tick: u32,
    /// The bits of the conditions heard.
    pub heard: u32,
    /// Their values.
    pub values: u32,
    /// The entry number to begin at.
    pub first: usize,
}

/// Looks for a node's next entry at a tick, by the values heard.
pub fn lookup(text: &[u8], table: &[u8], asked: Question) -> u64 {
    // SAFETY: each pointer and length are those of one slice, and neither slice is written.
    unsafe {
        linked::riscadru_lookup(
            text.as_ptr(),
            text.len(),
            table.as_ptr(),
            table.len(),
            asked.node,
            asked.tick,
            asked.heard,
            asked.values,
            asked.first,
        )
    }
}

/// The bytes of a table that hold a row: where they begin, and how many they are.
pub fn row_query(table: &[u8], row: u32) -> Range<u64> {
    // SAFETY: pointer and length are those of one slice, which is not written.
    let (start, length) = unsafe {
        (
            linked::riscadru_row_start(table.as_ptr(), table.len(), row),
            linked::riscadru_row_length(table.as_ptr(), table.len(), row),
        )
    };
    start..start + length
}
