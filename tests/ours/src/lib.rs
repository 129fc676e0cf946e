//! Calls into our own archive, for tests that compare it with the reference, and what these tests
//! share.
//!
//! The build script looks for `target/staticlib/libc_interface.a` two folders up and sets `have_archive`.
//! Without the archive this crate has only what runs our programs, and the tests in `tests/` that need
//! the archive do not exist.

#[cfg(have_archive)]
pub mod archive;
#[cfg(have_archive)]
pub mod comparing;
#[cfg(have_archive)]
pub mod firmware;
#[cfg(have_archive)]
pub mod linking;
pub mod program;
#[cfg(have_archive)]
pub mod tree;
