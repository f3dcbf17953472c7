//! An independent model of the radio bench, in plain Rust.
//!
//! It is written from documents 01 and 02 and the two annexes alone and shares nothing with the proved crates, so that a
//! difference between the two shows a mistake in one of them. Numbers are `u32` and may be any: what is out of range is
//! refused, never cut. The tables of the paper that are easy to copy wrongly (modes, SOS grids and row classes) are kept
//! as the paper's own lines and parsed at start-up. `header` is no part of it: it reads numbers of the C header for those who
//! lend sessions.

pub mod answers;
pub mod clock;
pub mod header;
pub mod modes;
pub mod old_gates;
pub mod packets;
pub mod recording;
pub mod session;
pub mod sos;
pub mod traces;
pub mod train;
pub mod turnouts;
