//! Texts for comparing the two planners: sheets at random, sheets of a known
//! size, and ways to damage a text.
//!
//! The comparison itself is in the tests:
//!
//! ```text
//! cargo test --release -p compare -- --nocapture
//! ```
//!
//! `PLAN_PROGRAM` is the path of the program `plan`; without it, the path is
//! `../../crates/plan/out/plan`, seen from this crate.

#![deny(missing_docs)]
#![forbid(unsafe_code)]

mod damage;
mod draft;
mod random;

pub use damage::{BYTES, damage};
pub use draft::{Draft, counter, exact_length, free_bits, pairs};
pub use random::{Xorshift, alter, random_name, random_sheet, random_walks, shuffle};
