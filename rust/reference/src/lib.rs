//! An independent planner for the sheets of the proved one.
//!
//! It is written from the rules below and shares no code with the proved
//! planner, so that the two can be compared. It is also meant to be fast: a
//! state is one `u64`, and the states met so far are kept in a hash set with a
//! cheap hasher.
//!
//! ```
//! use reference::Answer;
//!
//! let text = b"line rain wet\nnow 1 0\nwish - 1\nwait p a\n";
//! let sheet = reference::read(text).unwrap();
//! let answer = sheet.plan(2_048, 10);
//! assert_eq!(answer, Answer::Plan { actions: vec![0], rows: 2 });
//! assert_eq!(
//!     reference::dual(text).unwrap(),
//!     b"line rain wet\nnow 1 0\nwish - 1\nwait d a\n"
//! );
//! ```
//!
//! # Reading
//!
//! A text is made of lines. A line is words with one space between, ended by
//! byte 10; a word is one or more of the bytes `a` to `z`, `0` to `9` and
//! hyphen. The first line is `line` and the names of the facts, the second is
//! `now` and a `0` or `1` for each fact, the third is `wish` and a `1` or `-`
//! for each. Every further line is an action: its name and a mark for each
//! fact, which is `-` or some of the letters `p` (needed), `a` (added), `d`
//! (deleted) in this order. A name has 1 to 16 letters and digits, a letter
//! first.
//!
//! [`read`] refuses a text for the first of these that holds, and says where:
//!
//! 1. It is empty or has over 65,535 bytes. Place: 0.
//! 2. The bytes are not lines. Place: the first byte that may not stand where it
//!    stands, or the length if the last line is not ended.
//! 3. There are fewer than three lines (place: the length), no facts (place: the
//!    length), over 64 facts (place: the start of the 65th) or over 256 actions
//!    (place: the start of the 257th line of an action).
//! 4. A line has not as many words as the first. Place: the line's start.
//! 5. A word may not stand in its column. Place: the word's start.
//! 6. A name comes again among the facts, or else among the actions. Place: the
//!    start of the one that comes again.
//!
//! # Planning
//!
//! An action is allowed in a state that holds all it needs. It joins what it
//! adds, then removes what it deletes. [`Sheet::plan`] searches forward, all
//! states at one distance from the start before those at the next. It counts the
//! states up to the distance of the nearest one that holds all that is wished
//! for, that distance included, or all that can be reached if there is no such
//! state. It refuses with 15 if they are more than it has rows for, and with 16
//! if the plan is longer than there are places.

#![deny(missing_docs)]
#![forbid(unsafe_code)]

mod hash;
mod plan;
mod sheet;

pub use plan::Answer;
pub use sheet::{Action, Refused, Sheet, dual, read};

/// The most bytes that a text may have.
pub const LONGEST_TEXT: usize = 65_535;

/// The most facts that a sheet may have.
pub const MOST_FACTS: usize = 64;

/// The most actions that a sheet may have.
pub const MOST_ACTIONS: usize = 256;
