//! Calls to a proved planner.
//!
//! A *sheet* is a short text that says what is true now, what is wished for and
//! which actions there are. This crate hands such a text to the planner, which
//! finds a shortest plan or writes the dual of the sheet.
//!
//! ```no_run
//! let sheet = b"line pods clean ground packed\n\
//!               now 1 1 0 0\n\
//!               wish - - - 1\n\
//!               grind pd pd a -\n\
//!               wash - a - -\n\
//!               pack - p pd a\n";
//!
//! let mut buffer = [0; luzafoma::LONGEST_PLAN];
//! if let Some(length) = luzafoma::plan(sheet, &mut buffer)? {
//!     assert_eq!(buffer[..length], [0, 1, 2]); // grind, wash, pack
//! }
//!
//! let dual = luzafoma::dual(sheet)?;
//! assert!(dual.ends_with(b"pack - d pd a\n"));
//! # Ok::<(), luzafoma::Refusal>(())
//! ```
//!
//! # The sheet
//!
//! A line is made of words with one space between them and is ended by byte 10.
//! The bytes of a word are `a` to `z`, `0` to `9` and the hyphen. All lines have
//! the same number of words, one more than there are facts:
//!
//! | line          | first word | a word for each fact                         |
//! |---------------|------------|----------------------------------------------|
//! | first         | `line`     | the fact's name                              |
//! | second        | `now`      | `1` if it is true at the start, else `0`     |
//! | third         | `wish`     | `1` if it must be true at the end, else `-`  |
//! | each that follows | an action's name | the action's mark for the fact     |
//!
//! A mark is `-`, or those of the letters `p` (the action needs the fact), `a`
//! (it adds the fact) and `d` (it deletes the fact) that apply, in this order.
//! A name has 1 to 16 letters `a` to `z` and digits and starts with a letter; no
//! two facts have the same name, and no two actions. There are 1 to 64 facts
//! and up to 256 actions, and the text has at most 65,535 bytes.
//!
//! # Plans
//!
//! A state is a set of facts. An action is allowed in a state that has all that
//! the action needs; it joins what it adds and after that removes what it
//! deletes. A plan is a list of actions, each allowed in its turn, that leads
//! from what is true now to a state with all that is wished for. Actions are
//! counted from 0 in the order of their lines, so that each fits in a byte.
//!
//! The planner looks at states in the order of their distance from the start.
//! The counted states are those no farther than the nearest wished one, or all
//! that can be reached where none is wished. It refuses a sheet with more than
//! 2,048 of them.
//!
//! # The dual
//!
//! The dual of a sheet has the same names. A fact is true in it at the start
//! exactly if the sheet does not wish for it, and is wished for exactly if it is
//! not true at the start of the sheet; in every mark `p` and `d` change places.
//! The dual of the dual is the sheet, and a plan for one, read backwards, is a
//! plan for the other.

#![deny(missing_docs)]
#![deny(unsafe_code)]

#[allow(unsafe_code)]
mod calls;
mod refusal;

pub use refusal::Refusal;

/// The most bytes that a text may have.
pub const LONGEST_TEXT: usize = 65_535;

/// The most states that the planner counts before it refuses.
pub const MOST_STATES: usize = 2_048;

/// The most actions that a plan can have: a shortest plan meets no state twice,
/// so it has fewer actions than states are counted.
pub const LONGEST_PLAN: usize = MOST_STATES - 1;

/// What the call for a plan answers where there is none.
const NO_PLAN: i32 = -100;

/// Tries whether a text is a sheet.
///
/// # Errors
///
/// One of the refusals 1 to 6.
///
/// ```no_run
/// use luzafoma::Refusal;
///
/// assert_eq!(luzafoma::try_text(b"line rain\nnow 0\nwish 1\n"), Ok(()));
/// assert_eq!(luzafoma::try_text(b"line rain\nnow 0\nwish 0\n"), Err(Refusal::Word));
/// ```
pub fn try_text(text: &[u8]) -> Result<(), Refusal> {
    match calls::try_text(text) {
        0 => Ok(()),
        answer => Err(Refusal::from_answer(answer)),
    }
}

/// Finds a shortest plan and writes its actions at the front of `plan`, one byte
/// for each; the answer is their number, or `None` if there is no plan.
///
/// The bytes of `plan` after the plan stay as they are, and all of them where no
/// plan is written. A buffer of [`LONGEST_PLAN`] bytes is enough for every plan.
///
/// # Errors
///
/// One of the refusals 1 to 6; [`Refusal::States`] if too many states would be
/// counted; [`Refusal::LongPlan`] if the plan does not fit in `plan`.
pub fn plan(text: &[u8], plan: &mut [u8]) -> Result<Option<usize>, Refusal> {
    match calls::plan(text, plan) {
        NO_PLAN => Ok(None),
        answer => match usize::try_from(answer) {
            Ok(length) if length <= plan.len() => Ok(Some(length)),
            _ => Err(Refusal::from_answer(answer)),
        },
    }
}

/// Finds a shortest plan as [`plan()`] does, in a buffer that is long enough for
/// every plan.
///
/// # Errors
///
/// Those of [`plan()`], without [`Refusal::LongPlan`].
pub fn plan_to_vec(text: &[u8]) -> Result<Option<Vec<u8>>, Refusal> {
    let mut actions = vec![0; LONGEST_PLAN];
    Ok(plan(text, &mut actions)?.map(|length| {
        actions.truncate(length);
        actions
    }))
}

/// Writes the dual of a sheet at the front of `out`; the answer is its length,
/// which is that of the text.
///
/// The bytes of `out` after the dual stay as they are, and all of them after a
/// refusal.
///
/// # Errors
///
/// One of the refusals 1 to 6; [`Refusal::ShortBuffer`] if `out` is shorter than
/// a text that these accept.
pub fn dualise(text: &[u8], out: &mut [u8]) -> Result<usize, Refusal> {
    let answer = calls::dualise(text, out);
    match usize::try_from(answer) {
        Ok(length) if length == text.len() && length <= out.len() => Ok(length),
        _ => Err(Refusal::from_answer(answer)),
    }
}

/// Returns the dual of a sheet, as [`dualise`] writes it.
///
/// # Errors
///
/// Those of [`dualise`], without [`Refusal::ShortBuffer`].
pub fn dual(text: &[u8]) -> Result<Vec<u8>, Refusal> {
    // A text longer than the longest is refused, whatever the buffer.
    let mut out = vec![0; text.len().min(LONGEST_TEXT)];
    dualise(text, &mut out)?;
    Ok(out)
}
