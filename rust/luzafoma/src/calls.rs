//! The three calls of the static library, each behind a safe function.
//!
//! This is the only module with unsafe code. A slice crosses as its pointer and
//! then its length; the answer comes back as it is.
//!
//! What is taken on trust of the library, for every pointer and length that
//! come from one slice: a call reads only the text, writes only the other
//! slice, keeps neither pointer, and uses no memory that calls in other threads
//! share. An empty slice has a pointer that is not null, and nothing is read or
//! written there.

unsafe extern "C" {
    fn luzafoma_try(text: *const u8, text_len: usize) -> i32;
    fn luzafoma_plan(text: *const u8, text_len: usize, plan: *mut u8, plan_len: usize) -> i32;
    fn luzafoma_dualise(text: *const u8, text_len: usize, out: *mut u8, out_len: usize) -> i32;
}

pub(crate) fn try_text(text: &[u8]) -> i32 {
    // SAFETY: the pointer and the length are those of `text`, which lives
    // throughout the call; the call only reads it.
    unsafe { luzafoma_try(text.as_ptr(), text.len()) }
}

pub(crate) fn plan(text: &[u8], plan: &mut [u8]) -> i32 {
    // SAFETY: each pointer and length are those of one slice, which lives
    // throughout the call; `text` is only read, and `plan`, borrowed alone and
    // so apart from `text`, may be written.
    unsafe { luzafoma_plan(text.as_ptr(), text.len(), plan.as_mut_ptr(), plan.len()) }
}

pub(crate) fn dualise(text: &[u8], out: &mut [u8]) -> i32 {
    // SAFETY: each pointer and length are those of one slice, which lives
    // throughout the call; `text` is only read, and `out`, borrowed alone and
    // so apart from `text`, may be written.
    unsafe { luzafoma_dualise(text.as_ptr(), text.len(), out.as_mut_ptr(), out.len()) }
}
