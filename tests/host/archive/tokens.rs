//! The archive's calls on tokens and whole sessions, and opening, made safe.

use super::frames::Written;
use crate::model::session::Session;

#[repr(C)]
pub struct TokenRead {
    pub refusal: u32,
    pub session: Session,
}

layout!(TokenRead: 1368, refusal 0, session 8);

extern "C" {
    pub fn burial_read_token(words: *const u32, len: usize, offices: u32, plots: u32) -> TokenRead;
    pub fn burial_write_token(session: Session, out: *mut u32, len: usize) -> Written;
    pub fn burial_open_office(offices: u32, own: u32, plots: u32, store: *mut u32, len: usize) -> u32;
    pub fn burial_fresh_session(offices: u32) -> TokenRead;
    pub fn burial_join_sessions(offices: u32, plots: u32, first: Session, second: Session) -> TokenRead;
}

/// The refusal and the session, which is all zeros on refusal.
pub fn read_token(words: &[u32], offices: u32, plots: u32) -> (u32, Session) {
    let read = unsafe { burial_read_token(words.as_ptr(), words.len(), offices, plots) };
    (read.refusal, read.session)
}

/// The refusal and the number of words.
pub fn write_token(session: &Session, out: &mut [u32]) -> (u32, usize) {
    let written = unsafe { burial_write_token(*session, out.as_mut_ptr(), out.len()) };
    (written.refusal, written.words)
}

pub fn open_office(offices: u32, own: u32, plots: u32, store: &mut [u32]) -> u32 {
    unsafe { burial_open_office(offices, own, plots, store.as_mut_ptr(), store.len()) }
}

/// The refusal and the session, which is all zeros on refusal.
pub fn fresh_session(offices: u32) -> (u32, Session) {
    let fresh = unsafe { burial_fresh_session(offices) };
    (fresh.refusal, fresh.session)
}

/// The refusal and the session, which is all zeros on refusal.
pub fn join_sessions(offices: u32, plots: u32, first: &Session, second: &Session) -> (u32, Session) {
    let joined = unsafe { burial_join_sessions(offices, plots, *first, *second) };
    (joined.refusal, joined.session)
}
