//! The calls of the header over slices; all unsafe code of the crate is here.
//!
//! Why it is safe: a slice gives a pointer that is aligned and never null, with its length. What
//! a call writes is borrowed mutably, so it overlaps nothing else that is lent. The library checks
//! each word that it is lent, writes only to what it is lent, and keeps no pointer. Its replies
//! are plain numbers.

mod header;

use crate::refusal::Refusal;
use crate::settings::{Ring, Settings};
pub use header::{Entry, Frame, Session};

pub fn version() -> u32 {
    header::burial_version()
}

fn words(reply: header::Words) -> Result<usize, Refusal> {
    Refusal::check(reply.refusal)?;
    Ok(reply.words)
}

pub fn store_need(settings: Settings) -> Result<usize, Refusal> {
    let Settings { ring: Ring { offices, plots }, own } = settings;
    words(header::burial_store_need(offices, own, plots))
}

pub fn store_settings(store: &[u32]) -> Result<Settings, Refusal> {
    // SAFETY: the row is a slice, and is only read.
    let reply = unsafe { header::burial_store_settings(store.as_ptr(), store.len()) };
    Refusal::check(reply.refusal)?;
    let ring = Ring { offices: reply.offices, plots: reply.plots };
    Ok(Settings { ring, own: reply.own })
}

pub fn open_office(settings: Settings, store: &mut [u32]) -> Result<(), Refusal> {
    let Settings { ring: Ring { offices, plots }, own } = settings;
    let (at, len) = (store.as_mut_ptr(), store.len());
    // SAFETY: the row is a slice, borrowed mutably.
    Refusal::check(unsafe { header::burial_open_office(offices, own, plots, at, len) })
}

pub fn fresh_session(ring: Ring) -> Result<Session, Refusal> {
    let reply = header::burial_fresh_session(ring.offices);
    Refusal::check(reply.refusal)?;
    Ok(reply.session)
}

pub fn join_sessions(ring: Ring, first: &Session, second: &Session) -> Result<Session, Refusal> {
    let reply = header::burial_join_sessions(ring.offices, ring.plots, *first, *second);
    Refusal::check(reply.refusal)?;
    Ok(reply.session)
}

pub fn read_plot(
    store: &mut [u32],
    session: &mut Session,
    plot: u32,
) -> Result<Option<Entry>, Refusal> {
    let (at, len) = (store.as_mut_ptr(), store.len());
    // SAFETY: the row is a slice; row and session are borrowed mutably.
    let reply = unsafe { header::burial_lent_read_plot(at, len, session, plot) };
    Refusal::check(reply.refusal)?;
    Ok((reply.found == 1).then_some(reply.entry))
}

pub fn read_joint(
    store: &mut [u32],
    session: &mut Session,
    plots: &[u32],
    answer: &mut [u32],
) -> Result<(), Refusal> {
    let (at, len) = (store.as_mut_ptr(), store.len());
    let (list, count) = (plots.as_ptr(), plots.len());
    let (row, room) = (answer.as_mut_ptr(), answer.len());
    // SAFETY: each row is a slice; the plots are only read, the rest is borrowed mutably.
    Refusal::check(unsafe {
        header::burial_lent_read_joint(at, len, session, list, count, row, room)
    })
}

pub fn write(
    store: &mut [u32],
    session: &mut Session,
    plot: u32,
    value: u32,
    out: &mut [u32],
) -> Result<usize, Refusal> {
    let (at, len) = (store.as_mut_ptr(), store.len());
    let (row, room) = (out.as_mut_ptr(), out.len());
    // SAFETY: each row is a slice; rows and session are borrowed mutably.
    words(unsafe { header::burial_lent_write(at, len, session, plot, value, row, room) })
}

pub fn receive(store: &mut [u32], frame: &[u32], out: &mut [u32]) -> Result<usize, Refusal> {
    let (at, len) = (store.as_mut_ptr(), store.len());
    let (from, count) = (frame.as_ptr(), frame.len());
    let (row, room) = (out.as_mut_ptr(), out.len());
    // SAFETY: each row is a slice; the frame is only read, the rest is borrowed mutably.
    words(unsafe { header::burial_receive(at, len, from, count, row, room) })
}

pub fn check_frame(ring: Ring, bytes: &[u8]) -> Result<(), Refusal> {
    let (at, len) = (bytes.as_ptr(), bytes.len());
    // SAFETY: the bytes are a slice, and are only read.
    Refusal::check(unsafe { header::burial_check_frame(at, len, ring.offices, ring.plots) })
}

pub fn read_frame(ring: Ring, words: &[u32]) -> Result<Frame, Refusal> {
    let (at, len) = (words.as_ptr(), words.len());
    // SAFETY: the row is a slice, and is only read.
    let reply = unsafe { header::burial_read_frame(at, len, ring.offices, ring.plots) };
    Refusal::check(reply.refusal)?;
    Ok(reply.frame)
}

pub fn read_token(ring: Ring, words: &[u32]) -> Result<Session, Refusal> {
    let (at, len) = (words.as_ptr(), words.len());
    // SAFETY: the row is a slice, and is only read.
    let reply = unsafe { header::burial_read_token(at, len, ring.offices, ring.plots) };
    Refusal::check(reply.refusal)?;
    Ok(reply.session)
}

pub fn write_token(session: &Session, out: &mut [u32]) -> Result<usize, Refusal> {
    let (row, room) = (out.as_mut_ptr(), out.len());
    // SAFETY: the row is a slice, borrowed mutably.
    words(unsafe { header::burial_write_token(*session, row, room) })
}
