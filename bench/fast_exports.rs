//! The fast version behind the C interface of include/burial_register.h: both sides are timed by the same
//! way in and out.

use crate::archive::frames::{FrameRead, Written};
use crate::archive::lent::PlotFound;
use crate::archive::office::{JointRead, Need, PlotRead, Settings, Wrote};
use crate::archive::tokens::TokenRead;
use crate::fast::entry::reply;
use crate::fast::{frame, join, office, token};
use crate::model::codec::Frame;
use crate::model::entry::Entry;
use crate::model::session::Session;
use std::slice::{from_raw_parts, from_raw_parts_mut};

#[inline(never)]
pub unsafe extern "C" fn store_need(offices: u32, own: u32, plots: u32) -> Need {
    let (refusal, words) = reply(office::store_need(offices, own, plots));
    Need { refusal, words }
}

#[inline(never)]
pub unsafe extern "C" fn store_settings(store: *const u32, len: usize) -> Settings {
    let (refusal, [offices, own, plots]) =
        reply(office::store_settings(from_raw_parts_mut(store.cast_mut(), len)));
    Settings { refusal, offices, own, plots }
}

#[inline(never)]
pub unsafe extern "C" fn lent_read_plot(
    store: *mut u32,
    len: usize,
    session: *mut Session,
    plot: u32,
) -> PlotFound {
    let store = from_raw_parts_mut(store, len);
    match office::read_plot(store, &mut *session, plot) {
        Ok(Some(entry)) => PlotFound { refusal: 0, found: 1, entry },
        Ok(None) => PlotFound { refusal: 0, found: 0, entry: Entry::default() },
        Err(refusal) => PlotFound { refusal, found: 0, entry: Entry::default() },
    }
}

#[inline(never)]
pub unsafe extern "C" fn read_plot(
    store: *mut u32,
    len: usize,
    mut session: Session,
    plot: u32,
) -> PlotRead {
    let store = from_raw_parts_mut(store, len);
    match office::read_plot(store, &mut session, plot) {
        Ok(Some(entry)) => PlotRead { refusal: 0, found: 1, entry, session },
        Ok(None) => PlotRead { refusal: 0, found: 0, entry: Entry::default(), session },
        Err(refusal) => PlotRead { refusal, found: 0, entry: Entry::default(), session },
    }
}

#[inline(never)]
pub unsafe extern "C" fn lent_read_joint(
    store: *mut u32,
    store_len: usize,
    session: *mut Session,
    plots: *const u32,
    plots_len: usize,
    answer: *mut u32,
    answer_len: usize,
) -> u32 {
    let (store, plots) = (from_raw_parts_mut(store, store_len), from_raw_parts(plots, plots_len));
    let answer = from_raw_parts_mut(answer, answer_len);
    reply(office::read_joint(store, &mut *session, plots, answer)).0
}

#[inline(never)]
pub unsafe extern "C" fn read_joint(
    store: *mut u32,
    store_len: usize,
    mut session: Session,
    plots: *const u32,
    plots_len: usize,
    answer: *mut u32,
    answer_len: usize,
) -> JointRead {
    let (store, plots) = (from_raw_parts_mut(store, store_len), from_raw_parts(plots, plots_len));
    let answer = from_raw_parts_mut(answer, answer_len);
    let refusal = reply(office::read_joint(store, &mut session, plots, answer)).0;
    JointRead { refusal, session }
}

#[inline(never)]
pub unsafe extern "C" fn lent_write(
    store: *mut u32,
    store_len: usize,
    session: *mut Session,
    plot: u32,
    value: u32,
    out: *mut u32,
    out_len: usize,
) -> Written {
    let (store, out) = (from_raw_parts_mut(store, store_len), from_raw_parts_mut(out, out_len));
    let (refusal, words) = reply(office::write(store, &mut *session, plot, value, out));
    Written { refusal, words }
}

#[inline(never)]
pub unsafe extern "C" fn write(
    store: *mut u32,
    store_len: usize,
    mut session: Session,
    plot: u32,
    value: u32,
    out: *mut u32,
    out_len: usize,
) -> Wrote {
    let (store, out) = (from_raw_parts_mut(store, store_len), from_raw_parts_mut(out, out_len));
    let (refusal, words) = reply(office::write(store, &mut session, plot, value, out));
    Wrote { refusal, words, session }
}

#[inline(never)]
pub unsafe extern "C" fn receive(
    store: *mut u32,
    store_len: usize,
    frame: *const u32,
    frame_len: usize,
    out: *mut u32,
    out_len: usize,
) -> Written {
    let (store, frame) = (from_raw_parts_mut(store, store_len), from_raw_parts(frame, frame_len));
    let (refusal, words) = reply(office::receive(store, frame, from_raw_parts_mut(out, out_len)));
    Written { refusal, words }
}

#[inline(never)]
pub unsafe extern "C" fn join_sessions(
    offices: u32,
    plots: u32,
    first: Session,
    second: Session,
) -> TokenRead {
    // All of it is numbers. A default session would be made elsewhere and copied.
    let mut joined: TokenRead = std::mem::zeroed();
    joined.refusal = reply(join::join_sessions(offices, plots, &first, &second, &mut joined.session)).0;
    joined
}

#[inline(never)]
pub unsafe extern "C" fn read_token(words: *const u32, len: usize, offices: u32, plots: u32) -> TokenRead {
    match token::read_token(from_raw_parts(words, len), offices, plots) {
        Ok(session) => TokenRead { refusal: 0, session },
        Err(refusal) => TokenRead { refusal, session: Session::default() },
    }
}

#[inline(never)]
pub unsafe extern "C" fn write_token(session: Session, out: *mut u32, len: usize) -> Written {
    let (refusal, words) = reply(token::write_token(&session, from_raw_parts_mut(out, len)));
    Written { refusal, words }
}

#[inline(never)]
pub unsafe extern "C" fn read_frame(words: *const u32, len: usize, offices: u32, plots: u32) -> FrameRead {
    match frame::read_frame(from_raw_parts(words, len), offices, plots) {
        Ok(frame) => FrameRead { refusal: 0, frame },
        Err(refusal) => FrameRead { refusal, frame: Frame::default() },
    }
}

#[inline(never)]
pub unsafe extern "C" fn write_frame(frame: Frame, out: *mut u32, len: usize) -> Written {
    let (refusal, words) = reply(frame::write_frame(&frame, from_raw_parts_mut(out, len)));
    Written { refusal, words }
}
