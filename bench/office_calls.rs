//! Each call on one office, as archive and fast version make it through the C interface, and as the model does.
// Several programs share this file, and not each uses all of it.
#![allow(dead_code)]

use crate::model::{join as model_joins, office as model, token as model_tokens};
use crate::office_cases::{Case, Lent, OWN};
use crate::sides::{Side, ARCHIVE, FAST};
use std::hint::black_box;

/// What the joint readings list.
pub const PLOTS: [u32; 4] = [0, 5, 9, 40];

pub type Call = fn(&Side, &Case, &mut Lent);

/// A call, and the side that makes it.
#[derive(Clone, Copy)]
pub struct Way {
    pub call: Call,
    pub side: &'static Side,
}

/// A call on all sides; the model's is one of its own. One that changes what it is lent gets each copy once
/// in a round.
pub struct Timed {
    pub name: &'static str,
    pub call: Call,
    pub model: Call,
    pub changes: bool,
    /// The session has an own entry on each of PLOTS that stands above what is visible there.
    pub own: bool,
    pub spare: fn(u32) -> Option<(u32, u32)>,
    pub hops: fn(u32) -> u32,
}

impl Timed {
    pub fn archive(&self) -> Way {
        Way { call: self.call, side: &ARCHIVE }
    }

    pub fn model(&self) -> Way {
        Way { call: self.model, side: &FAST }
    }

    pub fn fast(&self) -> Way {
        Way { call: self.call, side: &FAST }
    }
}

fn need(side: &Side, case: &Case, _: &mut Lent) {
    let need = unsafe { (side.store_need)(black_box(case.offices), OWN, 64) };
    assert_eq!(black_box(&need).refusal, 0);
}

fn model_need(_: &Side, case: &Case, _: &mut Lent) {
    let need = model::store_need(black_box(case.offices), OWN, 64);
    assert!(black_box(&need).is_ok());
}

fn settings(side: &Side, case: &Case, lent: &mut Lent) {
    // Writable, though it is read only: the fast version asks for that.
    let store = black_box(&mut lent.store);
    let said = unsafe { (side.store_settings)(store.as_mut_ptr(), store.len()) };
    assert_eq!(black_box(&said).offices, case.offices);
}

fn model_settings(_: &Side, case: &Case, lent: &mut Lent) {
    assert_eq!(model::store_settings(black_box(&lent.store)), Ok([case.offices, OWN, 64]));
}

/// No store at all: what is left is the way into the call and back.
fn refused(side: &Side, _: &Case, lent: &mut Lent) {
    let read =
        unsafe { (side.lent_read_plot)(lent.store.as_mut_ptr(), 0, &mut lent.session, black_box(PLOTS[1])) };
    assert_eq!(black_box(&read).refusal, 2);
}

fn model_refused(_: &Side, _: &Case, lent: &mut Lent) {
    let read = model::read_plot(&mut lent.store[..0], &mut lent.session, black_box(PLOTS[1]));
    assert_eq!(black_box(read), Err(2));
}

fn plot(side: &Side, _: &Case, lent: &mut Lent) {
    let (store, plot) = (&mut lent.store, black_box(PLOTS[1]));
    let read =
        unsafe { (side.lent_read_plot)(store.as_mut_ptr(), store.len(), &mut lent.session, plot) };
    assert_eq!(black_box(&read).refusal, 0);
}

fn plot_by_value(side: &Side, _: &Case, lent: &mut Lent) {
    let (store, plot) = (&mut lent.store, black_box(PLOTS[1]));
    let read = unsafe { (side.read_plot)(store.as_mut_ptr(), store.len(), lent.session, plot) };
    assert_eq!(black_box(&read).refusal, 0);
    lent.session = read.session;
}

fn model_plot(_: &Side, _: &Case, lent: &mut Lent) {
    let read = model::read_plot(&mut lent.store, &mut lent.session, black_box(PLOTS[1]));
    assert!(black_box(&read).is_ok());
}

fn joint(side: &Side, _: &Case, lent: &mut Lent) {
    let (store, row, plots) = (&mut lent.store, &mut lent.row, black_box(&PLOTS));
    let refusal = unsafe {
        (side.lent_read_joint)(
            store.as_mut_ptr(),
            store.len(),
            &mut lent.session,
            plots.as_ptr(),
            plots.len(),
            row.as_mut_ptr(),
            row.len(),
        )
    };
    assert_eq!(refusal, 0);
}

fn joint_by_value(side: &Side, _: &Case, lent: &mut Lent) {
    let (store, row, plots) = (&mut lent.store, &mut lent.row, black_box(&PLOTS));
    let read = unsafe {
        (side.read_joint)(
            store.as_mut_ptr(),
            store.len(),
            lent.session,
            plots.as_ptr(),
            plots.len(),
            row.as_mut_ptr(),
            row.len(),
        )
    };
    assert_eq!(read.refusal, 0);
    lent.session = read.session;
}

fn model_joint(_: &Side, _: &Case, lent: &mut Lent) {
    let plots = black_box(&PLOTS);
    assert!(model::read_joint(&mut lent.store, &mut lent.session, plots, &mut lent.row).is_ok());
}

fn write(side: &Side, _: &Case, lent: &mut Lent) {
    let (store, row, plot) = (&mut lent.store, &mut lent.row, black_box(7));
    let wrote = unsafe {
        (side.lent_write)(
            store.as_mut_ptr(),
            store.len(),
            &mut lent.session,
            plot,
            709,
            row.as_mut_ptr(),
            row.len(),
        )
    };
    assert_eq!(wrote.refusal, 0);
}

fn write_by_value(side: &Side, _: &Case, lent: &mut Lent) {
    let (store, row, plot) = (&mut lent.store, &mut lent.row, black_box(7));
    let wrote = unsafe {
        (side.write)(
            store.as_mut_ptr(),
            store.len(),
            lent.session,
            plot,
            709,
            row.as_mut_ptr(),
            row.len(),
        )
    };
    assert_eq!(wrote.refusal, 0);
    lent.session = wrote.session;
}

fn model_write(_: &Side, _: &Case, lent: &mut Lent) {
    let wrote = model::write(&mut lent.store, &mut lent.session, black_box(7), 709, &mut lent.row);
    assert!(wrote.is_ok());
}

fn receive(side: &Side, case: &Case, lent: &mut Lent) {
    let (store, frame, row) = (&mut lent.store, black_box(&case.frame), &mut lent.row);
    let received = unsafe {
        (side.receive)(
            store.as_mut_ptr(),
            store.len(),
            frame.as_ptr(),
            frame.len(),
            row.as_mut_ptr(),
            row.len(),
        )
    };
    assert_eq!(received.refusal, 0);
}

fn model_receive(_: &Side, case: &Case, lent: &mut Lent) {
    let received = model::receive(&mut lent.store, black_box(&case.frame), &mut lent.row);
    assert!(received.is_ok());
}

/// The two stay, so that each call has the same work.
fn join(side: &Side, case: &Case, lent: &mut Lent) {
    let (first, second) = black_box((&case.lent.session, &case.other));
    let joined = unsafe { (side.join_sessions)(case.offices, 64, *first, *second) };
    assert_eq!(joined.refusal, 0);
    lent.session = joined.session;
}

fn model_join(_: &Side, case: &Case, lent: &mut Lent) {
    let (first, second) = black_box((&case.lent.session, &case.other));
    match model_joins::join_sessions(case.offices, 64, first, second) {
        Ok(session) => lent.session = session,
        Err(refusal) => panic!("refused {refusal}"),
    }
}

fn read_token(side: &Side, case: &Case, lent: &mut Lent) {
    let token = black_box(&case.token);
    let read = unsafe { (side.read_token)(token.as_ptr(), token.len(), case.offices, 64) };
    assert_eq!(read.refusal, 0);
    lent.session = read.session;
}

fn model_read_token(_: &Side, case: &Case, lent: &mut Lent) {
    match model_tokens::read_token(black_box(&case.token), case.offices, 64) {
        Ok(session) => lent.session = session,
        Err(refusal) => panic!("refused {refusal}"),
    }
}

fn write_token(side: &Side, _: &Case, lent: &mut Lent) {
    let row = &mut lent.row;
    let wrote = unsafe { (side.write_token)(*black_box(&lent.session), row.as_mut_ptr(), row.len()) };
    assert_eq!(wrote.refusal, 0);
}

fn model_write_token(_: &Side, _: &Case, lent: &mut Lent) {
    assert!(model_tokens::write_token(black_box(&lent.session), &mut lent.row).is_ok());
}

/// A call that leaves what it is lent as it was.
const fn reading(name: &'static str, call: Call, model: Call) -> Timed {
    Timed { name, call, model, changes: false, own: false, spare: |_| None, hops: |_| 0 }
}

/// A call that makes the office's entry 32.
const fn writing(name: &'static str, call: Call) -> Timed {
    let (spare, hops) = (|_| Some((OWN, 32)), |_| 0);
    Timed { name, call, model: model_write, changes: true, own: false, spare, hops }
}

/// A call that takes a frame with one entry more.
const fn receiving(name: &'static str, spare: fn(u32) -> Option<(u32, u32)>, hops: fn(u32) -> u32) -> Timed {
    Timed { name, call: receive, model: model_receive, changes: true, own: false, spare, hops }
}

pub const NEED: Timed = reading("store_need", need, model_need);
pub const SETTINGS: Timed = reading("store_settings", settings, model_settings);
pub const NO_STORE: Timed = reading("read_plot no store", refused, model_refused);
pub const PLOT: Timed = reading("read_plot", plot, model_plot);
pub const PLOT_BY_VALUE: Timed = reading("  by value", plot_by_value, model_plot);
pub const JOINT: Timed = reading("read_joint of 4", joint, model_joint);
pub const JOINT_BY_VALUE: Timed = reading("  by value", joint_by_value, model_joint);
pub const JOINT_OWN: Timed = Timed { own: true, ..reading("  of own entries", joint, model_joint) };
pub const WRITE: Timed = writing("write", write);
pub const WRITE_BY_VALUE: Timed = writing("  by value", write_by_value);
pub const LAST_HOP: Timed = receiving("receive, last hop", |_| Some((1, 32)), |_| 0);
pub const MIDDLE: Timed = receiving("receive, middle", |n| Some((n - 1, 32)), |n| n - 2);
pub const JOIN: Timed = reading("join_sessions", join, model_join);
pub const READ_TOKEN: Timed = reading("read_token", read_token, model_read_token);
pub const WRITE_TOKEN: Timed = reading("write_token", write_token, model_write_token);
