//! The archive's calls on one office, made safe. They have the shapes of the model's calls.

use super::frames::Written;
use crate::model::entry::Entry;
use crate::model::session::Session;

#[repr(C)]
pub struct PlotRead {
    pub refusal: u32,
    pub found: u32,
    pub entry: Entry,
    pub session: Session,
}

layout!(PlotRead: 1448, refusal 0, found 4, entry 8, session 88);

#[repr(C)]
pub struct JointRead {
    pub refusal: u32,
    pub session: Session,
}

layout!(JointRead: 1368, refusal 0, session 8);

#[repr(C)]
pub struct Wrote {
    pub refusal: u32,
    pub words: usize,
    pub session: Session,
}

layout!(Wrote: 1376, refusal 0, words 8, session 16);

#[repr(C)]
pub struct Need {
    pub refusal: u32,
    pub words: usize,
}

layout!(Need: 16, refusal 0, words 8);

#[repr(C)]
pub struct Settings {
    pub refusal: u32,
    pub offices: u32,
    pub own: u32,
    pub plots: u32,
}

layout!(Settings: 16, refusal 0, offices 4, own 8, plots 12);

extern "C" {
    pub fn burial_version() -> u32;
    pub fn burial_store_settings(store: *const u32, store_len: usize) -> Settings;
    pub fn burial_store_need(offices: u32, own: u32, plots: u32) -> Need;
    pub fn burial_read_plot(store: *mut u32, store_len: usize, session: Session, plot: u32) -> PlotRead;
    pub fn burial_read_joint(
        store: *mut u32,
        store_len: usize,
        session: Session,
        plots: *const u32,
        plots_len: usize,
        answer: *mut u32,
        answer_len: usize,
    ) -> JointRead;
    pub fn burial_write(
        store: *mut u32,
        store_len: usize,
        session: Session,
        plot: u32,
        value: u32,
        out: *mut u32,
        out_len: usize,
    ) -> Wrote;
    pub fn burial_receive(
        store: *mut u32,
        store_len: usize,
        frame: *const u32,
        frame_len: usize,
        out: *mut u32,
        out_len: usize,
    ) -> Written;
}

/// The refusal and the number of words.
pub fn store_need(offices: u32, own: u32, plots: u32) -> (u32, usize) {
    let need = unsafe { burial_store_need(offices, own, plots) };
    (need.refusal, need.words)
}

/// The refusal, and ring size, own number and plots.
pub fn store_settings(store: &[u32]) -> (u32, [u32; 3]) {
    let said = unsafe { burial_store_settings(store.as_ptr(), store.len()) };
    (said.refusal, [said.offices, said.own, said.plots])
}

pub fn version() -> u32 {
    unsafe { burial_version() }
}

/// The refusal, and whether an entry is handed back and which.
pub fn read_plot(store: &mut [u32], session: &mut Session, plot: u32) -> (u32, (u32, Entry)) {
    let read = unsafe { burial_read_plot(store.as_mut_ptr(), store.len(), *session, plot) };
    *session = read.session;
    (read.refusal, (read.found, read.entry))
}

pub fn read_joint(store: &mut [u32], session: &mut Session, plots: &[u32], answer: &mut [u32]) -> u32 {
    let read = unsafe {
        burial_read_joint(
            store.as_mut_ptr(),
            store.len(),
            *session,
            plots.as_ptr(),
            plots.len(),
            answer.as_mut_ptr(),
            answer.len(),
        )
    };
    *session = read.session;
    read.refusal
}

/// The refusal and the number of words.
pub fn write(
    store: &mut [u32],
    session: &mut Session,
    plot: u32,
    value: u32,
    out: &mut [u32],
) -> (u32, usize) {
    let wrote = unsafe {
        burial_write(store.as_mut_ptr(), store.len(), *session, plot, value, out.as_mut_ptr(), out.len())
    };
    *session = wrote.session;
    (wrote.refusal, wrote.words)
}

/// The refusal and the number of words.
pub fn receive(store: &mut [u32], frame: &[u32], out: &mut [u32]) -> (u32, usize) {
    let received = unsafe {
        burial_receive(
            store.as_mut_ptr(),
            store.len(),
            frame.as_ptr(),
            frame.len(),
            out.as_mut_ptr(),
            out.len(),
        )
    };
    (received.refusal, received.words)
}
