//! The archive's calls with the session lent, made safe. They have the shapes of the model's calls.

use super::frames::Written;
use crate::model::entry::Entry;
use crate::model::session::Session;

#[repr(C)]
pub struct PlotFound {
    pub refusal: u32,
    pub found: u32,
    pub entry: Entry,
}

layout!(PlotFound: 88, refusal 0, found 4, entry 8);

extern "C" {
    pub fn burial_lent_read_plot(store: *mut u32, len: usize, session: *mut Session, plot: u32) -> PlotFound;
    pub fn burial_lent_read_joint(
        store: *mut u32,
        store_len: usize,
        session: *mut Session,
        plots: *const u32,
        plots_len: usize,
        answer: *mut u32,
        answer_len: usize,
    ) -> u32;
    pub fn burial_lent_write(
        store: *mut u32,
        store_len: usize,
        session: *mut Session,
        plot: u32,
        value: u32,
        out: *mut u32,
        out_len: usize,
    ) -> Written;
}

/// The refusal, and whether an entry is handed back and which.
pub fn read_plot(store: &mut [u32], session: &mut Session, plot: u32) -> (u32, (u32, Entry)) {
    let read = unsafe { burial_lent_read_plot(store.as_mut_ptr(), store.len(), session, plot) };
    (read.refusal, (read.found, read.entry))
}

pub fn read_joint(store: &mut [u32], session: &mut Session, plots: &[u32], answer: &mut [u32]) -> u32 {
    unsafe {
        burial_lent_read_joint(
            store.as_mut_ptr(),
            store.len(),
            session,
            plots.as_ptr(),
            plots.len(),
            answer.as_mut_ptr(),
            answer.len(),
        )
    }
}

/// The refusal and the number of words.
pub fn write(
    store: &mut [u32],
    session: &mut Session,
    plot: u32,
    value: u32,
    out: &mut [u32],
) -> (u32, usize) {
    let wrote = unsafe {
        burial_lent_write(store.as_mut_ptr(), store.len(), session, plot, value, out.as_mut_ptr(), out.len())
    };
    (wrote.refusal, wrote.words)
}
