//! `include/burial_register.h` in Rust, as far as the wrapper uses it.

use std::mem::{offset_of, size_of};

#[repr(C)]
#[derive(Clone, Copy, Debug)]
pub struct Entry {
    pub office: u32,
    pub serial: u32,
    pub plot: u32,
    pub value: u32,
    pub clock: [u32; 8],
    pub deps: [u32; 8],
}

#[repr(C)]
#[derive(Clone, Copy, Debug)]
pub struct Frame {
    pub offices: u32,
    pub hops: u32,
    pub entry: Entry,
}

#[repr(C)]
#[derive(Clone, Copy, Debug)]
pub struct Session {
    pub offices: u32,
    pub clock: [u32; 8],
    pub read: [u32; 8],
    pub count: usize,
    pub own: [Entry; 16],
}

#[repr(C)]
pub struct Settings {
    pub refusal: u32,
    pub offices: u32,
    pub own: u32,
    pub plots: u32,
}

/// `burial_need` and `burial_written`: how many words a store needs, or how many were written.
#[repr(C)]
pub struct Words {
    pub refusal: u32,
    pub words: usize,
}

#[repr(C)]
pub struct PlotFound {
    pub refusal: u32,
    pub found: u32,
    pub entry: Entry,
}

#[repr(C)]
pub struct FrameRead {
    pub refusal: u32,
    pub frame: Frame,
}

#[repr(C)]
pub struct TokenRead {
    pub refusal: u32,
    pub session: Session,
}

// The layout to which the library is built; the header says it too.
const _: () = {
    assert!(size_of::<Entry>() == 80 && offset_of!(Entry, deps) == 48);
    assert!(size_of::<Frame>() == 88 && offset_of!(Frame, entry) == 8);
    assert!(size_of::<Session>() == 1360 && offset_of!(Session, own) == 80);
    assert!(size_of::<Settings>() == 16);
    assert!(size_of::<Words>() == 16 && offset_of!(Words, words) == 8);
    assert!(size_of::<PlotFound>() == 88 && offset_of!(PlotFound, entry) == 8);
    assert!(size_of::<FrameRead>() == 92 && offset_of!(FrameRead, frame) == 4);
    assert!(size_of::<TokenRead>() == 1368 && offset_of!(TokenRead, session) == 8);
};

// SAFETY: these are the signatures of the header. Safe are those that take no pointer.
unsafe extern "C" {
    pub safe fn burial_version() -> u32;
    pub safe fn burial_store_need(offices: u32, own: u32, plots: u32) -> Words;
    pub safe fn burial_fresh_session(offices: u32) -> TokenRead;
    pub safe fn burial_join_sessions(
        offices: u32,
        plots: u32,
        first: Session,
        second: Session,
    ) -> TokenRead;
    pub fn burial_store_settings(store: *const u32, store_len: usize) -> Settings;
    pub fn burial_open_office(
        offices: u32,
        own: u32,
        plots: u32,
        store: *mut u32,
        store_len: usize,
    ) -> u32;
    pub fn burial_lent_read_plot(
        store: *mut u32,
        store_len: usize,
        session: *mut Session,
        plot: u32,
    ) -> PlotFound;
    pub fn burial_lent_read_joint(
        store: *mut u32,
        store_len: usize,
        session: *mut Session,
        plots: *const u32,
        plots_len: usize,
        answer: *mut u32,
        answer_len: usize,
    ) -> u32;
    pub fn burial_lent_write(
        store: *mut u32,
        store_len: usize,
        session: *mut Session,
        plot: u32,
        value: u32,
        out: *mut u32,
        out_len: usize,
    ) -> Words;
    pub fn burial_receive(
        store: *mut u32,
        store_len: usize,
        frame: *const u32,
        frame_len: usize,
        out: *mut u32,
        out_len: usize,
    ) -> Words;
    pub fn burial_check_frame(bytes: *const u8, bytes_len: usize, offices: u32, plots: u32) -> u32;
    pub fn burial_read_frame(
        words: *const u32,
        words_len: usize,
        offices: u32,
        plots: u32,
    ) -> FrameRead;
    pub fn burial_read_token(
        words: *const u32,
        words_len: usize,
        offices: u32,
        plots: u32,
    ) -> TokenRead;
    pub fn burial_write_token(session: Session, out: *mut u32, out_len: usize) -> Words;
}
