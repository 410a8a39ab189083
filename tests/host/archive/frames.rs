//! The archive's calls on frames, made safe: a slice crosses as a pointer and a count of elements.

use crate::model::codec::Frame;

#[repr(C)]
pub struct FrameRead {
    pub refusal: u32,
    pub frame: Frame,
}

layout!(FrameRead: 92, refusal 0, frame 4);

#[repr(C)]
pub struct Written {
    pub refusal: u32,
    pub words: usize,
}

layout!(Written: 16, refusal 0, words 8);

extern "C" {
    pub fn burial_check_frame(bytes: *const u8, len: usize, offices: u32, plots: u32) -> u32;
    pub fn burial_read_frame(words: *const u32, len: usize, offices: u32, plots: u32) -> FrameRead;
    pub fn burial_write_frame(frame: Frame, out: *mut u32, len: usize) -> Written;
}

pub fn check_frame(bytes: &[u8], offices: u32, plots: u32) -> u32 {
    unsafe { burial_check_frame(bytes.as_ptr(), bytes.len(), offices, plots) }
}

/// The refusal and the frame, which is all zeros on refusal.
pub fn read_frame(words: &[u32], offices: u32, plots: u32) -> (u32, Frame) {
    let read = unsafe { burial_read_frame(words.as_ptr(), words.len(), offices, plots) };
    (read.refusal, read.frame)
}

/// The refusal and the number of words, which is 0 on refusal.
pub fn write_frame(frame: &Frame, out: &mut [u32]) -> (u32, usize) {
    let written = unsafe { burial_write_frame(*frame, out.as_mut_ptr(), out.len()) };
    (written.refusal, written.words)
}
