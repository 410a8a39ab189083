//! The bounds of the library: the names of the header without `BURIAL_`.

/// Offices in a ring at least.
pub const MIN_OFFICES: u32 = 2;
/// Offices in a ring at most.
pub const MAX_OFFICES: u32 = 8;
/// Plots at most. They are numbered from 0.
pub const MAX_PLOTS: u32 = 64;
/// The greatest value of a plot.
pub const MAX_VALUE: u32 = 0xFFF_FFFF;
/// Entries that one office makes at most. Serials are numbered from 1.
pub const MAX_SERIAL: u32 = 32;
/// Own entries that a session carries at most.
pub const CARRIED: usize = 16;
/// Plots in one joint reading at most.
pub const JOINT: usize = 16;
/// Words of the longest frame.
pub const FRAME_WORDS: usize = 267;
/// Words of the longest token.
pub const TOKEN_WORDS: usize = 4_538;
/// Words of the longest store that an office needs.
pub const STORE_WORDS: usize = 4_627;
/// Words that a write puts out at most: the frames of 15 carried entries and of the new one.
pub const WRITE_WORDS: usize = 4_272;
/// Words that a joint reading answers at most, three for each plot.
pub const ANSWER_WORDS: usize = 48;
