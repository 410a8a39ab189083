//! Document 01's refusal numbers, less the last, which document 02 (i) takes away.

/// Ring size, own office or plots out of range.
pub const SETTINGS: u32 = 1;
/// A store that is not sound; when opening, one that is too short.
pub const STORE: u32 = 2;
/// A session that is not sound, or content that no frame or token has.
pub const CONTENT: u32 = 3;
pub const PLOT: u32 = 4;
pub const VALUE: u32 = 5;
/// The office has made all its entries.
pub const OFFICE_FULL: u32 = 6;
/// The session carries all that it can, or two that are joined would carry more.
pub const SESSION_FULL: u32 = 7;
/// A row is too short.
pub const ROOM: u32 = 8;
/// Words that are no frame or token.
pub const WORDS: u32 = 9;
/// An entry names this office and was not made here.
pub const UNMADE: u32 = 10;
/// An entry is held with other content, or two sessions that are joined carry it with two contents.
pub const DIFFERENT: u32 = 11;
/// An id is not held.
pub const MISSING: u32 = 12;

pub fn refuse_if(condition: bool, refusal: u32) -> Result<(), u32> {
    if condition {
        Err(refusal)
    } else {
        Ok(())
    }
}
