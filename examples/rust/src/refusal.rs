//! Why a call was refused. A refused call has changed nothing.

use std::{error, fmt};

/// Why a call was refused.
#[derive(Clone, Copy, Debug, PartialEq, Eq, Hash)]
pub enum Refusal {
    /// 1: ring size, own office or plots out of range.
    BadSettings,
    /// 2: the store is not sound, or too short.
    BadStore,
    /// 3: a session is not sound for this office, or for this ring.
    BadContent,
    /// 4: a plot is out of range, or there are more than 16.
    BadPlot,
    /// 5: the value is above [`MAX_VALUE`](crate::bounds::MAX_VALUE).
    BadValue,
    /// 6: the office has made its 32 entries.
    OfficeFull,
    /// 7: the session carries 16 entries, or two that are joined would carry more; a new one carries
    /// none.
    SessionFull,
    /// 8: a row is too short. The rows of this wrapper never are.
    NoRoom,
    /// 9: the words are no frame or token of this ring.
    NotAFrame,
    /// 10: an entry names this office and was not made here.
    Unmade,
    /// 11: an entry is held with other content, or two that are joined carry it with two contents.
    Different,
    /// 12: an entry that was read or is depended on is not held.
    Missing,
    /// A number that this version of the library does not give.
    Unknown(u32),
}

use Refusal::*;

/// By number, from 1 on.
const NUMBERED: [Refusal; 12] = [
    BadSettings,
    BadStore,
    BadContent,
    BadPlot,
    BadValue,
    OfficeFull,
    SessionFull,
    NoRoom,
    NotAFrame,
    Unmade,
    Different,
    Missing,
];

/// By number, from 0 on; word for word those of the header.
const TEXTS: [&str; 13] = [
    "not refused",
    "ring size, own office or plots out of range",
    "the store is not sound, or too short",
    "a session is not sound for this ring, or no frame or token has this content",
    "a plot is out of range, or there are more than 16",
    "the value is too great",
    "the office has made its 32 entries",
    "over 16 entries would be carried",
    "a row is too short",
    "the words are no frame or token of this ring",
    "an entry names this office and was not made here",
    "an entry is held or carried with other content",
    "an entry that was read or is depended on is not held",
];

/// What a number that a call replies means, 0 included.
///
/// ```
/// assert_eq!(burial_register::refusal_text(5), "the value is too great");
/// ```
pub fn refusal_text(number: u32) -> &'static str {
    TEXTS.get(number as usize).unwrap_or(&"no refusal of this library")
}

impl Refusal {
    /// What a call that replied this number has to say, 0 being no refusal.
    ///
    /// ```
    /// # use burial_register::Refusal;
    /// assert_eq!(Refusal::check(0), Ok(()));
    /// assert_eq!(Refusal::check(5), Err(Refusal::BadValue));
    /// ```
    pub fn check(number: u32) -> Result<(), Refusal> {
        match number.checked_sub(1) {
            None => Ok(()),
            Some(place) => Err(*NUMBERED.get(place as usize).unwrap_or(&Unknown(number))),
        }
    }

    /// The number of the header and of the replies.
    ///
    /// ```
    /// # use burial_register::Refusal;
    /// assert_eq!(Refusal::BadValue.number(), 5);
    /// ```
    pub fn number(self) -> u32 {
        match self {
            Unknown(number) => number,
            named => 1 + NUMBERED.iter().take_while(|other| **other != named).count() as u32,
        }
    }
}

impl fmt::Display for Refusal {
    fn fmt(&self, f: &mut fmt::Formatter) -> fmt::Result {
        write!(f, "refused {}: {}", self.number(), refusal_text(self.number()))
    }
}

impl error::Error for Refusal {}
