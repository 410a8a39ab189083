//! Entries of the register and their ids.

use crate::ffi;
use std::fmt;

/// The name of an entry.
#[derive(Clone, Copy, Debug, PartialEq, Eq, PartialOrd, Ord, Hash)]
pub struct Id {
    /// The office that made it.
    pub office: u32,
    /// Which of that office's entries it is, from 1 on.
    pub serial: u32,
}

impl Id {
    /// The id that the library writes as this number, 256 * office + serial.
    ///
    /// ```
    /// # use burial_register::Id;
    /// assert_eq!(Id::from_number(0x102), Id { office: 1, serial: 2 });
    /// ```
    pub fn from_number(number: u32) -> Id {
        Id { office: number >> 8, serial: number & 0xFF }
    }
}

impl fmt::Display for Id {
    fn fmt(&self, f: &mut fmt::Formatter) -> fmt::Result {
        write!(f, "{}.{}", self.office, self.serial)
    }
}

/// An entry as an office hands it back.
#[derive(Clone, Copy, Debug, PartialEq, Eq, Hash)]
pub struct Entry {
    /// Its name.
    pub id: Id,
    /// What it is about.
    pub plot: u32,
    /// What it says.
    pub value: u32,
}

impl fmt::Display for Entry {
    fn fmt(&self, f: &mut fmt::Formatter) -> fmt::Result {
        write!(f, "{} by {}", self.value, self.id)
    }
}

impl From<ffi::Entry> for Entry {
    fn from(entry: ffi::Entry) -> Entry {
        let ffi::Entry { office, serial, plot, value, .. } = entry;
        Entry { id: Id { office, serial }, plot, value }
    }
}
