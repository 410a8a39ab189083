//! What a ring and an office are opened with.

use crate::ffi;
use crate::refusal::Refusal;
use std::fmt;

/// What the offices of one ring share.
#[derive(Clone, Copy, Debug, PartialEq, Eq, Hash)]
pub struct Ring {
    /// How many offices it has, 2 to 8. They are numbered from 0.
    pub offices: u32,
    /// How many plots the register has, 1 to 64.
    pub plots: u32,
}

impl Ring {
    /// The office to which this one sends; the last sends to office 0.
    ///
    /// ```
    /// # use burial_register::Ring;
    /// assert_eq!([0, 1, 2].map(|own| Ring { offices: 3, plots: 64 }.next(own)), [1, 2, 0]);
    /// ```
    pub fn next(self, office: u32) -> u32 {
        if office < self.offices.saturating_sub(1) { office + 1 } else { 0 }
    }
}

/// What one office is opened with.
#[derive(Clone, Copy, Debug, PartialEq, Eq, Hash)]
pub struct Settings {
    /// The ring it belongs to.
    pub ring: Ring,
    /// Its own number in that ring.
    pub own: u32,
}

impl Settings {
    /// The settings of the office whose store these words are.
    ///
    /// ```
    /// # use burial_register::{Refusal, Settings};
    /// assert_eq!(Settings::of_store(&[1, 2, 3]), Err(Refusal::BadStore));
    /// ```
    pub fn of_store(words: &[u32]) -> Result<Settings, Refusal> {
        ffi::store_settings(words)
    }
}

impl fmt::Display for Settings {
    fn fmt(&self, f: &mut fmt::Formatter) -> fmt::Result {
        let Ring { offices, plots } = self.ring;
        write!(f, "office {} of a ring of {offices} with {plots} plots", self.own)
    }
}
