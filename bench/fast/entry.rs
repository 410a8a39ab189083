//! Settings, the rules of one entry, and rank.

use super::places::{clock_ok, set_ok, Places};
use crate::model::entry::{Entry, MOST_PLOTS, VALUES};

pub fn refuse_if(condition: bool, refusal: u32) -> Result<(), u32> {
    (!condition).then_some(()).ok_or(refusal)
}

/// The refusal, 0 for none, and what stands beside it.
pub fn reply<T: Default>(result: Result<T, u32>) -> (u32, T) {
    match result {
        Ok(value) => (0, value),
        Err(refusal) => (refusal, T::default()),
    }
}

pub fn ring_ok(offices: u32) -> bool {
    (2..=8).contains(&offices)
}

pub fn settings_ok(offices: u32, plots: u32) -> bool {
    ring_ok(offices) && (1..=MOST_PLOTS).contains(&plots)
}

/// The bit of an id in the word of its office; of a serial out of range, some bit.
pub fn bit_of(serial: u32) -> u32 {
    1u32.wrapping_shl(serial.wrapping_sub(1))
}

/// The number that stands for an id in words.
pub fn payload(office: u32, serial: u32) -> u32 {
    office << 8 | serial
}

/// A clock and its office: the greater rank stands above.
pub type Rank<'a> = (&'a Places, u32);

pub fn rank(entry: &Entry) -> Rank<'_> {
    (&entry.clock, entry.office)
}

/// The rules that every entry of a ring with these settings keeps.
pub fn entry_ok(entry: &Entry, offices: u32, plots: u32) -> bool {
    let own = (entry.office & 7) as usize;
    // No serial is above 32 that equals a number of the clock.
    entry.office < offices
        && entry.plot < plots
        && entry.value < VALUES
        && entry.serial != 0
        && entry.clock[own] == entry.serial
        && entry.deps[own] & bit_of(entry.serial) == 0
        && clock_ok(&entry.clock, offices)
        && set_ok(&entry.deps, offices)
}
