//! Sessions (document 01: errands) and when they are sound.

use super::entry::{
    clock_in_range, has, insert, is_subset, ring_in_range, set_in_range, union, Clock, Entry, IdSet,
};
use super::refusal;

/// How many entries of its own a session carries at most.
pub const CARRIED: usize = 16;

#[repr(C)]
#[derive(Clone, Copy, Debug, Default, PartialEq, Eq)]
pub struct Session {
    pub offices: u32,
    pub clock: Clock,
    pub read: IdSet,
    pub count: usize,
    /// The first `count` are its own entries, in writing order or as they were joined; the rest means nothing.
    pub own: [Entry; CARRIED],
}

pub fn fresh_session(offices: u32) -> Result<Session, u32> {
    if !ring_in_range(offices) {
        return Err(refusal::SETTINGS);
    }
    Ok(Session { offices, ..Session::default() })
}

impl Session {
    pub fn own_entries(&self) -> &[Entry] {
        &self.own[..self.count]
    }

    pub fn own_ids(&self) -> IdSet {
        let mut set = IdSet::default();
        for entry in self.own_entries() {
            insert(&mut set, entry.office, entry.serial);
        }
        set
    }

    /// Sound for settings that are in range.
    pub fn is_sound(&self, offices: u32, plots: u32) -> bool {
        self.offices == offices
            && self.count <= CARRIED
            && clock_in_range(&self.clock, offices)
            && set_in_range(&self.read, offices)
            && self.own_entries_are_sound(plots)
    }

    fn own_entries_are_sound(&self, plots: u32) -> bool {
        let mut earlier = IdSet::default();
        for entry in self.own_entries() {
            if !entry.keeps_rules(self.offices, plots)
                || has(&earlier, entry.office, entry.serial)
                || !is_subset(&entry.deps, &union(&self.read, &earlier))
            {
                return false;
            }
            insert(&mut earlier, entry.office, entry.serial);
        }
        true
    }
}
