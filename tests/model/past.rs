//! Pasts, by the sentences of documents 01 and 02 (iv) on them alone: what was handed back and what was
//! written. Read ids and dependencies do not come in; a read id need not be in the past. A past stands beside
//! its session and is copied with it: "Copies, slips and errands read from them keep the past of their
//! origin."

use super::entry::{ids, insert, union, Entry, IdSet};
use std::collections::BTreeMap;

/// "A fresh errand has a clock of zeros, nothing read and nothing of its own; its past is empty."
pub const EMPTY: IdSet = [0; 8];

struct Made {
    entry: Entry,
    writers_past: IdSet,
}

/// The entries that were made, by office and serial.
#[derive(Default)]
pub struct Log {
    made: BTreeMap<(u32, u32), Made>,
}

impl Log {
    /// "an accepted write adds the new entry, whose writer's past is the errand's just before."
    pub fn wrote(&mut self, past: &mut IdSet, new: &Entry) {
        self.made.insert(new.id(), Made { entry: *new, writers_past: *past });
        insert(past, new.office, new.serial);
    }

    /// "An accepted reading adds each entry handed back, with its writer's past".
    pub fn read(&self, past: &mut IdSet, handed_back: impl IntoIterator<Item = (u32, u32)>) {
        for (office, serial) in handed_back {
            insert(past, office, serial);
            *past = union(past, &self.writers_past((office, serial)));
        }
    }

    pub fn entry(&self, id: (u32, u32)) -> Option<&Entry> {
        self.made.get(&id).map(|made| &made.entry)
    }

    pub fn entries(&self, past: IdSet) -> impl Iterator<Item = &Entry> {
        ids(past).filter_map(|id| self.entry(id))
    }

    /// Empty where no such entry was made.
    pub fn writers_past(&self, id: (u32, u32)) -> IdSet {
        self.made.get(&id).map_or(EMPTY, |made| made.writers_past)
    }

    pub fn ids(&self) -> impl Iterator<Item = (u32, u32)> + '_ {
        self.made.keys().copied()
    }
}

/// Document 02 (iv), of a joined session: "Its past is both pasts".
pub fn both(first: &IdSet, second: &IdSet) -> IdSet {
    union(first, second)
}

/// Document 02 (iii): "each number of its clock is at least the corresponding one there".
pub fn clock_covers(entry: &Entry, earlier: &Entry) -> bool {
    entry.clock.iter().zip(&earlier.clock).all(|(number, there)| number >= there)
}
