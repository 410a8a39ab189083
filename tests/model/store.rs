//! The words of a store: three settings, the held and the visible set, and a slot for each id.

use super::entry::{
    has, ids, insert, is_subset, set_in_range, settings_in_range, union, Clock, Entry, IdSet, PLACES, SERIALS,
};

const OFFICES: usize = 0;
const OWN: usize = 1;
const PLOTS: usize = 2;
const HELD: usize = 3;
const VISIBLE: usize = HELD + PLACES;
const SLOTS: usize = VISIBLE + PLACES;
/// Plot, value, clock, dependencies.
const SLOT: usize = 2 + 2 * PLACES;

pub fn need(offices: u32) -> usize {
    SLOTS + SLOT * SERIALS as usize * offices as usize
}

pub struct Store<'a> {
    words: &'a mut [u32],
}

fn set_at(words: &[u32], at: usize) -> IdSet {
    std::array::from_fn(|i| words[at + i])
}

/// Where the slot of an id starts.
pub fn slot(office: u32, serial: u32) -> usize {
    SLOTS + SLOT * (SERIALS * office + serial - 1) as usize
}

impl<'a> Store<'a> {
    /// None when the store is not sound.
    pub fn sound(words: &'a mut [u32]) -> Option<Self> {
        let store = Store { words };
        (store.settings_are_sound() && store.sets_are_sound() && store.entries_are_sound()).then_some(store)
    }

    /// Makes a store that holds nothing; the slots keep their words.
    pub fn open(words: &mut [u32], offices: u32, own: u32, plots: u32) {
        words[..SLOTS].fill(0);
        words[OFFICES] = offices;
        words[OWN] = own;
        words[PLOTS] = plots;
    }

    fn settings_are_sound(&self) -> bool {
        self.words.len() > PLOTS
            && settings_in_range(self.offices(), self.plots())
            && self.own() < self.offices()
            && self.words.len() >= need(self.offices())
    }

    fn sets_are_sound(&self) -> bool {
        let own = self.held()[self.own() as usize];
        set_in_range(&self.held(), self.offices())
            && is_subset(&self.visible(), &self.held())
            // Serials 1 to the count are the lowest bits, with no gap.
            && own.trailing_ones() == own.count_ones()
    }

    fn entries_are_sound(&self) -> bool {
        let (held, visible) = (self.held(), self.visible());
        ids(held).all(|(office, serial)| {
            let entry = self.entry(office, serial);
            entry.keeps_rules(self.offices(), self.plots())
                && is_subset(&entry.deps, &held)
                && (!has(&visible, office, serial) || is_subset(&entry.deps, &visible))
        })
    }

    pub fn offices(&self) -> u32 {
        self.words[OFFICES]
    }

    pub fn own(&self) -> u32 {
        self.words[OWN]
    }

    pub fn plots(&self) -> u32 {
        self.words[PLOTS]
    }

    pub fn held(&self) -> IdSet {
        set_at(self.words, HELD)
    }

    pub fn visible(&self) -> IdSet {
        set_at(self.words, VISIBLE)
    }

    pub fn holds(&self, entry: &Entry) -> bool {
        has(&self.held(), entry.office, entry.serial)
    }

    /// How many entries this office has made.
    pub fn made(&self) -> u32 {
        self.held()[self.own() as usize].count_ones()
    }

    pub fn entry(&self, office: u32, serial: u32) -> Entry {
        let at = slot(office, serial);
        let (plot, value) = (self.words[at], self.words[at + 1]);
        let clock: Clock = set_at(self.words, at + 2);
        let deps = set_at(self.words, at + 2 + PLACES);
        Entry { office, serial, plot, value, clock, deps }
    }

    /// Holds a new entry, hidden.
    pub fn hold(&mut self, entry: &Entry) {
        let at = slot(entry.office, entry.serial);
        self.words[at] = entry.plot;
        self.words[at + 1] = entry.value;
        self.words[at + 2..at + 2 + PLACES].copy_from_slice(&entry.clock);
        self.words[at + 2 + PLACES..at + SLOT].copy_from_slice(&entry.deps);
        let mut held = self.held();
        insert(&mut held, entry.office, entry.serial);
        self.words[HELD..VISIBLE].copy_from_slice(&held);
    }

    pub fn show(&mut self, visible: &IdSet) {
        self.words[VISIBLE..SLOTS].copy_from_slice(visible);
    }

    /// What is visible once held ids are brought out: with all that they reach through dependencies.
    pub fn brought_out(&self, from: &IdSet) -> IdSet {
        let mut reached = *from;
        let mut pending = *from;
        while let Some((office, serial)) = ids(pending).next() {
            pending[office as usize] &= !(1 << (serial - 1));
            let deps = self.entry(office, serial).deps;
            for place in 0..PLACES {
                pending[place] |= deps[place] & !reached[place];
            }
            reached = union(&reached, &deps);
        }
        union(&self.visible(), &reached)
    }

    /// The highest-ranked entry on a plot among the ids of a set.
    pub fn presented(&self, plot: u32, visible: &IdSet) -> Option<Entry> {
        ids(*visible)
            .map(|(office, serial)| self.entry(office, serial))
            .filter(|entry| entry.plot == plot)
            .reduce(|best, entry| if entry.outranks(&best) { entry } else { best })
    }

    pub fn clock(&self) -> Clock {
        let mut clock = Clock::default();
        for (office, serial) in ids(self.visible()) {
            clock = super::entry::join(&clock, &self.entry(office, serial).clock);
        }
        clock[self.own() as usize] = self.made();
        clock
    }
}
