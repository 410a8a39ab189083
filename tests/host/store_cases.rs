//! Stores to test with: sound ones of any content, and words that break them.
#![allow(dead_code)]

use crate::frame_cases::some_clock;
use crate::model::entry::{has, ids, Clock, Entry, IdSet, VALUES};
use crate::random::Random;

pub const HELD: usize = 3;
pub const VISIBLE: usize = 11;
pub const SLOTS: usize = 19;
pub const SLOT: usize = 18;

/// The settings of a store, and what it holds; the words are made from it.
pub struct Content {
    pub offices: u32,
    pub own: u32,
    pub plots: u32,
    pub held: IdSet,
    pub visible: IdSet,
    /// By index 32 * office + serial - 1; only those of held ids count.
    pub entries: Vec<Entry>,
}

/// Bits that are each set with a chance in sixteen.
fn some_bits(random: &mut Random, chance: u32) -> u32 {
    (0..32).fold(0, |bits, i| bits | ((random.below(16) < chance) as u32) << i)
}

pub fn some_of(random: &mut Random, set: &IdSet, chance: u32) -> IdSet {
    std::array::from_fn(|office| if set[office] == 0 { 0 } else { set[office] & some_bits(random, chance) })
}

pub fn some_chance(random: &mut Random) -> u32 {
    random.pick(&[0, 1, 1, 2, 4, 8, 15, 16])
}

fn some_held(random: &mut Random, offices: u32, own: u32) -> IdSet {
    let chance = some_chance(random);
    let mut held = IdSet::default();
    for word in &mut held[..offices as usize] {
        *word = some_bits(random, chance);
    }
    let made = if random.one_in(6) { 32 } else { random.below(33) };
    // The lowest `made` bits, also where that is all of them.
    held[own as usize] = ((1u64 << made) - 1) as u32;
    held
}

pub fn index(office: u32, serial: u32) -> usize {
    (32 * office + serial - 1) as usize
}

impl Content {
    pub fn entry(&self, office: u32, serial: u32) -> Entry {
        self.entries[index(office, serial)]
    }

    fn some_entry(&self, random: &mut Random, id: (u32, u32), shared: &Clock, chance: u32) -> Entry {
        let (office, serial) = id;
        // A clock that entries of several offices share leaves the rank to the office.
        let mut clock = if random.one_in(2) { *shared } else { some_clock(random, self.offices) };
        clock[office as usize] = serial;
        let mut deps = some_of(random, &self.held, chance);
        deps[office as usize] &= !(1 << (serial - 1));
        Entry { office, serial, plot: random.below(self.plots), value: random.below(VALUES), clock, deps }
    }

    /// Adds to a set all that its ids reach; step by step, so that it is plainly right.
    pub fn closed(&self, from: IdSet) -> IdSet {
        let mut set = from;
        loop {
            let mut larger = set;
            for (office, serial) in ids(set) {
                let deps = self.entry(office, serial).deps;
                larger = std::array::from_fn(|place| larger[place] | deps[place]);
            }
            if larger == set {
                return set;
            }
            set = larger;
        }
    }

    /// Entries may depend on each other in circles: a sound store may hold such too.
    pub fn sound(random: &mut Random) -> Content {
        let offices = random.between(2, 8);
        let own = random.below(offices);
        // Few plots, so that entries meet on them.
        let plots = random.pick(&[1, 2, 3, 5, 64]);
        let held = some_held(random, offices, own);
        let mut content = Content {
            offices,
            own,
            plots,
            held,
            visible: IdSet::default(),
            entries: vec![Entry::default(); 256],
        };
        let mut shared = some_clock(random, offices);
        shared[..offices as usize].iter_mut().for_each(|number| *number = (*number).max(1));
        let chance = random.pick(&[0, 0, 1, 1, 2, 6]);
        for (office, serial) in ids(held) {
            let entry = content.some_entry(random, (office, serial), &shared, chance);
            content.entries[index(office, serial)] = entry;
        }
        let chance = some_chance(random);
        content.visible = content.closed(some_of(random, &held, chance));
        content
    }

    pub fn need(&self) -> usize {
        SLOTS + 576 * self.offices as usize
    }

    /// The words; those of other slots and beyond the need are any.
    pub fn words(&self, random: &mut Random, beyond: usize) -> Vec<u32> {
        let mut words = random.row(self.need() + beyond);
        words[..3].copy_from_slice(&[self.offices, self.own, self.plots]);
        words[HELD..VISIBLE].copy_from_slice(&self.held);
        words[VISIBLE..SLOTS].copy_from_slice(&self.visible);
        for (office, serial) in ids(self.held) {
            let entry = self.entry(office, serial);
            let slot = &mut words[SLOTS + SLOT * index(office, serial)..][..SLOT];
            slot[0] = entry.plot;
            slot[1] = entry.value;
            slot[2..10].copy_from_slice(&entry.clock);
            slot[10..].copy_from_slice(&entry.deps);
        }
        words
    }

    pub fn some_held_id(&self, random: &mut Random) -> Option<(u32, u32)> {
        let held: Vec<(u32, u32)> = ids(self.held).collect();
        (!held.is_empty()).then(|| random.pick(&held))
    }

    /// An id of another office that is not held.
    pub fn some_new_id(&self, random: &mut Random) -> Option<(u32, u32)> {
        let new: Vec<(u32, u32)> = (0..self.offices)
            .filter(|&office| office != self.own)
            .flat_map(|office| (1..=32).map(move |serial| (office, serial)))
            .filter(|&(office, serial)| !has(&self.held, office, serial))
            .collect();
        (!new.is_empty()).then(|| random.pick(&new))
    }

    /// An id of this office that it has not made.
    pub fn some_unmade_id(&self, random: &mut Random) -> Option<(u32, u32)> {
        let made = self.held[self.own as usize].count_ones();
        (made < 32).then(|| (self.own, random.between(made + 1, 32)))
    }
}

/// Another number in place of a word: near, at a bound, or any.
pub fn other_word(random: &mut Random, old: u32) -> u32 {
    match random.below(7) {
        0 => old.wrapping_add(1),
        1 => old.wrapping_sub(1),
        2 => old ^ 1 << random.below(32),
        3 => random.pick(&[0, 1, 32, 33, 64, VALUES - 1, VALUES, u32::MAX]),
        4 => random.below(40),
        _ => random.word(),
    }
}

/// Changes one word, more often one that counts.
pub fn damage_store(random: &mut Random, words: &mut [u32]) {
    let at = match random.below(8) {
        0 => random.index(3),
        1 | 2 => 3 + random.index(16),
        _ => random.index(words.len()),
    };
    words[at] = other_word(random, words[at]);
}
