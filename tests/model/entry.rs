//! Entries, sets of ids and rank.

/// Clocks and sets have a place for each office that the largest ring can have.
pub const PLACES: usize = 8;
pub const SERIALS: u32 = 32;
pub const MOST_PLOTS: u32 = 64;
pub const VALUES: u32 = 1 << 28;

pub type Clock = [u32; PLACES];

/// A set of ids (document 01: names): id (office, serial) is bit serial - 1 of word office.
pub type IdSet = [u32; PLACES];

#[repr(C)]
#[derive(Clone, Copy, Debug, Default, PartialEq, Eq)]
pub struct Entry {
    pub office: u32,
    pub serial: u32,
    pub plot: u32,
    pub value: u32,
    pub clock: Clock,
    pub deps: IdSet,
}

pub fn ring_in_range(offices: u32) -> bool {
    (2..=PLACES as u32).contains(&offices)
}

pub fn settings_in_range(offices: u32, plots: u32) -> bool {
    ring_in_range(offices) && (1..=MOST_PLOTS).contains(&plots)
}

pub fn clock_in_range(clock: &Clock, offices: u32) -> bool {
    let (used, unused) = clock.split_at(offices as usize);
    used.iter().all(|&n| n <= SERIALS) && unused.iter().all(|&n| n == 0)
}

/// Every serial has a bit, so a set can only be out of range in the words of offices outside the ring.
pub fn set_in_range(set: &IdSet, offices: u32) -> bool {
    set[offices as usize..].iter().all(|&word| word == 0)
}

fn bit(serial: u32) -> u32 {
    1 << (serial - 1)
}

pub fn has(set: &IdSet, office: u32, serial: u32) -> bool {
    set[office as usize] & bit(serial) != 0
}

pub fn insert(set: &mut IdSet, office: u32, serial: u32) {
    set[office as usize] |= bit(serial);
}

pub fn remove(set: &mut IdSet, office: u32, serial: u32) {
    set[office as usize] &= !bit(serial);
}

pub fn count(set: &IdSet) -> usize {
    set.iter().map(|word| word.count_ones() as usize).sum()
}

pub fn is_subset(small: &IdSet, large: &IdSet) -> bool {
    small.iter().zip(large).all(|(s, l)| s & !l == 0)
}

pub fn union(a: &IdSet, b: &IdSet) -> IdSet {
    std::array::from_fn(|office| a[office] | b[office])
}

/// The number that stands for an id in words.
pub fn id_payload(office: u32, serial: u32) -> u32 {
    256 * office + serial
}

/// The ids of a set, lowest payload first.
pub fn ids(set: IdSet) -> impl Iterator<Item = (u32, u32)> {
    (0..PLACES as u32)
        .filter(move |&office| set[office as usize] != 0)
        .flat_map(|office| (1..=SERIALS).map(move |serial| (office, serial)))
        .filter(move |&(office, serial)| has(&set, office, serial))
}

/// Place by place the greater.
pub fn join(a: &Clock, b: &Clock) -> Clock {
    std::array::from_fn(|place| a[place].max(b[place]))
}

impl Entry {
    /// The rules that every entry of a ring with these settings keeps.
    pub fn keeps_rules(&self, offices: u32, plots: u32) -> bool {
        self.office < offices
            && (1..=SERIALS).contains(&self.serial)
            && self.plot < plots
            && self.value < VALUES
            && clock_in_range(&self.clock, offices)
            && self.clock[self.office as usize] == self.serial
            && set_in_range(&self.deps, offices)
            && !has(&self.deps, self.office, self.serial)
    }

    pub fn outranks(&self, other: &Entry) -> bool {
        (self.clock, self.office) > (other.clock, other.office)
    }

    pub fn id(&self) -> (u32, u32) {
        (self.office, self.serial)
    }

    pub fn payload(&self) -> u32 {
        id_payload(self.office, self.serial)
    }
}
