//! Pairs of sessions to join: sound ones of which each carries so many entries, some of them in common, and
//! ones that carry an entry with two contents.

use crate::frame_cases::some_clock;
use crate::joined::Given;
use crate::model::entry::{has, ids, insert, remove, union, Entry, IdSet, SERIALS};
use crate::model::session::Session;
use crate::random::Random;
use crate::session_cases::{random_session, some_new_entry};
use crate::store_cases::{some_of, Content};

/// How many entries only the first carries, both do, and only the second.
#[derive(Clone, Copy)]
pub struct Shares {
    first: usize,
    both: usize,
    second: usize,
}

impl Shares {
    pub const fn of(first: usize, both: usize, second: usize) -> Shares {
        Shares { first, both, second }
    }

    /// So that each carries at most 16, and together often just 16 or a few more.
    pub fn some(random: &mut Random) -> Shares {
        let first = random.index(17);
        let both = random.pick(&[0, first / 2, first]);
        let room = 16 - first;
        let second = random.pick(&[0, 1, room, room + 1, 16]).min(16 - both);
        Shares::of(first - both, both, second)
    }

    pub fn carried(&self) -> usize {
        self.first + self.both + self.second
    }
}

fn shuffled<T>(random: &mut Random, mut list: Vec<T>) -> Vec<T> {
    for at in (1..list.len()).rev() {
        list.swap(at, random.index(at + 1));
    }
    list
}

fn all_ids(offices: u32) -> IdSet {
    std::array::from_fn(|office| if office < offices as usize { u32::MAX } else { 0 })
}

/// Entries of distinct ids; each depends on some of those before it, and perhaps on others.
fn entries(random: &mut Random, content: &Content, count: usize) -> Vec<Entry> {
    let all = all_ids(content.offices);
    let ids = shuffled(random, ids(all).collect());
    let mut earlier = IdSet::default();
    let entry = |&id: &(u32, u32)| {
        let chance = random.pick(&[0, 0, 0, 1]);
        let deps = union(&some_of(random, &earlier, 8), &some_of(random, &all, chance));
        insert(&mut earlier, id.0, id.1);
        some_new_entry(random, content, id, deps)
    };
    ids[..count].iter().map(entry).collect()
}

/// A session that carries these, and has read what each depends on and what does not stand before it. Places
/// beyond its count have any words.
fn carrying(random: &mut Random, content: &Content, own: &[Entry]) -> Session {
    let chance = random.pick(&[0, 0, 1, 8]);
    let mut session = Session {
        offices: content.offices,
        clock: some_clock(random, content.offices),
        read: some_of(random, &all_ids(content.offices), chance),
        count: own.len(),
        ..random_session(random)
    };
    let mut earlier = IdSet::default();
    for (place, entry) in session.own.iter_mut().zip(own) {
        *place = *entry;
        let unknown = std::array::from_fn(|office| entry.deps[office] & !earlier[office]);
        session.read = union(&session.read, &unknown);
        insert(&mut earlier, entry.office, entry.serial);
    }
    session
}

/// A sound pair: the entries that both carry are the same, in any order.
pub fn sound_pair(random: &mut Random, shares: Shares) -> Given {
    let content = Content::sound(random);
    let entries = entries(random, &content, shares.carried());
    let (first, second) = (&entries[..shares.first + shares.both], &entries[shares.first..]);
    let [first, second] = [first, second].map(|own| {
        let own = if random.one_in(2) { own.to_vec() } else { shuffled(random, own.to_vec()) };
        carrying(random, &content, &own)
    });
    let given = Given { offices: content.offices, plots: content.plots, first, second };
    if random.one_in(2) {
        given
    } else {
        given.swapped()
    }
}

/// The parts of an entry that its name does not settle.
#[derive(Clone, Copy)]
pub enum Part {
    Plot,
    Value,
    Clock(usize),
    Deps,
}

/// Each part, and each place of the clock.
pub const PARTS: [(&str, Part); 11] = [
    ("plot", Part::Plot),
    ("value", Part::Value),
    ("clock, place 0", Part::Clock(0)),
    ("clock, place 1", Part::Clock(1)),
    ("clock, place 2", Part::Clock(2)),
    ("clock, place 3", Part::Clock(3)),
    ("clock, place 4", Part::Clock(4)),
    ("clock, place 5", Part::Clock(5)),
    ("clock, place 6", Part::Clock(6)),
    ("clock, place 7", Part::Clock(7)),
    ("dependencies", Part::Deps),
];

/// Another number below a bound, which is above 1.
fn other(random: &mut Random, number: u32, bound: u32) -> u32 {
    (number + random.between(1, bound - 1)) % bound
}

/// Another dependency, or one less; not the entry itself.
fn other_deps(random: &mut Random, entry: &mut Entry, offices: u32) {
    let mut others = all_ids(offices);
    remove(&mut others, entry.office, entry.serial);
    let others: Vec<(u32, u32)> = ids(others).collect();
    let (office, serial) = random.pick(&others);
    entry.deps[office as usize] ^= 1 << (serial - 1);
}

/// Changes one part of an entry, which keeps the rules; says whether it could.
fn change(random: &mut Random, part: Part, entry: &mut Entry, (offices, plots): (u32, u32)) -> bool {
    match part {
        Part::Plot if plots > 1 => entry.plot = other(random, entry.plot, plots),
        Part::Value => entry.value ^= 1 << random.below(28),
        Part::Clock(place) if place < offices as usize && place != entry.office as usize => {
            entry.clock[place] = other(random, entry.clock[place], SERIALS + 1)
        }
        Part::Deps => other_deps(random, entry, offices),
        _ => return false,
    }
    true
}

/// Gives the second another content, in this part, of an entry that the first carries too; says whether it
/// could. Both stay sound.
pub fn two_contents(random: &mut Random, part: Part, given: &mut Given) -> bool {
    let (settings, among) = ((given.offices, given.plots), given.first.own_ids());
    let second = &mut given.second;
    let own = second.own[..second.count].iter_mut();
    let mut shared: Vec<&mut Entry> = own.filter(|entry| has(&among, entry.office, entry.serial)).collect();
    if shared.is_empty() {
        return false;
    }
    let entry = shared.swap_remove(random.index(shared.len()));
    let changed = change(random, part, entry, settings);
    second.read = union(&second.read, &entry.deps);
    changed
}
