//! Sessions to test with, for a given store: sound ones, and ones with one field changed.
#![allow(dead_code)]

use crate::frame_cases::some_clock;
use crate::model::entry::{has, insert, union, Entry, IdSet, VALUES};
use crate::model::session::Session;
use crate::random::Random;
use crate::store_cases::{other_word, some_chance, some_of, Content};

/// What the own entries of a session may be.
#[derive(Clone, Copy)]
struct Kinds {
    unmade: bool,
    different: bool,
}

fn some_id(random: &mut Random, content: &Content, kinds: Kinds) -> Option<(u32, u32)> {
    match random.below(8) {
        0 if kinds.unmade => content.some_unmade_id(random),
        1..=4 => content.some_held_id(random),
        _ => content.some_new_id(random),
    }
}

pub fn some_new_entry(
    random: &mut Random,
    content: &Content,
    (office, serial): (u32, u32),
    deps: IdSet,
) -> Entry {
    let mut clock = some_clock(random, content.offices);
    clock[office as usize] = serial;
    let mut entry =
        Entry { office, serial, plot: random.below(content.plots), value: random.below(VALUES), clock, deps };
    entry.deps[office as usize] &= !(1 << (serial - 1));
    entry
}

/// The held entry with one part changed; with the same clock it ties in rank.
pub fn different_entry(random: &mut Random, content: &Content, held: Entry) -> Entry {
    let mut entry = held;
    match random.below(4) {
        0 => entry.value ^= 1,
        1 => entry.plot = (entry.plot + 1) % content.plots,
        2 => {
            let place = random.below(content.offices) as usize;
            if place != entry.office as usize {
                entry.clock[place] = (entry.clock[place] + 1) % 33;
            }
        }
        _ => entry.deps = some_of(random, &held.deps, 8),
    }
    entry
}

fn random_entry(random: &mut Random) -> Entry {
    let [office, serial, plot, value] = random.words();
    Entry { office, serial, plot, value, clock: random.words(), deps: random.words() }
}

/// Places beyond the count have any words: they must stay.
pub fn random_session(random: &mut Random) -> Session {
    Session {
        offices: random.word(),
        clock: random.words(),
        read: random.words(),
        count: if random.one_in(2) { random.index(17) } else { random.word() as usize },
        own: std::array::from_fn(|_| random_entry(random)),
    }
}

/// The session with nothing in the places beyond its count.
pub fn zeros_beyond(session: &Session) -> Session {
    let mut session = *session;
    session.own[session.count..].fill(Entry::default());
    session
}

fn some_own(random: &mut Random, content: &Content, session: &mut Session, kinds: Kinds) {
    let earlier = session.own_ids();
    let allowed = union(&session.read, &earlier);
    let Some((office, serial)) = some_id(random, content, kinds) else { return };
    if has(&earlier, office, serial) {
        return;
    }
    let entry = if has(&content.held, office, serial) {
        let held = content.entry(office, serial);
        let entry = if kinds.different { different_entry(random, content, held) } else { held };
        // Held entries depend on held ids, which may well have been read.
        session.read = union(&session.read, &entry.deps);
        entry
    } else {
        let chance = some_chance(random);
        let deps = some_of(random, &allowed, chance);
        some_new_entry(random, content, (office, serial), deps)
    };
    session.own[session.count] = entry;
    session.count += 1;
}

/// Sound for the store's settings; whether the office takes its entries is another matter.
pub fn sound_session(random: &mut Random, content: &Content) -> Session {
    let mut session = random_session(random);
    session.offices = content.offices;
    session.clock = some_clock(random, content.offices);
    let chance = random.pick(&[0, 0, 1, 2, 8]);
    session.read = some_of(random, &content.held, chance);
    if random.one_in(8) {
        if let Some((office, serial)) = content.some_new_id(random) {
            insert(&mut session.read, office, serial);
        }
    }
    session.count = 0;
    let kinds = Kinds { unmade: random.one_in(4), different: random.one_in(4) };
    let tries = random.pick(&[0, 0, 1, 2, 3, 6, 15, 40]);
    for _ in 0..tries {
        if session.count < 16 {
            some_own(random, content, &mut session, kinds);
        }
    }
    session
}

fn damage_entry(random: &mut Random, entry: &mut Entry) {
    let place = random.index(8);
    let field = match random.below(6) {
        0 => &mut entry.office,
        1 => &mut entry.serial,
        2 => &mut entry.plot,
        3 => &mut entry.value,
        4 => &mut entry.clock[place],
        _ => &mut entry.deps[place],
    };
    *field = other_word(random, *field);
}

/// A count that is too great, also where only its low bits are in range.
fn other_count(random: &mut Random, count: usize) -> usize {
    random.pick(&[17, 18, 255, 1 << 32, count + (1 << 32), usize::MAX, count + 1, count.saturating_sub(1)])
}

pub fn damage_session(random: &mut Random, session: &mut Session) {
    let place = random.index(8);
    match random.below(7) {
        0 => session.offices = other_word(random, session.offices),
        1 => session.clock[place] = other_word(random, session.clock[place]),
        2 => session.read[place] = other_word(random, session.read[place]),
        3 => session.count = other_count(random, session.count),
        4 if session.count >= 2 => session.own.swap(random.index(session.count), random.index(session.count)),
        5 if session.count >= 2 => {
            session.own[random.index(session.count)] = session.own[random.index(session.count)]
        }
        _ => {
            let at = random.index(session.count.clamp(1, 16));
            damage_entry(random, &mut session.own[at]);
        }
    }
}
