//! A session that is sound for some plots and carries two entries or more, with one rule broken.

use crate::frame_spoils::{at_least, Spoil, OF_ENTRY};
use crate::model::codec::Frame;
use crate::model::entry::{insert, remove};
use crate::model::session::Session;
use crate::random::Random;

/// Breaks a rule, given the plots.
type Apply = fn(&mut Random, &mut Session, u32);

fn spoil_ring(random: &mut Random, session: &mut Session, _: u32) {
    let offices = session.offices;
    session.offices =
        random.pick(&[0, 1, 2 + (offices - 1) % 7, 9, offices + 256, offices + (1 << 31), u32::MAX]);
}

/// A count that is too great, also where only its low bits are in range.
fn spoil_count(random: &mut Random, session: &mut Session, _: u32) {
    let count = session.count;
    session.count =
        random.pick(&[17, 18, 32, 255, count + 256, 1 << 32, count + (1 << 32), 1 << 63, usize::MAX]);
}

fn spoil_clock(random: &mut Random, session: &mut Session, _: u32) {
    session.clock[random.index(session.offices as usize)] = at_least(random, 33);
}

/// Wrong for rings below 8; in a ring of 8 the clock is made too great instead.
fn spoil_unused_clock(random: &mut Random, session: &mut Session, plots: u32) {
    if session.offices == 8 {
        return spoil_clock(random, session, plots);
    }
    session.clock[random.between(session.offices, 7) as usize] = at_least(random, 1);
}

/// Wrong for rings below 8; in a ring of 8 the clock is made too great instead.
fn spoil_read(random: &mut Random, session: &mut Session, plots: u32) {
    if session.offices == 8 {
        return spoil_clock(random, session, plots);
    }
    session.read[random.between(session.offices, 7) as usize] = 1 << random.below(32);
}

/// Two different places among the entries that it carries, the lower one first.
fn two_places(random: &mut Random, session: &Session) -> (usize, usize) {
    let high = 1 + random.index(session.count - 1);
    (random.index(high), high)
}

fn spoil_plot(random: &mut Random, session: &mut Session, plots: u32) {
    session.own[random.index(session.count)].plot = plots;
}

/// The same entry twice.
fn repeat_entry(random: &mut Random, session: &mut Session, _: u32) {
    let (low, high) = two_places(random, session);
    session.own[high] = session.own[low];
}

/// One name twice, with two contents: all entries have values of their own.
fn repeat_name(random: &mut Random, session: &mut Session, plots: u32) {
    repeat_entry(random, session, plots);
    session.own.iter_mut().zip(0..).for_each(|(entry, number)| entry.value = number);
}

/// An entry depends on one that is carried after it and was not read.
fn depend_on_later(random: &mut Random, session: &mut Session, _: u32) {
    let (low, high) = two_places(random, session);
    let later = session.own[high];
    insert(&mut session.own[low].deps, later.office, later.serial);
    remove(&mut session.read, later.office, later.serial);
}

/// An entry depends on one that was not read, and that the session no longer carries.
fn depend_on_unread(random: &mut Random, session: &mut Session, _: u32) {
    session.count -= 1;
    let lost = session.own[session.count];
    insert(&mut session.own[random.index(session.count)].deps, lost.office, lost.serial);
    remove(&mut session.read, lost.office, lost.serial);
}

/// Rules of a session that its entries do not break by themselves.
const OF_SESSION: [(&str, Apply); 10] = [
    ("ring size", spoil_ring),
    ("count", spoil_count),
    ("clock too great", spoil_clock),
    ("clock outside the ring", spoil_unused_clock),
    ("read outside the ring", spoil_read),
    ("plot just outside", spoil_plot),
    ("entry repeated", repeat_entry),
    ("name repeated", repeat_name),
    ("depends on a later one", depend_on_later),
    ("depends on one that was not read", depend_on_unread),
];

fn spoil_entry(random: &mut Random, session: &mut Session, spoil: &Spoil) {
    let own = &mut session.own[random.index(session.count)];
    let mut frame = Frame { offices: session.offices, hops: 0, entry: *own };
    (spoil.apply)(random, &mut frame);
    *own = frame.entry;
}

/// The session with each of the rules broken, by its name.
pub fn spoilt(random: &mut Random, session: &Session, plots: u32) -> Vec<(String, Session)> {
    let mut all = vec![];
    for (name, apply) in OF_SESSION {
        let mut spoilt = *session;
        apply(random, &mut spoilt, plots);
        all.push((name.to_string(), spoilt));
    }
    for spoil in OF_ENTRY {
        let mut spoilt = *session;
        spoil_entry(random, &mut spoilt, spoil);
        all.push((format!("own write, {}", spoil.name), spoilt));
    }
    all
}
