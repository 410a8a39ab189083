//! Self checks of the model's pasts, in rings of three offices.

use super::checks::Check;
use super::codec::Frame;
use super::entry::{insert, Clock, Entry, IdSet};
use super::join::join_sessions;
use super::office::{read_plot, receive, write};
use super::office_checks::{fresh, opened, words_of};
use super::past::{both, clock_covers, Log, EMPTY};
use super::session::Session;

/// A session with its past.
#[derive(Clone, Copy)]
struct Tracked {
    session: Session,
    past: IdSet,
}

struct Ring {
    stores: [Vec<u32>; 3],
    log: Log,
}

fn ring() -> Ring {
    Ring { stores: [0, 1, 2].map(|own| opened(3, own)), log: Log::default() }
}

fn newcomer() -> Tracked {
    Tracked { session: fresh(3), past: EMPTY }
}

fn joined(first: &Tracked, second: &Tracked) -> Tracked {
    let session = join_sessions(3, 64, &first.session, &second.session).unwrap();
    Tracked { session, past: both(&first.past, &second.past) }
}

/// The set of these entries.
fn set<const N: usize>(entries: [Entry; N]) -> IdSet {
    let mut set = IdSet::default();
    entries.iter().for_each(|entry| insert(&mut set, entry.office, entry.serial));
    set
}

fn clock_of([first, second, third]: [u32; 3]) -> Clock {
    [first, second, third, 0, 0, 0, 0, 0]
}

impl Ring {
    fn write(&mut self, writer: &mut Tracked, office: usize, plot: u32) -> Entry {
        write(&mut self.stores[office], &mut writer.session, plot, 7, &mut [0; 99]).unwrap();
        let new = *writer.session.own_entries().last().unwrap();
        self.log.wrote(&mut writer.past, &new);
        new
    }

    fn read(&mut self, reader: &mut Tracked, office: usize, plot: u32) -> Option<Entry> {
        let entry = read_plot(&mut self.stores[office], &mut reader.session, plot).unwrap();
        self.log.read(&mut reader.past, entry.map(|entry| entry.id()));
        entry
    }

    /// Brings an entry to the end of its journey at an office.
    fn show(&mut self, office: usize, entry: Entry) {
        receive(&mut self.stores[office], &words_of(&Frame { offices: 3, hops: 0, entry }), &mut []).unwrap();
    }

    fn writers_past(&self, entry: Entry) -> IdSet {
        self.log.writers_past(entry.id())
    }

    /// Whether a correction's writer knew just this entry, and document 02 (iii) holds of the two.
    fn corrects(&self, correction: Entry, corrected: Entry) -> bool {
        self.writers_past(correction) == set([corrected])
            && correction.outranks(&corrected)
            && clock_covers(&correction, &corrected)
    }
}

fn grows_by_writes() -> bool {
    let (mut ring, mut writer) = (ring(), newcomer());
    let first = ring.write(&mut writer, 0, 5);
    let second = ring.write(&mut writer, 0, 6);
    ring.writers_past(first) == EMPTY
        && ring.writers_past(second) == set([first])
        && writer.past == set([first, second])
        && ring.log.ids().eq([(0, 1), (0, 2)])
}

/// The reader is handed back the second entry alone.
fn reading_adds_the_writers_past() -> bool {
    let (mut ring, mut writer, mut reader) = (ring(), newcomer(), newcomer());
    let (first, second) = (ring.write(&mut writer, 0, 5), ring.write(&mut writer, 0, 6));
    ring.show(2, first);
    ring.show(2, second);
    let handed_back = ring.read(&mut reader, 2, 6);
    handed_back == Some(second) && reader.past == set([first, second])
}

fn each_handed_back_is_added() -> bool {
    let (mut ring, mut past) = (ring(), EMPTY);
    let [first, _, third] = [0, 1, 2].map(|office| ring.write(&mut newcomer(), office, 5));
    ring.log.read(&mut past, [first.id(), third.id()]);
    past == set([first, third])
}

fn none_adds_nothing() -> bool {
    let (mut ring, mut reader) = (ring(), newcomer());
    ring.write(&mut newcomer(), 0, 5);
    ring.read(&mut reader, 0, 5).is_none() && reader.past == EMPTY
}

/// The presented entry is read, and what is written next depends on it; but it was never handed back.
fn own_leaves_out_the_presented() -> bool {
    let (mut ring, mut writer) = (ring(), newcomer());
    let presented = ring.write(&mut newcomer(), 0, 5);
    ring.show(1, presented);
    let own = ring.write(&mut writer, 1, 5);
    let handed_back = ring.read(&mut writer, 1, 5);
    let next = ring.write(&mut writer, 1, 5);
    handed_back == Some(own)
        && writer.session.read == set([presented])
        && next.deps == set([presented, own])
        && ring.writers_past(next) == set([own])
}

fn copies_go_on_by_themselves() -> bool {
    let (mut ring, mut origin) = (ring(), newcomer());
    let first = ring.write(&mut origin, 0, 5);
    let mut copy = origin;
    let (of_origin, of_copy) = (ring.write(&mut origin, 1, 5), ring.write(&mut copy, 2, 5));
    ring.writers_past(of_origin) == set([first])
        && ring.writers_past(of_copy) == set([first])
        && origin.past == set([first, of_origin])
        && copy.past == set([first, of_copy])
}

/// The foreman writes at office 0 and corrects at office 1.
fn own_entry_corrected_elsewhere() -> bool {
    let (mut ring, mut foreman) = (ring(), newcomer());
    let (first, correction) = (ring.write(&mut foreman, 0, 5), ring.write(&mut foreman, 1, 5));
    let clocks = [first.clock, correction.clock] == [clock_of([1, 0, 0]), clock_of([1, 1, 0])];
    ring.corrects(correction, first) && clocks
}

/// He reads at office 2 what is still hidden at office 1, where he corrects it.
fn read_entry_corrected_elsewhere() -> bool {
    let (mut ring, mut foreman) = (ring(), newcomer());
    ring.write(&mut newcomer(), 0, 6);
    let read = ring.write(&mut newcomer(), 0, 5);
    ring.show(2, read);
    ring.read(&mut foreman, 2, 5);
    let words = words_of(&Frame { offices: 3, hops: 1, entry: read });
    receive(&mut ring.stores[1], &words, &mut [0; 7]).unwrap();
    let correction = ring.write(&mut foreman, 1, 5);
    let clocks = [read.clock, correction.clock] == [clock_of([2, 0, 0]), clock_of([2, 1, 0])];
    ring.corrects(correction, read) && clocks
}

/// Two people go on with one session, and each knows one entry more of another office.
fn join_has_both_pasts() -> bool {
    let (mut ring, mut origin) = (ring(), newcomer());
    let first = ring.write(&mut origin, 0, 5);
    let (mut one, mut other) = (origin, origin);
    let (of_one, of_other) = (ring.write(&mut one, 1, 5), ring.write(&mut other, 2, 6));
    let mut two = joined(&one, &other);
    let before = two.past == set([first, of_one, of_other]);
    let read = [5, 6].map(|plot| ring.read(&mut two, 0, plot)) == [Some(of_one), Some(of_other)];
    let new = ring.write(&mut two, 0, 5);
    let later = [first, of_one, of_other].iter().all(|old| new.outranks(old) && clock_covers(&new, old));
    before && read && later && ring.writers_past(new) == set([first, of_one, of_other])
}

/// A clock that outranks may still have a lower number.
fn rank_does_not_cover() -> bool {
    let entry = |numbers| Entry { clock: clock_of(numbers), ..Entry::default() };
    let (high, low) = (entry([2, 0, 1]), entry([1, 1, 1]));
    high.outranks(&low) && !clock_covers(&high, &low) && clock_covers(&high, &high)
}

pub fn past_checks() -> Vec<Check> {
    vec![
        ("model: a past begins empty and grows by writes", grows_by_writes()),
        ("model: a reading adds what it hands back and the writer's past", reading_adds_the_writers_past()),
        ("model: each entry handed back is added", each_handed_back_is_added()),
        ("model: none handed back adds nothing to a past", none_adds_nothing()),
        ("model: an own entry handed back leaves out the presented", own_leaves_out_the_presented()),
        ("model: a copy's past goes on by itself", copies_go_on_by_themselves()),
        ("model: an own entry corrected elsewhere is in the past", own_entry_corrected_elsewhere()),
        ("model: a read entry corrected elsewhere is in the past", read_entry_corrected_elsewhere()),
        ("model: a joined session has both pasts, and goes on from both", join_has_both_pasts()),
        ("model: a rank above is not a clock that covers", rank_does_not_cover()),
    ]
}
