//! Document 02 (iii): "an entry outranks every entry in its writer's past, on every plot, and each number of
//! its clock is at least the corresponding one there." The pasts are the model's, the entries the archive's.

use crate::model::codec::read_frame;
use crate::model::entry::{has, ids, insert, is_subset, Entry, IdSet, MOST_PLOTS};
use crate::model::past::{clock_covers, Log, EMPTY};
use crate::model::session::{fresh_session, Session};
use crate::model::store::Store;
use crate::report::Report;
use crate::twin::Twin;

/// The two parts, of an entry and one of its writer's past, or one that its office shows as it is written.
pub const PAST: [&str; 2] = ["outranks its writer's past", "no clock number below its writer's past"];
pub const VISIBLE: [&str; 2] =
    ["outranks what its office shows", "no clock number below what its office shows"];

/// By ring size, from 2: an entry whose writer had a past.
pub const RINGS: [&str; 7] = [
    "later in a ring of 2",
    "later in a ring of 3",
    "later in a ring of 4",
    "later in a ring of 5",
    "later in a ring of 6",
    "later in a ring of 7",
    "later in a ring of 8",
];
pub const CORRECTED: &str = "corrected at another office";
/// The writer had a past when it was copied.
pub const BY_COPY: &str = "later by a copy";
pub const BY_TOKEN: &str = "later by a copy through a token";
/// The writer was joined of two of which each knew something that the other did not.
pub const BY_JOIN: &str = "later by a joined session";

/// The held or the visible entries of a store; none of one that is not sound, as the comparison will tell.
fn entries(store: &[u32], set: fn(&Store) -> IdSet) -> Vec<Entry> {
    let mut words = store.to_vec();
    let Some(store) = Store::sound(&mut words) else { return vec![] };
    ids(set(&store)).map(|(office, serial)| store.entry(office, serial)).collect()
}

/// The entry that a write has made: last of its session's, in the last frame that was sent, and in the store.
pub fn new_entry(report: &mut Report, session: &Session, frame: &[u32], store: &[u32]) -> Option<Entry> {
    let new = *session.own_entries().last()?;
    let sent = read_frame(frame, session.offices, MOST_PLOTS).map(|frame| frame.entry);
    let held = entries(store, |store| store.held()).contains(&new);
    report.check("write: same in session, frame and store", sent == Ok(new) && held, || {
        format!("{new:?}\n  sent {sent:?}\n  held {held}")
    });
    Some(new)
}

/// Both parts, of two entries; whether they hold.
fn is_later(report: &mut Report, of: &str, parts: [&str; 2], entry: &Entry, earlier: &Entry) -> bool {
    let holds = [entry.outranks(earlier), clock_covers(entry, earlier)];
    for (part, holds) in parts.iter().zip(holds) {
        report.check(&format!("{of}: {part}"), holds, || format!("{entry:?}\n  after {earlier:?}"));
    }
    holds == [true; 2]
}

fn is_later_than_past<'a>(
    report: &mut Report,
    of: &str,
    entry: &Entry,
    past: impl Iterator<Item = &'a Entry>,
) -> bool {
    past.fold(true, |holds, earlier| is_later(report, of, PAST, entry, earlier) && holds)
}

/// A new entry and what is visible in the store that the write left: a write shows nothing.
pub fn over_visible(report: &mut Report, new: &Entry, store: &[u32]) {
    for earlier in entries(store, |store| store.visible()) {
        is_later(report, "write", VISIBLE, new, &earlier);
    }
}

/// A new entry and its writer's past; where that is not empty, also which kinds of writes it is one of.
pub fn made(report: &mut Report, log: &Log, new: &Entry, offices: u32, origin: Option<&str>) {
    let past = log.writers_past(new.id());
    if past == EMPTY {
        return;
    }
    let holds = is_later_than_past(report, "write", new, log.entries(past));
    let corrects = log.entries(past).any(|entry| entry.plot == new.plot && entry.office != new.office);
    let kinds = [Some(RINGS[offices as usize - 2]), corrects.then_some(CORRECTED), origin];
    for kind in kinds.into_iter().flatten() {
        report.check(&format!("write: {kind}"), holds, || format!("{new:?}"));
    }
}

/// Each entry that some store holds; where two stores hold the same words, once.
fn held_anywhere(stores: &[Vec<u32>]) -> Vec<Entry> {
    let held = stores.iter().flat_map(|store| entries(store, |store| store.held()));
    held.fold(vec![], |mut distinct, entry| {
        if !distinct.contains(&entry) {
            distinct.push(entry);
        }
        distinct
    })
}

/// Whichever offices hold the two.
fn in_stores(report: &mut Report, log: &Log, stores: &[Vec<u32>]) {
    let held = held_anywhere(stores);
    for entry in &held {
        let past = log.writers_past(entry.id());
        let earlier = held.iter().filter(|earlier| has(&past, earlier.office, earlier.serial));
        is_later_than_past(report, "stores", entry, earlier);
    }
}

/// Who has read nothing and reads a plot is handed back what is visible there or what outranks it.
fn to_fresh_readers(twin: &mut Twin, log: &Log, store: &[u32], offices: u32) {
    for visible in entries(store, |store| store.visible()) {
        let mut reader = fresh_session(offices).unwrap();
        let read = twin.read_plot(&mut store.to_vec(), &mut reader, visible.plot).ok().flatten();
        let say = || format!("{read:?}\n  where {visible:?} is visible");
        let above = read.is_some_and(|read| read == visible || read.outranks(&visible));
        twin.report.check("read_plot: visible or above", above, say);
        let past = log.writers_past(visible.id());
        if log.entries(past).any(|earlier| earlier.plot == visible.plot) {
            let corrected = read.is_some_and(|read| has(&past, read.office, read.serial));
            twin.report.check("read_plot: never what was corrected", !corrected, say);
        }
    }
}

/// Takes away entries, each once its writer's past is gone; in a chain that comes back none can be the first.
/// Rank does not come in.
fn some_chain_comes_back(log: &Log) -> bool {
    let mut left: Vec<(u32, u32)> = log.ids().collect();
    let mut gone = EMPTY;
    while let Some(at) = left.iter().position(|&id| is_subset(&log.writers_past(id), &gone)) {
        let (office, serial) = left.swap_remove(at);
        insert(&mut gone, office, serial);
    }
    !left.is_empty()
}

/// What holds of all that a run leaves.
pub fn at_end(twin: &mut Twin, log: &Log, stores: &[Vec<u32>]) {
    in_stores(&mut twin.report, log, stores);
    stores.iter().for_each(|store| to_fresh_readers(twin, log, store, stores.len() as u32));
    twin.report.check("pasts: no chain comes back", !some_chain_comes_back(log), || {
        format!("{:?}", log.ids().map(|id| (id, log.writers_past(id))).collect::<Vec<_>>())
    });
}
