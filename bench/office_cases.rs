//! Stores, sessions, frames and tokens to time calls on: an empty ring, a full one, and some between.
// Several programs share this file, and not each uses all of it.
#![allow(dead_code)]

use crate::model::codec::{write_frame, Frame};
use crate::model::entry::{ids, insert, Clock, Entry, IdSet, SERIALS};
use crate::model::office::{open_office, read_joint, store_need};
use crate::model::session::{fresh_session, Session};
use crate::model::store::Store;
use crate::model::token::{token_words, write_token};

/// The office that is timed. It is the last to hear office 1, and the first to hear the last office.
pub const OWN: u32 = 0;
const PLOTS: u32 = 64;
const CARRIED: usize = 15;

/// What a timed call is lent.
#[derive(Clone, PartialEq)]
pub struct Lent {
    pub store: Vec<u32>,
    pub session: Session,
    pub row: Vec<u32>,
}

/// What a call needs besides.
pub struct Case {
    pub offices: u32,
    pub lent: Lent,
    /// What the session is joined with.
    pub other: Session,
    pub frame: Vec<u32>,
    pub token: Vec<u32>,
}

/// All ids of a ring but one.
fn all_but(offices: u32, spare: Option<(u32, u32)>) -> IdSet {
    let mut set = IdSet::default();
    let all = (0..offices).flat_map(|office| (1..=SERIALS).map(move |serial| (office, serial)));
    for (office, serial) in all.filter(|&id| Some(id) != spare) {
        insert(&mut set, office, serial);
    }
    set
}

/// The offices take turns: before (office, serial) come the lower serials, and the same of lower offices.
fn before((office, serial): (u32, u32), id: (u32, u32)) -> bool {
    (id.1, id.0) < (serial, office)
}

/// Depends on each id of the set that comes before it.
fn entry(offices: u32, (office, serial): (u32, u32), set: &IdSet) -> Entry {
    let mut clock = Clock::default();
    let mut deps = IdSet::default();
    for place in 0..offices {
        clock[place as usize] = if place <= office { serial } else { serial - 1 };
    }
    for (o, s) in ids(*set).filter(|&id| before((office, serial), id)) {
        insert(&mut deps, o, s);
    }
    let plot = (offices * (serial - 1) + office) % PLOTS;
    Entry { office, serial, plot, value: 1_000 * office + serial, clock, deps }
}

fn opened(offices: u32) -> Vec<u32> {
    let mut store = vec![0; store_need(offices, OWN, PLOTS).unwrap()];
    open_office(offices, OWN, PLOTS, &mut store).unwrap();
    store
}

/// Holds and shows the ids of the set.
fn filled(offices: u32, set: &IdSet) -> Vec<u32> {
    let mut words = opened(offices);
    let mut store = Store::sound(&mut words).unwrap();
    for id in ids(*set) {
        store.hold(&entry(offices, id, set));
    }
    store.show(set);
    assert!(Store::sound(&mut words).is_some());
    words
}

/// The ids of a set in the order of the turns.
fn in_turns(set: &IdSet) -> Vec<(u32, u32)> {
    let mut order: Vec<(u32, u32)> = ids(*set).collect();
    order.sort_by_key(|&(office, serial)| (serial, office));
    order
}

/// Has read the whole set and carries these entries of it.
fn carrying(offices: u32, set: &IdSet, own: &[(u32, u32)]) -> Session {
    let mut session = fresh_session(offices).unwrap();
    session.read = *set;
    session.clock[..offices as usize].fill(SERIALS);
    for &id in own {
        session.own[session.count] = entry(offices, id, set);
        session.count += 1;
    }
    assert!(session.is_sound(offices, PLOTS));
    session
}

/// Has read the whole set and carries the last entries of it, so many or as far as there are any.
fn full_session(offices: u32, set: &IdSet, carried: usize) -> Session {
    let order = in_turns(set);
    carrying(offices, set, &order[order.len().saturating_sub(carried)..])
}

fn frame_words(frame: &Frame) -> Vec<u32> {
    let mut words = vec![0; frame.words()];
    write_frame(frame, &mut words).unwrap();
    words
}

fn token_of(session: &Session) -> Vec<u32> {
    let mut words = vec![0; token_words(session)];
    write_token(session, &mut words).unwrap();
    words
}

/// An office that holds nothing, a fresh session, and the first frame of office `from`.
pub fn empty(offices: u32, from: u32, hops: u32) -> Case {
    let session = fresh_session(offices).unwrap();
    let first = entry(offices, (from, 1), &IdSet::default());
    let lent = Lent { store: opened(offices), session, row: vec![0; 5_000] };
    let frame = frame_words(&Frame { offices, hops, entry: first });
    Case { offices, lent, other: session, frame, token: token_of(&session) }
}

/// All that a ring can hold, but for the spare id, which the call brings; the frame is the spare's.
pub fn full(offices: u32, spare: Option<(u32, u32)>, hops: u32) -> Case {
    holding(offices, &all_but(offices, spare), spare, hops)
}

fn holding(offices: u32, set: &IdSet, spare: Option<(u32, u32)>, hops: u32) -> Case {
    let session = full_session(offices, set, CARRIED);
    let lent = Lent { store: filled(offices, set), session, row: vec![0; 5_000] };
    let last = Entry {
        deps: spare.map_or(IdSet::default(), |_| *set),
        ..entry(offices, spare.unwrap_or((0, 1)), set)
    };
    let frame = frame_words(&Frame { offices, hops, entry: last });
    Case { offices, lent, other: session, frame, token: token_of(&session) }
}

/// The first ids that the offices make in turns. Where a call brings one more, it is the next of `from`;
/// where all would be held, that one is missing.
pub fn partly(offices: u32, held: u32, from: Option<u32>, hops: u32) -> Case {
    let mut set = IdSet::default();
    (0..held).for_each(|turn| insert(&mut set, turn % offices, turn / offices + 1));
    let spare = from.map(|office| {
        let serial = (set[office as usize].count_ones() + 1).min(SERIALS);
        set[office as usize] &= !(1 << (serial - 1));
        (office, serial)
    });
    holding(offices, &set, spare, hops)
}

/// The ids of the other offices, in turns.
fn of_others(offices: u32) -> Vec<(u32, u32)> {
    let mut order = in_turns(&all_but(offices, None));
    order.retain(|&(office, _)| office != OWN);
    order
}

fn hands_back_own(lent: &Lent, plots: &[u32]) -> bool {
    let (mut lent, own) = (lent.clone(), lent.session.own_entries());
    let own = &own[own.len() - plots.len()..];
    read_joint(&mut lent.store, &mut lent.session, plots, &mut lent.row).unwrap();
    own.iter().zip(lent.row.chunks_exact(3)).all(|(entry, words)| words == [1, entry.value, entry.payload()])
}

/// An office with the set, and a session that carries new entries besides, one on each of these plots.
fn with_own(offices: u32, set: &IdSet, new: &[(u32, u32)], plots: &[u32]) -> Case {
    let mut session = full_session(offices, set, CARRIED - plots.len());
    let mut known = *set;
    for (&(office, serial), &plot) in new.iter().zip(plots) {
        session.own[session.count] = Entry { plot, ..entry(offices, (office, serial), &known) };
        session.count += 1;
        insert(&mut known, office, serial);
    }
    let lent = Lent { store: filled(offices, set), session, row: vec![0; 5_000] };
    assert!(hands_back_own(&lent, plots));
    Case { offices, lent, other: session, frame: vec![], token: token_of(&session) }
}

/// An office that holds nothing, and the first entries of the others.
pub fn own_at_empty(offices: u32, plots: &[u32]) -> Case {
    with_own(offices, &IdSet::default(), &of_others(offices)[..plots.len()], plots)
}

/// All that a ring can hold but for the last entries of the others, which are new.
pub fn own_at_full(offices: u32, plots: &[u32]) -> Case {
    let others = of_others(offices);
    let new = &others[others.len() - plots.len()..];
    let mut set = all_but(offices, None);
    for &(office, serial) in new {
        set[office as usize] &= !(1 << (serial - 1));
    }
    with_own(offices, &set, new, plots)
}

/// Pairs to join, by what the two carry: nothing, 8 entries each and none in common, or 16 that are the same.
pub fn joins(offices: u32) -> [(&'static str, Case); 3] {
    let set = all_but(offices, None);
    let order = in_turns(&set);
    let own = &order[order.len() - 16..];
    let pairs = [("none", [&own[..0]; 2]), ("8+8", [&own[..8], &own[8..]]), ("same", [own; 2])];
    pairs.map(|(carried, pair)| {
        let [session, other] = pair.map(|own| carrying(offices, &set, own));
        let lent = Lent { store: vec![], session, row: vec![] };
        (carried, Case { offices, lent, other, frame: vec![], token: vec![] })
    })
}
