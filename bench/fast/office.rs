//! The calls of one office. Each refuses before it changes anything.

use super::entry::{bit_of, payload, rank, refuse_if, settings_ok};
use super::frame::{length, put_frame, put_onward, read_words};
use super::places::{join, within, Places};
use super::session;
use super::store::{self, sound, Held, Store};
use crate::model::entry::{Entry, SERIALS, VALUES};
use crate::model::refusal;
use crate::model::session::{Session, CARRIED};

const JOINT: usize = 16;

pub fn store_need(offices: u32, own: u32, plots: u32) -> Result<usize, u32> {
    refuse_if(!settings_ok(offices, plots) || own >= offices, refusal::SETTINGS)?;
    Ok(store::need(offices))
}

/// Ring size, own number and plots. It changes nothing; what asks whether a store is sound takes it so.
pub fn store_settings(words: &mut [u32]) -> Result<[u32; 3], u32> {
    let store = sound(words).ok_or(refusal::STORE)?;
    Ok([store.offices, store.own, store.plots])
}

pub fn open_office(offices: u32, own: u32, plots: u32, words: &mut [u32]) -> Result<(), u32> {
    refuse_if(words.len() < store_need(offices, own, plots)?, refusal::STORE)?;
    store::open(words, offices, own, plots);
    Ok(())
}

/// Adds the current entry of a plot to a session's read ids and clock.
fn take(read: &mut Places, clock: &mut Places, current: &Held) {
    read[(current.office & 7) as usize] |= bit_of(current.serial);
    join(clock, current.clock());
}

/// The highest own entry on a plot, if it stands above the current one.
fn own_above<'a>(own: &'a [Entry], plot: u32, current: Option<Held>) -> Option<&'a Entry> {
    let highest = own.iter().filter(|entry| entry.plot == plot).max_by_key(|entry| rank(entry))?;
    current.is_none_or(|held| rank(highest) > held.rank()).then_some(highest)
}

pub fn read_plot(words: &mut [u32], session: &mut Session, plot: u32) -> Result<Option<Entry>, u32> {
    let store = sound(words).ok_or(refusal::STORE)?;
    let (own, _) = session::sound(session, store.offices, store.plots).ok_or(refusal::CONTENT)?;
    refuse_if(plot >= store.plots, refusal::PLOT)?;
    refuse_if(!within(&session.read, store.held), refusal::MISSING)?;
    *store.visible = store.brought_out(&session.read);
    let current = store.current(store.visible, plot);
    let reply = own_above(own, plot, current).copied().or_else(|| current.map(|held| held.entry()));
    if let Some(held) = &current {
        take(&mut session.read, &mut session.clock, held);
    }
    Ok(reply)
}

pub fn read_joint(
    words: &mut [u32],
    session: &mut Session,
    plots: &[u32],
    answer: &mut [u32],
) -> Result<(), u32> {
    let store = sound(words).ok_or(refusal::STORE)?;
    let (own, _) = session::sound(session, store.offices, store.plots).ok_or(refusal::CONTENT)?;
    refuse_if(plots.len() > JOINT || plots.iter().any(|&plot| plot >= store.plots), refusal::PLOT)?;
    refuse_if(answer.len() < 3 * plots.len(), refusal::ROOM)?;
    refuse_if(!within(&session.read, store.held), refusal::MISSING)?;
    *store.visible = store.brought_out(&session.read);
    // Read ids and clock grow aside, since the own entries are looked at until the end.
    let (mut read, mut clock) = (session.read, session.clock);
    for (&plot, words) in plots.iter().zip(answer.as_chunks_mut().0) {
        let current = store.current(store.visible, plot);
        *words = [0; 3];
        if let Some(held) = &current {
            *words = [1, held.value(), payload(held.office, held.serial)];
            take(&mut read, &mut clock, held);
        }
        if let Some(entry) = own_above(own, plot, current) {
            *words = [1, entry.value, payload(entry.office, entry.serial)];
        }
    }
    (session.read, session.clock) = (read, clock);
    Ok(())
}

/// Refuses an entry that names this office and was not made here, or is held with other content.
fn meet(store: &Store, entry: &Entry) -> Result<(), u32> {
    let held = store.holds(entry);
    refuse_if(!held && entry.office == store.own, refusal::UNMADE)?;
    refuse_if(held && store.differs(entry), refusal::DIFFERENT)
}

/// The entry that a write makes: `known` are the ids read and those of the session's own entries.
fn new_entry(store: &Store, session: &Session, known: Places, plot: u32, value: u32) -> Entry {
    let (office, serial) = (store.own, store.made() + 1);
    let mut clock = store.clock();
    join(&mut clock, &session.clock);
    clock[(office & 7) as usize] = serial;
    Entry { office, serial, plot, value, clock, deps: known }
}

pub fn write(
    words: &mut [u32],
    session: &mut Session,
    plot: u32,
    value: u32,
    out: &mut [u32],
) -> Result<usize, u32> {
    let mut store = sound(words).ok_or(refusal::STORE)?;
    let offices = store.offices;
    let (own, known) = session::sound(session, offices, store.plots).ok_or(refusal::CONTENT)?;
    refuse_if(plot >= store.plots, refusal::PLOT)?;
    refuse_if(value >= VALUES, refusal::VALUE)?;
    refuse_if(own.len() == CARRIED, refusal::SESSION_FULL)?;
    refuse_if(store.made() == SERIALS, refusal::OFFICE_FULL)?;
    refuse_if(!within(&session.read, store.held), refusal::MISSING)?;
    own.iter().try_for_each(|entry| meet(&store, entry))?;
    let new = new_entry(&store, session, known, plot, value);
    let sent = own.iter().filter(|entry| !store.holds(entry)).chain([&new]);
    let need: usize = sent.map(|entry| length(entry, offices)).sum();
    refuse_if(out.len() < need, refusal::ROOM)?;
    let mut len = 0;
    for entry in own.iter().chain([&new]) {
        if !store.holds(entry) {
            store.hold(entry);
            len += put_frame(&mut out[len..], entry, offices, offices - 2);
        }
    }
    join(&mut session.clock, &new.clock);
    session.own[session.count] = new;
    session.count += 1;
    Ok(len)
}

pub fn receive(words: &mut [u32], frame: &[u32], out: &mut [u32]) -> Result<usize, u32> {
    let mut store = sound(words).ok_or(refusal::STORE)?;
    let received = read_words(frame, store.offices, store.plots).ok_or(refusal::WORDS)?;
    let (entry, hops) = (&received.entry, received.hops);
    meet(&store, entry)?;
    refuse_if(!within(&entry.deps, store.held), refusal::MISSING)?;
    refuse_if(hops > 0 && out.len() < frame.len(), refusal::ROOM)?;
    if !store.holds(entry) {
        store.hold(entry);
    }
    if hops > 0 {
        return Ok(put_onward(out, frame));
    }
    let mut id = [0; 8];
    id[(entry.office & 7) as usize] = bit_of(entry.serial);
    *store.visible = store.brought_out(&id);
    Ok(0)
}

/// How many frames a write would send that is not refused.
pub fn frames_of_write(words: &[u32], session: &Session) -> usize {
    let held = |office: u32| words.get(store::HELD + (office & 7) as usize).copied().unwrap_or(0);
    let missing = |entry: &&Entry| held(entry.office) & bit_of(entry.serial) == 0;
    1 + session.own.iter().take(session.count).filter(missing).count()
}
