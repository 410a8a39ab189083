//! The calls of one office. Each refuses before it changes anything.

use super::codec::{read_frame, write_frame, Frame};
use super::entry::{
    id_payload, insert, is_subset, join, settings_in_range, union, Entry, IdSet, SERIALS, VALUES,
};
use super::refusal::{self, refuse_if};
use super::session::{Session, CARRIED};
use super::store::{need, Store};

/// How many plots one joint reading lists at most.
pub const JOINT: usize = 16;

fn check_settings(offices: u32, own: u32, plots: u32) -> Result<(), u32> {
    refuse_if(!settings_in_range(offices, plots) || own >= offices, refusal::SETTINGS)
}

pub fn store_need(offices: u32, own: u32, plots: u32) -> Result<usize, u32> {
    check_settings(offices, own, plots)?;
    Ok(need(offices))
}

/// Ring size, own number and plots of a sound store: what it was opened with. The words are read only.
pub fn store_settings(words: &[u32]) -> Result<[u32; 3], u32> {
    let mut copy = words.to_vec();
    let store = sound_store(&mut copy)?;
    Ok([store.offices(), store.own(), store.plots()])
}

pub fn open_office(offices: u32, own: u32, plots: u32, words: &mut [u32]) -> Result<(), u32> {
    check_settings(offices, own, plots)?;
    refuse_if(words.len() < need(offices), refusal::STORE)?;
    Store::open(words, offices, own, plots);
    Ok(())
}

fn sound_store(words: &mut [u32]) -> Result<Store<'_>, u32> {
    Store::sound(words).ok_or(refusal::STORE)
}

fn check_session(store: &Store, session: &Session) -> Result<(), u32> {
    refuse_if(!session.is_sound(store.offices(), store.plots()), refusal::CONTENT)
}

fn check_held(store: &Store, set: &IdSet) -> Result<(), u32> {
    refuse_if(!is_subset(set, &store.held()), refusal::MISSING)
}

/// Adds the presented entry to the session; the entry handed back is it or an own one above it.
fn read_one(session: &mut Session, plot: u32, presented: Option<Entry>) -> Option<Entry> {
    if let Some(entry) = presented {
        insert(&mut session.read, entry.office, entry.serial);
        session.clock = join(&session.clock, &entry.clock);
    }
    let own = session.own_entries().iter().filter(|entry| entry.plot == plot);
    own.fold(presented, |best, entry| match best {
        Some(best) if !entry.outranks(&best) => Some(best),
        _ => Some(*entry),
    })
}

pub fn read_plot(words: &mut [u32], session: &mut Session, plot: u32) -> Result<Option<Entry>, u32> {
    let mut store = sound_store(words)?;
    check_session(&store, session)?;
    refuse_if(plot >= store.plots(), refusal::PLOT)?;
    check_held(&store, &session.read)?;
    let visible = store.brought_out(&session.read);
    store.show(&visible);
    Ok(read_one(session, plot, store.presented(plot, &visible)))
}

fn answer_words(entry: Option<Entry>) -> [u32; 3] {
    match entry {
        Some(entry) => [1, entry.value, id_payload(entry.office, entry.serial)],
        None => [0, 0, 0],
    }
}

pub fn read_joint(
    words: &mut [u32],
    session: &mut Session,
    plots: &[u32],
    answer: &mut [u32],
) -> Result<(), u32> {
    let mut store = sound_store(words)?;
    check_session(&store, session)?;
    refuse_if(plots.len() > JOINT || plots.iter().any(|&plot| plot >= store.plots()), refusal::PLOT)?;
    refuse_if(answer.len() < 3 * plots.len(), refusal::ROOM)?;
    check_held(&store, &session.read)?;
    let visible = store.brought_out(&session.read);
    store.show(&visible);
    for (&plot, row) in plots.iter().zip(answer.chunks_exact_mut(3)) {
        let handed_back = read_one(session, plot, store.presented(plot, &visible));
        row.copy_from_slice(&answer_words(handed_back));
    }
    Ok(())
}

/// An entry from elsewhere must not claim to be made here, nor differ from the held one.
fn check_entry(store: &Store, entry: &Entry) -> Result<(), u32> {
    refuse_if(entry.office == store.own() && entry.serial > store.made(), refusal::UNMADE)?;
    refuse_if(store.holds(entry) && store.entry(entry.office, entry.serial) != *entry, refusal::DIFFERENT)
}

fn new_entry(store: &Store, session: &Session, plot: u32, value: u32) -> Entry {
    let (office, serial) = (store.own(), store.made() + 1);
    let mut clock = join(&store.clock(), &session.clock);
    clock[office as usize] = serial;
    let deps = union(&session.read, &session.own_ids());
    Entry { office, serial, plot, value, clock, deps }
}

/// Holds the entries and frames them one after the other; there is room.
fn hold_and_frame(store: &mut Store, entries: &[Frame], out: &mut [u32]) -> Result<usize, u32> {
    let mut written = 0;
    for frame in entries {
        store.hold(&frame.entry);
        written += write_frame(frame, &mut out[written..])?;
    }
    Ok(written)
}

pub fn write(
    words: &mut [u32],
    session: &mut Session,
    plot: u32,
    value: u32,
    out: &mut [u32],
) -> Result<usize, u32> {
    let mut store = sound_store(words)?;
    check_session(&store, session)?;
    refuse_if(plot >= store.plots(), refusal::PLOT)?;
    refuse_if(value >= VALUES, refusal::VALUE)?;
    refuse_if(session.count == CARRIED, refusal::SESSION_FULL)?;
    refuse_if(store.made() == SERIALS, refusal::OFFICE_FULL)?;
    check_held(&store, &session.read)?;
    session.own_entries().iter().try_for_each(|entry| check_entry(&store, entry))?;

    let new = new_entry(&store, session, plot, value);
    let offices = store.offices();
    let carried = session.own_entries().iter().filter(|entry| !store.holds(entry));
    let frames: Vec<Frame> =
        carried.chain([&new]).map(|&entry| Frame { offices, hops: offices - 2, entry }).collect();
    refuse_if(out.len() < frames.iter().map(Frame::words).sum(), refusal::ROOM)?;

    session.own[session.count] = new;
    session.count += 1;
    session.clock = join(&session.clock, &new.clock);
    hold_and_frame(&mut store, &frames, out)
}

pub fn receive(words: &mut [u32], frame: &[u32], out: &mut [u32]) -> Result<usize, u32> {
    let mut store = sound_store(words)?;
    let received = read_frame(frame, store.offices(), store.plots()).map_err(|_| refusal::WORDS)?;
    let entry = received.entry;
    check_entry(&store, &entry)?;
    check_held(&store, &entry.deps)?;
    refuse_if(received.hops > 0 && out.len() < frame.len(), refusal::ROOM)?;
    if !store.holds(&entry) {
        store.hold(&entry);
    }
    if received.hops > 0 {
        return write_frame(&Frame { hops: received.hops - 1, ..received }, out);
    }
    let mut ids = IdSet::default();
    insert(&mut ids, entry.office, entry.serial);
    let visible = store.brought_out(&ids);
    store.show(&visible);
    Ok(0)
}
