//! Calls on one office whose store and session have any content: sound, damaged, or any words.

use crate::frame_cases::{change_one_word, low_check, words_of};
use crate::model::codec::Frame;
use crate::model::entry::{has, Entry, VALUES};
use crate::model::session::Session;
use crate::random::Random;
use crate::session_cases::{damage_session, different_entry, random_session, some_new_entry, sound_session};
use crate::store_cases::{damage_store, some_of, Content};
use crate::twin::Twin;

pub fn needs(twin: &mut Twin) {
    for offices in (0..12).chain([255, 256, 1 << 31, u32::MAX]) {
        for own in (0..10).chain([255, u32::MAX]) {
            for plots in [0, 1, 2, 63, 64, 65, 128, u32::MAX] {
                twin.store_need(offices, own, plots);
            }
        }
    }
}

fn some_plot(random: &mut Random, plots: u32) -> u32 {
    match random.below(16) {
        0 => plots,
        1 => random.word(),
        _ => random.below(plots),
    }
}

fn some_value(random: &mut Random) -> u32 {
    match random.below(16) {
        0 => VALUES,
        1 => random.word(),
        2 => VALUES - 1,
        _ => random.below(VALUES),
    }
}

/// A plot in range, often one with an own entry of the session.
pub fn some_listed(random: &mut Random, plots: u32, session: &Session) -> u32 {
    let own = session.own[random.index(session.count.clamp(1, 16))].plot;
    if own < plots && random.one_in(3) {
        own
    } else {
        random.below(plots)
    }
}

/// A list for a joint reading, sometimes too long or with a plot out of range.
pub fn some_plots(random: &mut Random, plots: u32, session: &Session) -> Vec<u32> {
    let len = random.pick(&[0, 1, 1, 2, 2, 3, 5, 16, 17]);
    let mut list: Vec<u32> = (0..len).map(|_| some_listed(random, plots, session)).collect();
    if len > 0 && random.one_in(10) {
        let at = random.index(len);
        list[at] = random.pick(&[plots, plots + 1, u32::MAX]);
    }
    list
}

fn some_entry(random: &mut Random, content: &Content) -> Option<Entry> {
    let chance = random.pick(&[0, 0, 1, 4, 16]);
    let mut deps = some_of(random, &content.held, chance);
    if random.one_in(8) {
        // Perhaps not held.
        let place = random.below(content.offices) as usize;
        deps[place] |= 1 << random.below(32);
    }
    match random.below(6) {
        0 => content.some_unmade_id(random).map(|id| some_new_entry(random, content, id, deps)),
        1 => content.some_held_id(random).map(|(o, s)| different_entry(random, content, content.entry(o, s))),
        2 | 3 => content.some_held_id(random).map(|(o, s)| content.entry(o, s)),
        _ => content.some_new_id(random).map(|id| some_new_entry(random, content, id, deps)),
    }
}

/// The words of a frame for this office, some of them damaged or for another ring.
fn some_frame(random: &mut Random, content: &Content) -> Vec<u32> {
    let Some(entry) = some_entry(random, content) else { return random.row(9) };
    let hops = if random.one_in(2) { 0 } else { random.below(content.offices - 1) };
    let mut frame = Frame { offices: content.offices, hops, entry };
    if !has(&content.held, entry.office, entry.serial) && random.one_in(4) {
        low_check(random, &mut frame);
    }
    let mut words = words_of(&frame);
    match random.below(12) {
        0 => change_one_word(random, &mut words),
        1 => words.truncate(random.index(words.len())),
        2 => words.push(random.word()),
        _ => {}
    }
    words
}

/// One call of the four, refused or not; whatever it leaves is asked for its settings.
fn one_call(twin: &mut Twin, content: &Content, store: &mut [u32], session: &mut Session) {
    let plot = some_plot(&mut twin.random, content.plots);
    match twin.random.below(4) {
        0 => {
            let _ = twin.read_plot(store, session, plot);
        }
        1 => {
            let plots = some_plots(&mut twin.random, content.plots, session);
            let _ = twin.read_joint(store, session, &plots);
        }
        2 => {
            let value = some_value(&mut twin.random);
            let _ = twin.write(store, session, plot, value);
        }
        _ => {
            let frame = some_frame(&mut twin.random, content);
            let _ = twin.receive(store, &frame);
        }
    }
    twin.store_settings(store);
}

/// Cuts below the need, where a store is too short.
fn some_cut(random: &mut Random, need: usize) -> usize {
    random.pick(&[0, 1, 2, 3, 11, 18, 19, need - 1, need - 18])
}

/// Some calls in a row on a sound store, then with damage to the session and to the store.
pub fn calls(twin: &mut Twin) {
    let content = Content::sound(&mut twin.random);
    let beyond = twin.random.pick(&[0, 0, 1, 40]);
    let mut store = content.words(&mut twin.random, beyond);
    let mut session = sound_session(&mut twin.random, &content);
    for _ in 0..4 {
        one_call(twin, &content, &mut store, &mut session);
    }
    for _ in 0..2 {
        let mut damaged = session;
        damage_session(&mut twin.random, &mut damaged);
        one_call(twin, &content, &mut store, &mut damaged);
    }
    for _ in 0..3 {
        let (mut damaged, mut lent) = (store.clone(), session);
        damage_store(&mut twin.random, &mut damaged);
        one_call(twin, &content, &mut damaged, &mut lent);
    }
    let cut = some_cut(&mut twin.random, content.need());
    one_call(twin, &content, &mut store[..cut], &mut session);
}

/// Words that were never a store, and a session that was never one.
pub fn any_words(twin: &mut Twin) {
    let content = Content::sound(&mut twin.random);
    let mut session = random_session(&mut twin.random);
    let len = if twin.random.one_in(2) { content.need() } else { twin.random.index(60) };
    let mut store = twin.random.row(len);
    one_call(twin, &content, &mut store, &mut session);
    // With sound settings the words come further before they are refused.
    for (word, setting) in store.iter_mut().zip([content.offices, content.own, content.plots]) {
        *word = setting;
    }
    one_call(twin, &content, &mut store, &mut session);
    let mut store = content.words(&mut twin.random, 0);
    one_call(twin, &content, &mut store, &mut session);
}
