//! When a session is sound.

use super::entry::{bit_of, refuse_if, ring_ok};
use super::places::{any, clock_ok, in_ring, set_ok, Places};
use crate::model::entry::{Entry, SERIALS, VALUES};
use crate::model::refusal;
use crate::model::session::Session;

pub fn fresh_session(offices: u32) -> Result<Session, u32> {
    refuse_if(!ring_ok(offices), refusal::SETTINGS)?;
    Ok(Session { offices, ..Session::default() })
}

/// The own entries of a session that is sound for these settings, which are in range; and all ids that it
/// knows, the read ones and those of its own entries.
pub fn sound(session: &Session, offices: u32, plots: u32) -> Option<(&[Entry], Places)> {
    let own = session.own.get(..session.count)?;
    let clock_ok = clock_ok(&session.clock, offices);
    if session.offices != offices || !clock_ok || !set_ok(&session.read, offices) {
        return None;
    }
    Some((own, known_ids(own, &session.read, offices, plots)?))
}

/// The ids known after own entries that are sound: distinct ones, each of which depends on what comes before.
/// What is wrong is gathered and asked for once, as for a store.
fn known_ids(own: &[Entry], read: &Places, offices: u32, plots: u32) -> Option<Places> {
    let most = in_ring(SERIALS, offices);
    let (mut earlier, mut known) = ([0; 8], *read);
    let (mut over, mut unknown, mut wrong) = ([0; 8], [0; 8], false);
    for entry in own {
        let (own, bit) = ((entry.office & 7) as usize, bit_of(entry.serial));
        for place in 0..8 {
            over[place] |= u32::from(entry.clock[place] > most[place]);
            unknown[place] |= entry.deps[place] & !known[place];
        }
        wrong |= (entry.office >= offices) | (entry.plot >= plots) | (entry.value >= VALUES);
        // No serial is above 32 that equals a number of the clock.
        wrong |= (entry.serial == 0) | (entry.clock[own] != entry.serial);
        wrong |= (earlier[own] | entry.deps[own]) & bit != 0;
        earlier[own] |= bit;
        known[own] |= bit;
    }
    (!wrong && !any(&over) && !any(&unknown)).then_some(known)
}
