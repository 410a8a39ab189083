//! Two sessions joined to one (document 02 (iv)).

use super::entry::{has, join, settings_in_range, union, Entry};
use super::refusal::{self, refuse_if};
use super::session::{Session, CARRIED};

/// "11 if one name has two contents"
fn two_contents(first: &Session, second: &Session) -> bool {
    let differs = |entry: &Entry, other: &Entry| entry.id() == other.id() && entry != other;
    first.own_entries().iter().any(|entry| second.own_entries().iter().any(|other| differs(entry, other)))
}

/// "the first errand's own entries, then those of the second not among them"
fn carried(first: &Session, second: &Session) -> Vec<Entry> {
    let among = first.own_ids();
    let others = second.own_entries().iter().filter(|entry| !has(&among, entry.office, entry.serial));
    first.own_entries().iter().chain(others).copied().collect()
}

/// "takes the union of read names, the joined clock", and what is carried; the places behind that are zeros.
pub fn join_sessions(offices: u32, plots: u32, first: &Session, second: &Session) -> Result<Session, u32> {
    refuse_if(!settings_in_range(offices, plots), refusal::SETTINGS)?;
    let sound = |session: &Session| session.is_sound(offices, plots);
    refuse_if(!sound(first) || !sound(second), refusal::CONTENT)?;
    refuse_if(two_contents(first, second), refusal::DIFFERENT)?;
    let own = carried(first, second);
    refuse_if(own.len() > CARRIED, refusal::SESSION_FULL)?;
    let (clock, read) = (join(&first.clock, &second.clock), union(&first.read, &second.read));
    let mut session = Session { offices, clock, read, count: own.len(), ..Session::default() };
    session.own[..own.len()].copy_from_slice(&own);
    Ok(session)
}
