//! Two sessions joined to one.

use super::entry::{bit_of, refuse_if, settings_ok};
use super::places::{join, unite, Places};
use super::session::sound;
use crate::model::entry::Entry;
use crate::model::refusal;
use crate::model::session::{Session, CARRIED};

fn ids_of(own: &[Entry]) -> Places {
    let mut ids = [0; 8];
    own.iter().for_each(|entry| ids[(entry.office & 7) as usize] |= bit_of(entry.serial));
    ids
}

fn has(ids: &Places, entry: &Entry) -> bool {
    ids[(entry.office & 7) as usize] & bit_of(entry.serial) != 0
}

/// How many would be carried: those of the first, and those of the second that are not among them.
fn carried(own: &[Entry], ids: &Places, others: &[Entry]) -> Result<usize, u32> {
    let (mut count, mut differ) = (own.len(), false);
    for (at, other) in others.iter().enumerate() {
        if !has(ids, other) {
            count += 1;
        } else if own.get(at) != Some(other) {
            // Copies of one session begin with the same entries; where they do not, it is looked for.
            differ |= !own.contains(other);
        }
    }
    refuse_if(differ, refusal::DIFFERENT)?;
    refuse_if(count > CARRIED, refusal::SESSION_FULL)?;
    Ok(count)
}

/// Joins the two into a session of zeros, where it is handed back: a session is long. It stays so on refusal.
#[inline]
pub fn join_sessions(
    offices: u32,
    plots: u32,
    first: &Session,
    second: &Session,
    joined: &mut Session,
) -> Result<(), u32> {
    refuse_if(!settings_ok(offices, plots), refusal::SETTINGS)?;
    let (own, _) = sound(first, offices, plots).ok_or(refusal::CONTENT)?;
    let (others, _) = sound(second, offices, plots).ok_or(refusal::CONTENT)?;
    let ids = ids_of(own);
    joined.count = carried(own, &ids, others)?;
    (joined.offices, joined.clock, joined.read) = (offices, first.clock, first.read);
    join(&mut joined.clock, &second.clock);
    unite(&mut joined.read, &second.read);
    let (front, back) = joined.own.split_at_mut(own.len());
    front.copy_from_slice(own);
    let new = others.iter().filter(|other| !has(&ids, other));
    back.iter_mut().zip(new).for_each(|(place, other)| *place = *other);
    Ok(())
}
