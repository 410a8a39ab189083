//! Tokens in words.

use super::entry::{refuse_if, settings_ok};
use super::frame::{
    check_of, frame_words, length, put_clock, put_frame, put_ids, read_clock, read_ids, read_words,
};
use super::places::count;
use super::session::{fresh_session, sound};
use crate::model::entry::{Entry, MOST_PLOTS};
use crate::model::refusal;
use crate::model::session::{Session, CARRIED};

const HEAD: u32 = 8 << 28;

/// Reads own entries, each a frame with no hops, which are all of the words.
fn read_own(own: &mut [Entry], words: &[u32], offices: u32, plots: u32) -> Option<()> {
    let mut rest = words;
    for entry in own {
        let (words, more) = rest.split_at_checked(frame_words(*rest.first()?, offices))?;
        *entry = read_words(words, offices, plots).filter(|frame| frame.hops == 0)?.entry;
        rest = more;
    }
    rest.is_empty().then_some(())
}

/// Puts what the words say into a fresh session.
fn fill(session: &mut Session, words: &[u32], offices: u32, plots: u32) -> Option<()> {
    let (&check, content) = words.split_last()?;
    let (&head, rest) = content.split_first()?;
    let (own, read) = ((head >> 16 & 0xFF) as usize, (head & 0x1FF) as usize);
    if head & 0xFF00_FE00 != HEAD | offices << 24 || own > CARRIED || check != check_of(content) {
        return None;
    }
    let (clock, rest) = rest.split_at_checked(offices as usize)?;
    let (ids, rest) = rest.split_at_checked(read)?;
    session.clock = read_clock(clock)?;
    session.read = read_ids(ids, offices)?;
    session.count = own;
    read_own(&mut session.own[..own], rest, offices, plots)?;
    sound(session, offices, plots).map(|_| ())
}

pub fn read_token(words: &[u32], offices: u32, plots: u32) -> Result<Session, u32> {
    refuse_if(!settings_ok(offices, plots), refusal::SETTINGS)?;
    // It is filled where it is handed back: a session is long.
    let mut token = fresh_session(offices);
    if token.as_mut().is_ok_and(|session| fill(session, words, offices, plots).is_none()) {
        token = Err(refusal::WORDS);
    }
    token
}

pub fn write_token(session: &Session, out: &mut [u32]) -> Result<usize, u32> {
    let offices = session.offices;
    refuse_if(!settings_ok(offices, MOST_PLOTS), refusal::CONTENT)?;
    let (own, _) = sound(session, offices, MOST_PLOTS).ok_or(refusal::CONTENT)?;
    let (ids, read) = (1 + offices as usize, count(&session.read));
    let frames: usize = own.iter().map(|entry| length(entry, offices)).sum();
    refuse_if(out.len() < ids + read + frames + 1, refusal::ROOM)?;
    out[0] = HEAD | offices << 24 | (own.len() as u32) << 16 | read as u32;
    put_clock(&mut out[1..], &session.clock, offices);
    put_ids(&mut out[ids..], &session.read);
    let mut len = ids + read;
    for entry in own {
        len += put_frame(&mut out[len..], entry, offices, 0);
    }
    out[len] = check_of(&out[..len]);
    Ok(len + 1)
}
