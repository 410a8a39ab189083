//! Tokens (document 01: slips) in words.

use super::codec::{Frame, Reader, Writer};
use super::entry::{count, ring_in_range, settings_in_range, MOST_PLOTS};
use super::refusal;
use super::session::{Session, CARRIED};

const TOKEN_HEAD: u32 = 8;

fn take_token(words: &[u32], offices: u32, plots: u32) -> Option<Session> {
    let mut reader = Reader::new(words.iter().copied());
    let head = reader.take(TOKEN_HEAD)?;
    let (ring, own, zero, read) = (head >> 24, head >> 16 & 0xFF, head >> 9 & 0x7F, head & 0x1FF);
    if ring != offices || own as usize > CARRIED || zero != 0 {
        return None;
    }
    let mut session = Session { offices, count: own as usize, ..Session::default() };
    session.clock = reader.take_clock(offices)?;
    session.read = reader.take_ids(read, offices)?;
    for place in &mut session.own[..own as usize] {
        let frame = reader.take_frame(offices, plots)?;
        if frame.hops != 0 {
            return None;
        }
        *place = frame.entry;
    }
    reader.take_check(0)?;
    (reader.at_end() && session.is_sound(offices, plots)).then_some(session)
}

pub fn read_token(words: &[u32], offices: u32, plots: u32) -> Result<Session, u32> {
    if !settings_in_range(offices, plots) {
        return Err(refusal::SETTINGS);
    }
    take_token(words, offices, plots).ok_or(refusal::WORDS)
}

fn frames(session: &Session) -> impl Iterator<Item = Frame> + '_ {
    let offices = session.offices;
    session.own_entries().iter().map(move |&entry| Frame { offices, hops: 0, entry })
}

/// How many words the token of a sound session takes.
pub fn token_words(session: &Session) -> usize {
    let frames: usize = frames(session).map(|frame| frame.words()).sum();
    2 + session.offices as usize + count(&session.read) + frames
}

pub fn write_token(session: &Session, out: &mut [u32]) -> Result<usize, u32> {
    if !ring_in_range(session.offices) || !session.is_sound(session.offices, MOST_PLOTS) {
        return Err(refusal::CONTENT);
    }
    let words = token_words(session);
    if out.len() < words {
        return Err(refusal::ROOM);
    }
    let mut writer = Writer::new(out);
    let (own, read) = (session.count as u32, count(&session.read) as u32);
    writer.put(TOKEN_HEAD, session.offices << 24 | own << 16 | read);
    writer.put_clock(&session.clock, session.offices);
    writer.put_ids(&session.read);
    frames(session).for_each(|frame| writer.put_frame(&frame));
    writer.put_check(0);
    Ok(words)
}
