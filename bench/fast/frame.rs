//! Frames in words. A word without its kind is its payload; where the kind is another, it is 2^28 or more.

use super::entry::{bit_of, entry_ok, payload, refuse_if, settings_ok};
use super::places::{count, Places};
use crate::model::codec::Frame;
use crate::model::entry::{Entry, MOST_PLOTS, SERIALS, VALUES};
use crate::model::refusal;

const HEAD: u32 = 1 << 28;
const PLOT: u32 = 3 << 28;
const VALUE: u32 = 4 << 28;
const CLOCK: u32 = 5 << 28;
const ID: u32 = 6 << 28;
const CHECK: u32 = 15 << 28;
/// One hop, in bits 15 to 12 of a head.
const ONE_HOP: u32 = 1 << 12;

/// The check word over some words. Kinds are multiples of 2^28, which the remainder drops.
pub fn check_of(words: &[u32]) -> u32 {
    CHECK | words.iter().fold(0u32, |sum, word| sum.wrapping_add(*word)) % (1 << 28)
}

/// The clock in its words, one for each office of the ring.
pub fn read_clock(words: &[u32]) -> Option<Places> {
    let mut clock = [0; 8];
    for (number, word) in clock.iter_mut().zip(words) {
        *number = word ^ CLOCK;
        if *number > SERIALS {
            return None;
        }
    }
    Some(clock)
}

/// The set of ids in their words, which strictly ascend.
pub fn read_ids(words: &[u32], offices: u32) -> Option<Places> {
    let (mut set, mut before) = ([0; 8], 0);
    for word in words {
        let id = word ^ ID;
        let (office, serial) = (id >> 8, id & 0xFF);
        if id <= before || office >= offices || serial == 0 || serial > SERIALS {
            return None;
        }
        set[(office & 7) as usize] |= bit_of(serial);
        before = id;
    }
    Some(set)
}

/// How many words a frame has, by its head.
pub fn frame_words(head: u32, offices: u32) -> usize {
    4 + offices as usize + (head & 0xFF) as usize
}

/// Reads words that are one frame, for settings in range.
#[inline]
pub fn read_words(words: &[u32], offices: u32, plots: u32) -> Option<Frame> {
    let (&check, content) = words.split_last()?;
    let &[head, plot, value, ref rest @ ..] = content else { return None };
    let (office, serial) = (head >> 24 & 0xF, head >> 16 & 0xFF);
    let (hops, ring) = (head >> 12 & 0xF, head >> 8 & 0xF);
    let (plot, value) = (plot ^ PLOT, value ^ VALUE);
    let head_ok = head >> 28 == 1 && ring == offices && office < offices && hops + 2 <= offices;
    if !head_ok || plot >= plots || value >= VALUES || words.len() != frame_words(head, offices) {
        return None;
    }
    let (clock, deps) = rest.split_at_checked(offices as usize)?;
    let (clock, deps) = (read_clock(clock)?, read_ids(deps, offices)?);
    let own = (office & 7) as usize;
    // No serial is above 32 that equals a number of the clock.
    let own_ok = serial != 0 && clock[own] == serial && deps[own] & bit_of(serial) == 0;
    let entry = Entry { office, serial, plot, value, clock, deps };
    (own_ok && check == check_of(content)).then_some(Frame { offices, hops, entry })
}

pub fn read_frame(words: &[u32], offices: u32, plots: u32) -> Result<Frame, u32> {
    refuse_if(!settings_ok(offices, plots), refusal::SETTINGS)?;
    read_words(words, offices, plots).ok_or(refusal::WORDS)
}

pub fn put_clock(out: &mut [u32], clock: &Places, offices: u32) {
    for (word, number) in out.iter_mut().zip(clock).take(offices as usize) {
        *word = CLOCK | number;
    }
}

pub fn put_ids(out: &mut [u32], set: &Places) {
    let mut at = 0;
    for (office, &word) in (0..).zip(set) {
        let mut bits = word;
        while bits != 0 {
            out[at] = ID | payload(office, bits.trailing_zeros() + 1);
            at += 1;
            bits &= bits - 1;
        }
    }
}

/// How many words the frame of an entry has.
pub fn length(entry: &Entry, offices: u32) -> usize {
    4 + offices as usize + count(&entry.deps)
}

/// Puts the frame of a sound entry at the front of a row that is long enough, and says how long it is.
#[inline]
pub fn put_frame(out: &mut [u32], entry: &Entry, offices: u32, hops: u32) -> usize {
    let deps = count(&entry.deps);
    let (head, ids) = (entry.office << 24 | entry.serial << 16, 3 + offices as usize);
    out[0] = HEAD | head | hops << 12 | offices << 8 | deps as u32;
    out[1] = PLOT | entry.plot;
    out[2] = VALUE | entry.value;
    put_clock(&mut out[3..], &entry.clock, offices);
    put_ids(&mut out[ids..], &entry.deps);
    out[ids + deps] = check_of(&out[..ids + deps]);
    ids + deps + 1
}

/// Puts a frame that was read at the front of a row that is long enough, with one fewer still to hear: of its
/// words only head and check change, each less one hop, the check modulo 2^28.
#[inline]
pub fn put_onward(out: &mut [u32], words: &[u32]) -> usize {
    let out = &mut out[..words.len()];
    out.copy_from_slice(words);
    if let [head, .., check] = out {
        *head -= ONE_HOP;
        *check = CHECK | (*check - ONE_HOP) % (1 << 28);
    }
    words.len()
}

pub fn write_frame(frame: &Frame, out: &mut [u32]) -> Result<usize, u32> {
    let Frame { offices, hops, ref entry } = *frame;
    let ring_ok = settings_ok(offices, MOST_PLOTS) && hops <= offices - 2;
    refuse_if(!ring_ok || !entry_ok(entry, offices, MOST_PLOTS), refusal::CONTENT)?;
    refuse_if(out.len() < length(entry, offices), refusal::ROOM)?;
    Ok(put_frame(out, entry, offices, hops))
}
