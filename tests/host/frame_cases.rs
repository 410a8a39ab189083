//! Sound frames to test with, their words, and words with one changed.
// Several programs share this file, and not each uses all of it.
#![allow(dead_code)]

use crate::model::codec::{Frame, CHECK, CLOCK, FRAME_HEAD, ID, PAYLOAD, PLOT, VALUE};
use crate::model::entry::{self, Entry, IdSet, SERIALS, VALUES};
use crate::random::Random;

/// `count` ids of a ring, without the entry's own.
pub fn some_deps(random: &mut Random, offices: u32, own: (u32, u32), count: usize) -> IdSet {
    let mut ids: Vec<(u32, u32)> =
        (0..offices).flat_map(|o| (1..=SERIALS).map(move |s| (o, s))).filter(|&id| id != own).collect();
    let mut set = IdSet::default();
    for _ in 0..count {
        let (office, serial) = ids.swap_remove(random.index(ids.len()));
        entry::insert(&mut set, office, serial);
    }
    set
}

/// A value or a bound of it: the edges are where a mistake shows.
fn some_value(random: &mut Random) -> u32 {
    match random.below(8) {
        0 => 0,
        1 => VALUES - 1,
        _ => random.below(VALUES),
    }
}

fn some_serial(random: &mut Random) -> u32 {
    match random.below(6) {
        0 => 1,
        1 => SERIALS,
        _ => random.between(1, SERIALS),
    }
}

pub fn some_clock(random: &mut Random, offices: u32) -> entry::Clock {
    let mut clock = [0; 8];
    for number in &mut clock[..offices as usize] {
        *number = if random.one_in(3) { random.pick(&[0, SERIALS]) } else { random.below(SERIALS + 1) };
    }
    clock
}

pub fn sound_frame(random: &mut Random, offices: u32, hops: u32, deps: usize) -> Frame {
    let (office, serial) = (random.below(offices), some_serial(random));
    let mut clock = some_clock(random, offices);
    clock[office as usize] = serial;
    let plot = if random.one_in(6) { 63 } else { random.below(64) };
    let value = some_value(random);
    let deps = some_deps(random, offices, (office, serial), deps);
    Frame { offices, hops, entry: Entry { office, serial, plot, value, clock, deps } }
}

/// The words that a frame ought to have, built here by hand so that no writer is trusted.
pub fn words_of(frame: &Frame) -> Vec<u32> {
    let entry = &frame.entry;
    let deps: Vec<u32> = entry::ids(entry.deps).map(|(o, s)| 256 * o + s).collect();
    let head = entry.office << 24 | entry.serial << 16 | frame.hops << 12 | frame.offices << 8;
    let mut words = vec![FRAME_HEAD << 28 | head | deps.len() as u32];
    words.push(PLOT << 28 | entry.plot);
    words.push(VALUE << 28 | entry.value);
    words.extend(entry.clock[..frame.offices as usize].iter().map(|n| CLOCK << 28 | n));
    words.extend(deps.iter().map(|p| ID << 28 | p));
    words.push(0);
    mend_check(&mut words);
    words
}

/// Sets the check word to the sum of the payloads before it.
pub fn mend_check(words: &mut [u32]) {
    let last = words.len() - 1;
    let sum: u64 = words[..last].iter().map(|word| (word & PAYLOAD) as u64).sum();
    words[last] = CHECK << 28 | (sum % (1 << 28)) as u32;
}

/// The frames of a row, in its order.
pub fn frames(offices: u32, mut words: &[u32]) -> Vec<Vec<u32>> {
    let mut frames = Vec::new();
    while let Some(head) = words.first() {
        let len = 4 + offices as usize + (head & 0xFF) as usize;
        // A row that ends too soon is told by the comparison; the run must come to its end to say so.
        let (frame, rest) = words.split_at(len.min(words.len()));
        frames.push(frame.to_vec());
        words = rest;
    }
    frames
}

/// What the head of a frame loses when the frame goes on.
pub const ONE_HOP: u32 = 1 << 12;

/// Has the check a payload that goes round when the head loses a hop?
pub fn check_goes_round(words: &[u32]) -> bool {
    words.last().is_some_and(|check| check & PAYLOAD < ONE_HOP)
}

/// Gives the entry a value by which the check of its frame goes round when the frame goes on.
pub fn low_check(random: &mut Random, frame: &mut Frame) {
    frame.entry.value = 0;
    let others = words_of(frame).last().map_or(0, |check| check & PAYLOAD);
    frame.entry.value = random.below(ONE_HOP).wrapping_sub(others) & PAYLOAD;
}

pub fn change_one_word(random: &mut Random, words: &mut [u32]) {
    let at = random.index(words.len());
    let old = words[at];
    words[at] = match random.below(6) {
        0 => old ^ 1 << random.below(32),
        1 => old.wrapping_add(1),
        2 => old.wrapping_sub(1),
        3 => old & PAYLOAD | random.below(16) << 28,
        4 => old ^ random.between(1, 0xFF),
        _ => random.word(),
    };
    if words[at] == old {
        words[at] = !old;
    }
}
