//! Tokens in words, built by hand from their parts, so that each part can be broken.
// Several programs share this file, and not each uses all of it.
#![allow(dead_code)]

use crate::frame_cases::{mend_check, words_of};
use crate::model::codec::{Frame, CHECK, CLOCK, ID, PAYLOAD};
use crate::model::entry::{count, ids};
use crate::model::session::Session;
use crate::random::Random;

pub struct Parts {
    pub head: u32,
    pub clock: Vec<u32>,
    pub read: Vec<u32>,
    pub frames: Vec<Vec<u32>>,
}

impl Parts {
    pub fn of(session: &Session) -> Parts {
        let offices = session.offices;
        let own = session.own_entries();
        Parts {
            head: 0x8000_0000 | offices << 24 | (own.len() as u32) << 16 | count(&session.read) as u32,
            clock: session.clock[..offices as usize].iter().map(|n| CLOCK << 28 | n).collect(),
            read: ids(session.read).map(|(o, s)| ID << 28 | 256 * o + s).collect(),
            frames: own.iter().map(|&entry| words_of(&Frame { offices, hops: 0, entry })).collect(),
        }
    }

    /// The words with a check over all before it.
    pub fn words(&self) -> Vec<u32> {
        let mut words = vec![self.head];
        words.extend(&self.clock);
        words.extend(&self.read);
        words.extend(self.frames.iter().flatten());
        words.push(0);
        mend_check(&mut words);
        words
    }

    fn some_frame(&mut self, random: &mut Random) -> Option<&mut Vec<u32>> {
        let len = self.frames.len();
        (len > 0).then(|| &mut self.frames[random.index(len)])
    }
}

/// A rule of the format that a token in words can break; says whether it could.
pub struct Break {
    pub name: &'static str,
    pub apply: fn(&mut Random, &mut Parts, &Session) -> bool,
}

fn swap_read(random: &mut Random, parts: &mut Parts, _: &Session) -> bool {
    if parts.read.len() < 2 {
        return false;
    }
    let at = random.index(parts.read.len() - 1);
    parts.read.swap(at, at + 1);
    true
}

fn repeat_read(random: &mut Random, parts: &mut Parts, _: &Session) -> bool {
    if parts.read.is_empty() {
        return false;
    }
    let at = random.index(parts.read.len());
    parts.read.insert(at, parts.read[at]);
    parts.head += 1;
    true
}

fn foreign_read(random: &mut Random, parts: &mut Parts, session: &Session) -> bool {
    parts.read.push(ID << 28 | 256 * random.between(session.offices, 20) + random.between(1, 32));
    parts.head += 1;
    true
}

fn serial_of_read(random: &mut Random, parts: &mut Parts, session: &Session) -> bool {
    // After all others, in the last office.
    parts.read.push(ID << 28 | 256 * (session.offices - 1) + random.pick(&[33, 64, 255]));
    parts.head += 1;
    true
}

fn wrong_counts(random: &mut Random, parts: &mut Parts, _: &Session) -> bool {
    parts.head = match random.below(4) {
        0 => parts.head.wrapping_add(1),
        1 => parts.head.wrapping_add(1 << 16),
        2 => parts.head & !0x1FF | 0x1FF,
        _ => parts.head & !0xFF_0000 | random.between(17, 255) << 16,
    };
    true
}

fn clock_33(random: &mut Random, parts: &mut Parts, _: &Session) -> bool {
    let place = random.index(parts.clock.len());
    parts.clock[place] = CLOCK << 28 | random.pick(&[33, 64, PAYLOAD]);
    true
}

fn clock_count(random: &mut Random, parts: &mut Parts, _: &Session) -> bool {
    if random.one_in(2) {
        parts.clock.push(CLOCK << 28);
    } else {
        parts.clock.pop();
    }
    true
}

fn hops(random: &mut Random, parts: &mut Parts, _: &Session) -> bool {
    let Some(frame) = parts.some_frame(random) else { return false };
    frame[0] += 1 << 12;
    mend_check(frame);
    true
}

fn frame_check(random: &mut Random, parts: &mut Parts, _: &Session) -> bool {
    let off = random.pick(&[1, PAYLOAD]);
    let Some(frame) = parts.some_frame(random) else { return false };
    let last = frame.len() - 1;
    frame[last] = CHECK << 28 | frame[last].wrapping_add(off) & PAYLOAD;
    true
}

fn repeat_entry(random: &mut Random, parts: &mut Parts, _: &Session) -> bool {
    let Some(frame) = parts.some_frame(random).cloned() else { return false };
    parts.frames.push(frame);
    parts.head += 1 << 16;
    true
}

fn too_many_entries(_: &mut Random, parts: &mut Parts, _: &Session) -> bool {
    let Some(frame) = parts.frames.first().cloned() else { return false };
    parts.frames.resize(17, frame);
    parts.head = parts.head & !0xFF_0000 | 17 << 16;
    true
}

/// Takes away a read id that an own entry may depend on.
fn unread(random: &mut Random, parts: &mut Parts, _: &Session) -> bool {
    if parts.read.is_empty() || parts.frames.is_empty() {
        return false;
    }
    parts.read.remove(random.index(parts.read.len()));
    parts.head -= 1;
    true
}

fn swap_entries(random: &mut Random, parts: &mut Parts, _: &Session) -> bool {
    if parts.frames.len() < 2 {
        return false;
    }
    let at = random.index(parts.frames.len() - 1);
    parts.frames.swap(at, at + 1);
    true
}

fn head_kind(random: &mut Random, parts: &mut Parts, _: &Session) -> bool {
    parts.head = parts.head.wrapping_add(random.between(1, 15) << 28);
    true
}

fn head_ring(random: &mut Random, parts: &mut Parts, session: &Session) -> bool {
    let ring = (session.offices + random.between(1, 15)) % 16;
    parts.head = parts.head & !0x0F00_0000 | ring << 24;
    true
}

fn head_zeros(random: &mut Random, parts: &mut Parts, _: &Session) -> bool {
    parts.head |= 1 << random.between(9, 15);
    true
}

/// These always break a rule.
pub const BREAKS: &[Break] = &[
    Break { name: "read ids not ascending", apply: swap_read },
    Break { name: "read id repeated", apply: repeat_read },
    Break { name: "read id outside the ring", apply: foreign_read },
    Break { name: "read id of serial above 32", apply: serial_of_read },
    Break { name: "wrong counts", apply: wrong_counts },
    Break { name: "clock above 32", apply: clock_33 },
    Break { name: "a clock word too many or too few", apply: clock_count },
    Break { name: "own entry with hops", apply: hops },
    Break { name: "check of an own entry", apply: frame_check },
    Break { name: "own entry repeated", apply: repeat_entry },
    Break { name: "17 own entries", apply: too_many_entries },
    Break { name: "kind of the head", apply: head_kind },
    Break { name: "ring size in the head", apply: head_ring },
    Break { name: "zero bits of the head", apply: head_zeros },
];

/// Whether these do depends on the content.
pub const CHANGES: &[Break] = &[
    Break { name: "a read id less", apply: unread },
    Break { name: "own entries in another order", apply: swap_entries },
];
