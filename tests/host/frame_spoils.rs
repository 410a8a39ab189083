//! The content of a frame with one rule broken.
// Several programs share this file, and not each uses all of it.
#![allow(dead_code)]

use crate::model::codec::Frame;
use crate::model::entry::{self, Entry, SERIALS, VALUES};
use crate::random::Random;

/// A rule that the content of a frame can break.
pub struct Spoil {
    pub name: &'static str,
    pub apply: fn(&mut Random, &mut Frame),
}

pub fn at_least(random: &mut Random, low: u32) -> u32 {
    match random.below(3) {
        0 => low,
        1 => random.between(low, low + 8),
        _ => random.between(low, u32::MAX),
    }
}

fn spoil_offices(random: &mut Random, frame: &mut Frame) {
    frame.offices = random.pick(&[0, 1, 9, 10, 16, 255, 256 + frame.offices, u32::MAX]);
}

fn spoil_serial(random: &mut Random, frame: &mut Frame) {
    let serial = if random.one_in(2) { 0 } else { at_least(random, 33) };
    frame.entry.serial = serial;
    frame.entry.clock[frame.entry.office as usize] = serial;
}

fn spoil_own_clock(random: &mut Random, frame: &mut Frame) {
    let other = (frame.entry.serial + random.between(1, SERIALS)) % (SERIALS + 1);
    frame.entry.clock[frame.entry.office as usize] = other;
}

fn spoil_clock(random: &mut Random, frame: &mut Frame) {
    let place = random.below(frame.offices) as usize;
    frame.entry.clock[place] = at_least(random, 33);
}

/// Wrong for rings below 8; in a ring of 8 the clock is made too great instead.
fn spoil_unused_clock(random: &mut Random, frame: &mut Frame) {
    if frame.offices == 8 {
        return spoil_clock(random, frame);
    }
    frame.entry.clock[random.between(frame.offices, 7) as usize] = random.between(1, SERIALS);
}

/// Wrong for rings below 8; in a ring of 8 the entry depends on itself instead.
fn spoil_unused_deps(random: &mut Random, frame: &mut Frame) {
    if frame.offices == 8 {
        return spoil_own_dep(random, frame);
    }
    let bits = if random.one_in(2) { random.word() | 1 } else { 1 << random.below(32) };
    frame.entry.deps[random.between(frame.offices, 7) as usize] = bits;
}

fn spoil_own_dep(_: &mut Random, frame: &mut Frame) {
    let (office, serial) = (frame.entry.office, frame.entry.serial);
    entry::insert(&mut frame.entry.deps, office, serial);
}

fn spoil_all(random: &mut Random, frame: &mut Frame) {
    let (offices, hops) = (random.below(12), random.below(9));
    let entry = Entry {
        office: random.below(10),
        serial: random.below(40),
        plot: random.below(80),
        value: random.word(),
        clock: std::array::from_fn(|_| random.below(40)),
        deps: random.words(),
    };
    *frame = Frame { offices, hops, entry };
    // So that it is wrong for certain, in a ring of any size.
    frame.entry.clock[7] = 33;
}

/// Rules of what stands beside the entry.
pub const OF_RING: &[Spoil] = &[
    Spoil { name: "ring size", apply: spoil_offices },
    Spoil { name: "hops", apply: |r, f| f.hops = at_least(r, f.offices - 1) },
];

/// Rules of the entry.
pub const OF_ENTRY: &[Spoil] = &[
    Spoil { name: "office", apply: |r, f| f.entry.office = at_least(r, f.offices) },
    Spoil { name: "serial", apply: spoil_serial },
    Spoil { name: "plot", apply: |r, f| f.entry.plot = at_least(r, 64) },
    Spoil { name: "value", apply: |r, f| f.entry.value = at_least(r, VALUES) },
    Spoil { name: "clock at its office", apply: spoil_own_clock },
    Spoil { name: "clock too great", apply: spoil_clock },
    Spoil { name: "clock outside the ring", apply: spoil_unused_clock },
    Spoil { name: "dependencies outside the ring", apply: spoil_unused_deps },
    Spoil { name: "depends on itself", apply: spoil_own_dep },
    Spoil { name: "random", apply: spoil_all },
];
