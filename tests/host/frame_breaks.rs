//! The words of a frame with one rule of the format broken.

use crate::frame_cases::{mend_check, words_of};
use crate::model::codec::{Frame, CHECK, CLOCK, ID, PAYLOAD, PLOT};
use crate::model::entry::{self, SERIALS};
use crate::random::Random;

/// Breaks a rule in the words of a frame; says whether it could.
type Apply = fn(&mut Random, &mut Vec<u32>, &Frame) -> bool;

/// A rule of the format that a frame in words can break.
pub struct Break {
    pub name: &'static str,
    apply: Apply,
    mend: bool,
}

/// The check word is mended afterwards, so that nothing but the rule is broken.
const fn mended(name: &'static str, apply: Apply) -> Break {
    Break { name, apply, mend: true }
}

const fn as_is(name: &'static str, apply: Apply) -> Break {
    Break { name, apply, mend: false }
}

impl Break {
    pub fn apply(&self, random: &mut Random, frame: &Frame) -> Option<Vec<u32>> {
        let mut words = words_of(frame);
        if !(self.apply)(random, &mut words, frame) {
            return None;
        }
        if self.mend {
            mend_check(&mut words);
        }
        Some(words)
    }
}

/// Where the words of the dependencies start.
fn first_dep(frame: &Frame) -> usize {
    3 + frame.offices as usize
}

fn deps_len(frame: &Frame) -> usize {
    entry::count(&frame.entry.deps)
}

fn set_bits(word: &mut u32, low: u32, width: u32, bits: u32) {
    let mask = ((1 << width) - 1) << low;
    *word = *word & !mask | bits << low & mask;
}

/// Also sets the clock at the entry's office, so that only the serial is wrong.
fn set_serial(words: &mut [u32], frame: &Frame, serial: u32) -> bool {
    set_bits(&mut words[0], 16, 8, serial);
    words[3 + frame.entry.office as usize] = CLOCK << 28 | serial;
    true
}

fn set_plot(words: &mut [u32], plot: u32) -> bool {
    words[1] = PLOT << 28 | plot;
    true
}

fn too_many_hops(random: &mut Random, words: &mut Vec<u32>, frame: &Frame) -> bool {
    set_bits(&mut words[0], 12, 4, random.between(frame.offices - 1, 15));
    true
}

fn swap_deps(random: &mut Random, words: &mut Vec<u32>, frame: &Frame) -> bool {
    if deps_len(frame) < 2 {
        return false;
    }
    let at = first_dep(frame) + random.index(deps_len(frame) - 1);
    words.swap(at, at + 1);
    true
}

fn repeat_dep(random: &mut Random, words: &mut Vec<u32>, frame: &Frame) -> bool {
    if deps_len(frame) < 2 {
        return false;
    }
    let at = first_dep(frame) + random.index(deps_len(frame) - 1);
    words[at + 1] = words[at];
    true
}

/// Puts the entry's own id among the dependencies, in its place.
fn own_dep(_: &mut Random, words: &mut Vec<u32>, frame: &Frame) -> bool {
    let (first, count) = (first_dep(frame), deps_len(frame));
    let own = ID << 28 | 256 * frame.entry.office + frame.entry.serial;
    if count == 255 {
        return false;
    }
    let at = first + words[first..first + count].iter().filter(|&&w| w < own).count();
    words.insert(at, own);
    set_bits(&mut words[0], 0, 8, count as u32 + 1);
    true
}

/// Puts a last dependency that is no id of the ring, above all others.
fn foreign_dep(words: &mut Vec<u32>, frame: &Frame, payload: u32) -> bool {
    let count = deps_len(frame);
    if count == 255 {
        return false;
    }
    words.insert(first_dep(frame) + count, ID << 28 | payload);
    set_bits(&mut words[0], 0, 8, count as u32 + 1);
    true
}

fn dep_outside_ring(random: &mut Random, words: &mut Vec<u32>, frame: &Frame) -> bool {
    let office =
        random.pick(&[frame.offices, frame.offices + 1, 8, 15, 16, 256, (1 << 20) - 1]).max(frame.offices);
    foreign_dep(words, frame, 256 * office + random.between(1, SERIALS))
}

fn dep_serial(random: &mut Random, words: &mut Vec<u32>, frame: &Frame, serial: u32) -> bool {
    if deps_len(frame) == 0 {
        return foreign_dep(words, frame, 256 * random.below(frame.offices) + serial);
    }
    // The last serial of an office stays in order when it grows, the first when it sinks.
    let last = first_dep(frame) + deps_len(frame) - 1;
    let at = if serial == 0 { first_dep(frame) } else { last };
    set_bits(&mut words[at], 0, 8, serial);
    true
}

fn other_clock(random: &mut Random, words: &mut Vec<u32>, frame: &Frame, number: u32) -> bool {
    let place = (frame.entry.office + random.between(1, frame.offices - 1)) % frame.offices;
    words[3 + place as usize] = CLOCK << 28 | number;
    true
}

fn own_clock(random: &mut Random, words: &mut Vec<u32>, frame: &Frame) -> bool {
    let number = (frame.entry.serial + random.between(1, SERIALS)) % (SERIALS + 1);
    words[3 + frame.entry.office as usize] = CLOCK << 28 | number;
    true
}

fn office_outside_ring(random: &mut Random, words: &mut Vec<u32>, frame: &Frame) -> bool {
    set_bits(&mut words[0], 24, 4, random.between(frame.offices, 15));
    true
}

/// Another ring size in the head, with the clock words that it asks for or as they were.
fn other_ring(random: &mut Random, words: &mut Vec<u32>, frame: &Frame) -> bool {
    let ring = (frame.offices + random.between(1, 15)) % 16;
    set_bits(&mut words[0], 8, 4, ring);
    if random.one_in(2) {
        let clock = vec![CLOCK << 28; ring as usize];
        words.splice(3..first_dep(frame), clock);
    }
    true
}

fn wrong_count(random: &mut Random, words: &mut Vec<u32>, frame: &Frame) -> bool {
    let count = deps_len(frame) as u32;
    let other = random.pick(&[count.wrapping_sub(1), count + 1, count ^ 1, 0, 255]) & 0xFF;
    set_bits(&mut words[0], 0, 8, other);
    other != count
}

fn clock_count(random: &mut Random, words: &mut Vec<u32>, frame: &Frame) -> bool {
    if random.one_in(2) {
        words.insert(first_dep(frame), CLOCK << 28);
    } else {
        words.remove(first_dep(frame) - 1);
    }
    true
}

fn wrong_kind(random: &mut Random, words: &mut Vec<u32>, _: &Frame) -> bool {
    let at = random.index(words.len());
    words[at] = words[at].wrapping_add(random.between(1, 15) << 28);
    true
}

fn wrong_sum(random: &mut Random, words: &mut Vec<u32>, _: &Frame) -> bool {
    let last = words.len() - 1;
    let off = random.pick(&[1, PAYLOAD, 1 << 8, 1 << 27]);
    words[last] = CHECK << 28 | words[last].wrapping_add(off) & PAYLOAD;
    true
}

fn short_sum(_: &mut Random, words: &mut Vec<u32>, _: &Frame) -> bool {
    let last = words.len() - 1;
    let missing = words[last - 1] & PAYLOAD;
    words[last] = CHECK << 28 | words[last].wrapping_sub(missing) & PAYLOAD;
    missing != 0
}

/// The sum of whole words, kinds included: only the top bits of the sum differ.
fn sum_with_kinds(_: &mut Random, words: &mut Vec<u32>, _: &Frame) -> bool {
    let last = words.len() - 1;
    let sum = words[..last].iter().fold(0u32, |sum, word| sum.wrapping_add(*word));
    words[last] = sum;
    sum >> 28 != CHECK
}

pub const BREAKS: &[Break] = &[
    mended("ids not ascending", swap_deps),
    mended("id repeated", repeat_dep),
    mended("depends on itself", own_dep),
    mended("dependency outside the ring", dep_outside_ring),
    mended("dependency of serial 0", |r, w, f| dep_serial(r, w, f, 0)),
    mended("dependency of serial 33", |r, w, f| dep_serial(r, w, f, 33)),
    mended("dependency of serial 255", |r, w, f| dep_serial(r, w, f, 255)),
    mended("clock 33", |r, w, f| other_clock(r, w, f, 33)),
    mended("clock of 28 bits", |r, w, f| other_clock(r, w, f, PAYLOAD)),
    mended("clock unlike serial", own_clock),
    mended("a clock word too many or too few", clock_count),
    mended("serial 0", |_, w, f| set_serial(w, f, 0)),
    mended("serial 33", |_, w, f| set_serial(w, f, 33)),
    mended("serial 255", |_, w, f| set_serial(w, f, 255)),
    mended("office outside the ring", office_outside_ring),
    mended("too many hops", too_many_hops),
    mended("other ring size in the head", other_ring),
    mended("plot 64", |_, w, _| set_plot(w, 64)),
    mended("plot of 28 bits", |r, w, _| set_plot(w, r.between(64, PAYLOAD))),
    mended("wrong dependency count", wrong_count),
    as_is("wrong kind", wrong_kind),
    as_is("sum off", wrong_sum),
    as_is("sum without the last word", short_sum),
    as_is("sum with the kinds", sum_with_kinds),
];
