//! Frames in words: reading, writing, and the check of a frame in bytes.

use super::entry::{count, has, settings_in_range, Clock, Entry, IdSet, MOST_PLOTS, SERIALS};
use super::refusal;

pub const FRAME_HEAD: u32 = 1;
pub const PLOT: u32 = 3;
pub const VALUE: u32 = 4;
pub const CLOCK: u32 = 5;
pub const ID: u32 = 6;
pub const CHECK: u32 = 15;

/// The lower 28 bits of a word; the four above are its kind.
pub const PAYLOAD: u32 = (1 << 28) - 1;

#[repr(C)]
#[derive(Clone, Copy, Debug, Default, PartialEq, Eq)]
pub struct Frame {
    pub offices: u32,
    /// Document 01: offices still to hear after the receiver.
    pub hops: u32,
    pub entry: Entry,
}

/// Takes words one by one and keeps the sum of their payloads.
/// The sum may wrap: 2^28 divides 2^32.
pub struct Reader<I> {
    words: I,
    sum: u32,
}

impl<I: Iterator<Item = u32>> Reader<I> {
    pub fn new(words: I) -> Self {
        Reader { words, sum: 0 }
    }

    pub fn take(&mut self, kind: u32) -> Option<u32> {
        let word = self.words.next()?;
        if word >> 28 != kind {
            return None;
        }
        self.sum = self.sum.wrapping_add(word & PAYLOAD);
        Some(word & PAYLOAD)
    }

    /// Takes a check word over the payloads since the sum was `from`.
    pub fn take_check(&mut self, from: u32) -> Option<()> {
        let sum = self.sum.wrapping_sub(from) & PAYLOAD;
        (self.take(CHECK)? == sum).then_some(())
    }

    pub fn take_clock(&mut self, offices: u32) -> Option<Clock> {
        let mut clock = Clock::default();
        for number in &mut clock[..offices as usize] {
            *number = self.take(CLOCK)?;
            if *number > SERIALS {
                return None;
            }
        }
        Some(clock)
    }

    /// Takes `count` ids of a ring, strictly ascending.
    pub fn take_ids(&mut self, count: u32, offices: u32) -> Option<IdSet> {
        let mut set = IdSet::default();
        // No payload of an id is 0, so the first may be any.
        let mut last = 0;
        for _ in 0..count {
            let payload = self.take(ID)?;
            let (office, serial) = (payload >> 8, payload & 0xFF);
            if payload <= last || office >= offices || serial == 0 || serial > SERIALS {
                return None;
            }
            set[office as usize] |= 1 << (serial - 1);
            last = payload;
        }
        Some(set)
    }

    pub fn take_frame(&mut self, offices: u32, plots: u32) -> Option<Frame> {
        let from = self.sum;
        let head = self.take(FRAME_HEAD)?;
        let (office, serial) = (head >> 24, head >> 16 & 0xFF);
        let (hops, ring, count) = (head >> 12 & 0xF, head >> 8 & 0xF, head & 0xFF);
        if ring != offices || office >= offices || hops > offices - 2 {
            return None;
        }
        if serial == 0 || serial > SERIALS {
            return None;
        }
        let plot = self.take(PLOT)?;
        let value = self.take(VALUE)?;
        let clock = self.take_clock(offices)?;
        if plot >= plots || clock[office as usize] != serial {
            return None;
        }
        let deps = self.take_ids(count, offices)?;
        if has(&deps, office, serial) {
            return None;
        }
        self.take_check(from)?;
        let entry = Entry { office, serial, plot, value, clock, deps };
        Some(Frame { offices, hops, entry })
    }

    pub fn at_end(&mut self) -> bool {
        self.words.next().is_none()
    }
}

fn whole_frame(words: impl Iterator<Item = u32>, offices: u32, plots: u32) -> Option<Frame> {
    let mut reader = Reader::new(words);
    let frame = reader.take_frame(offices, plots)?;
    reader.at_end().then_some(frame)
}

pub fn read_frame(words: &[u32], offices: u32, plots: u32) -> Result<Frame, u32> {
    if !settings_in_range(offices, plots) {
        return Err(refusal::SETTINGS);
    }
    whole_frame(words.iter().copied(), offices, plots).ok_or(refusal::WORDS)
}

/// Reads a frame as bytes, each word lowest byte first; 0 when it is one.
pub fn check_frame(bytes: &[u8], offices: u32, plots: u32) -> u32 {
    if !settings_in_range(offices, plots) {
        return refusal::SETTINGS;
    }
    let (words, rest) = bytes.as_chunks::<4>();
    let words = words.iter().map(|word| u32::from_le_bytes(*word));
    if rest.is_empty() && whole_frame(words, offices, plots).is_some() {
        0
    } else {
        refusal::WORDS
    }
}

/// Puts words into a row one by one and keeps the sum of their payloads.
pub struct Writer<'a> {
    row: &'a mut [u32],
    len: usize,
    sum: u32,
}

impl<'a> Writer<'a> {
    pub fn new(row: &'a mut [u32]) -> Self {
        Writer { row, len: 0, sum: 0 }
    }

    pub fn put(&mut self, kind: u32, payload: u32) {
        self.row[self.len] = kind << 28 | payload;
        self.len += 1;
        self.sum = self.sum.wrapping_add(payload);
    }

    pub fn put_check(&mut self, from: u32) {
        self.put(CHECK, self.sum.wrapping_sub(from) & PAYLOAD);
    }

    pub fn put_clock(&mut self, clock: &Clock, offices: u32) {
        for &number in &clock[..offices as usize] {
            self.put(CLOCK, number);
        }
    }

    pub fn put_ids(&mut self, set: &IdSet) {
        for (office, &word) in set.iter().enumerate() {
            let mut bits = word;
            while bits != 0 {
                self.put(ID, 256 * office as u32 + bits.trailing_zeros() + 1);
                bits &= bits - 1;
            }
        }
    }

    /// Puts a frame that is known to be in range and to fit.
    pub fn put_frame(&mut self, frame: &Frame) {
        let from = self.sum;
        let entry = &frame.entry;
        let id = entry.office << 24 | entry.serial << 16;
        let ring = frame.hops << 12 | frame.offices << 8;
        self.put(FRAME_HEAD, id | ring | count(&entry.deps) as u32);
        self.put(PLOT, entry.plot);
        self.put(VALUE, entry.value);
        self.put_clock(&entry.clock, frame.offices);
        self.put_ids(&entry.deps);
        self.put_check(from);
    }
}

impl Frame {
    /// True for the content that some frame of this ring size with 64 plots has.
    pub fn in_range(&self) -> bool {
        settings_in_range(self.offices, MOST_PLOTS)
            && self.hops <= self.offices - 2
            && self.entry.keeps_rules(self.offices, MOST_PLOTS)
    }

    /// How many words the frame takes.
    pub fn words(&self) -> usize {
        4 + self.offices as usize + count(&self.entry.deps)
    }
}

pub fn write_frame(frame: &Frame, out: &mut [u32]) -> Result<usize, u32> {
    if !frame.in_range() {
        return Err(refusal::CONTENT);
    }
    let words = frame.words();
    if out.len() < words {
        return Err(refusal::ROOM);
    }
    Writer::new(out).put_frame(frame);
    Ok(words)
}
