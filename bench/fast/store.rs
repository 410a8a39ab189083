//! The words of a store: three settings, the held and the visible set, and a slot for each id.

use super::entry::{bit_of, settings_ok, Rank};
use super::places::{any, in_ring, join, set_ok, unite, within, without, Places};
use crate::model::entry::{Entry, SERIALS, VALUES};

const HEAD: usize = 19;
const SLOT: usize = 18;
/// Where the held set begins.
pub const HELD: usize = 3;

/// Plot, value, clock and dependencies of one id.
type Slot = [u32; SLOT];
/// The slots of one office.
type Block = [Slot; 32];

pub fn need(offices: u32) -> usize {
    HEAD + SLOT * 32 * offices as usize
}

/// Makes a store that holds nothing; the slots keep their words.
pub fn open(words: &mut [u32], offices: u32, own: u32, plots: u32) {
    words[..HEAD].fill(0);
    words[..HELD].copy_from_slice(&[offices, own, plots]);
}

/// A store where its words are.
pub struct Store<'a> {
    pub offices: u32,
    pub own: u32,
    pub plots: u32,
    pub held: &'a mut Places,
    pub visible: &'a mut Places,
    blocks: &'a mut [Block],
}

/// An entry where it is held.
#[derive(Clone, Copy)]
pub struct Held<'a> {
    pub office: u32,
    pub serial: u32,
    slot: &'a Slot,
}

impl<'a> Held<'a> {
    fn plot(&self) -> u32 {
        self.slot[0]
    }

    pub fn value(&self) -> u32 {
        self.slot[1]
    }

    pub fn clock(&self) -> &'a Places {
        let [_, _, clock @ .., _, _, _, _, _, _, _, _] = self.slot;
        clock
    }

    fn deps(&self) -> &'a Places {
        let [_, _, _, _, _, _, _, _, _, _, deps @ ..] = self.slot;
        deps
    }

    pub fn rank(&self) -> Rank<'a> {
        (self.clock(), self.office)
    }

    pub fn entry(&self) -> Entry {
        let (plot, value, clock, deps) = (self.plot(), self.value(), *self.clock(), *self.deps());
        Entry { office: self.office, serial: self.serial, plot, value, clock, deps }
    }
}

/// The store of some words, if they are enough and its settings are in range.
fn settled(words: &mut [u32]) -> Option<Store<'_>> {
    let (head, slots) = words.split_first_chunk_mut::<HEAD>()?;
    let [offices, own, plots, sets @ ..] = head;
    let (offices, own, plots) = (*offices, *own, *plots);
    let [held, visible] = sets.as_chunks_mut().0 else { return None };
    if !settings_ok(offices, plots) || own >= offices {
        return None;
    }
    let blocks = slots.as_chunks_mut().0.as_chunks_mut().0.get_mut(..offices as usize)?;
    Some(Store { offices, own, plots, held, visible, blocks })
}

/// The store of some words, if it is sound.
pub fn sound(words: &mut [u32]) -> Option<Store<'_>> {
    let store = settled(words)?;
    let made = store.held[(store.own & 7) as usize];
    let sets_ok = set_ok(store.held, store.offices)
        && within(store.visible, store.held)
        && made & made.wrapping_add(1) == 0;
    let hidden = without(store.held, store.visible);
    let ok =
        sets_ok && store.entries_ok(store.visible, store.visible) && store.entries_ok(&hidden, store.held);
    ok.then_some(store)
}

impl Store<'_> {
    /// Goes through the entries of some held ids, lowest first.
    #[inline]
    fn each<'s>(&'s self, ids: &Places, mut visit: impl FnMut(Held<'s>)) {
        for (office, (block, &word)) in (0..).zip(self.blocks.iter().zip(ids)) {
            let mut bits = word;
            while bits != 0 {
                let index = bits.trailing_zeros() & 31;
                visit(Held { office, serial: index + 1, slot: &block[index as usize] });
                bits &= bits - 1;
            }
        }
    }

    /// Whether entries keep the rules and depend on some ids only. No branch asks what is wrong with one: all
    /// is gathered, that of clocks and dependencies as vectors, and asked for once.
    fn entries_ok(&self, ids: &Places, allowed: &Places) -> bool {
        let most = in_ring(SERIALS, self.offices);
        let (mut over, mut deps, mut wrong) = ([0; 8], [0; 8], false);
        self.each(ids, |held| {
            let (clock, own) = (held.clock(), (held.office & 7) as usize);
            for place in 0..8 {
                over[place] |= u32::from(clock[place] > most[place]);
            }
            unite(&mut deps, held.deps());
            wrong |= (held.plot() >= self.plots) | (held.value() >= VALUES);
            wrong |= (clock[own] != held.serial) | (held.deps()[own] & bit_of(held.serial) != 0);
        });
        !wrong && !any(&over) && within(&deps, allowed)
    }

    pub fn holds(&self, entry: &Entry) -> bool {
        self.held[(entry.office & 7) as usize] & bit_of(entry.serial) != 0
    }

    /// How many entries this office has made: its own serials have no gap.
    pub fn made(&self) -> u32 {
        self.held[(self.own & 7) as usize].trailing_ones()
    }

    /// Whether an entry that is held has other content there.
    pub fn differs(&self, entry: &Entry) -> bool {
        let slot = &self.blocks[entry.office as usize][(entry.serial.wrapping_sub(1) & 31) as usize];
        Held { office: entry.office, serial: entry.serial, slot }.entry() != *entry
    }

    /// Holds a new entry, hidden.
    pub fn hold(&mut self, entry: &Entry) {
        let slot = &mut self.blocks[entry.office as usize][(entry.serial.wrapping_sub(1) & 31) as usize];
        slot[..2].copy_from_slice(&[entry.plot, entry.value]);
        slot[2..10].copy_from_slice(&entry.clock);
        slot[10..].copy_from_slice(&entry.deps);
        self.held[(entry.office & 7) as usize] |= bit_of(entry.serial);
    }

    /// What is visible once held ids are brought out, with all that they reach. What was visible reaches
    /// nothing else, so only new ones are gone through, a round at a time.
    #[inline]
    pub fn brought_out(&self, ids: &Places) -> Places {
        let mut visible = *self.visible;
        let mut round = without(ids, &visible);
        while any(&round) {
            unite(&mut visible, &round);
            let mut deps = [0; 8];
            self.each(&round, |held| unite(&mut deps, held.deps()));
            round = without(&deps, &visible);
        }
        visible
    }

    /// The highest-ranked visible entry of a plot.
    #[inline]
    pub fn current(&self, visible: &Places, plot: u32) -> Option<Held<'_>> {
        let mut best: Option<Held> = None;
        self.each(visible, |held| {
            if held.plot() == plot && best.is_none_or(|best| held.rank() > best.rank()) {
                best = Some(held);
            }
        });
        best
    }

    /// Place by place the greatest number of a visible clock, and at its own place the count it made.
    pub fn clock(&self) -> Places {
        let mut clock = [0; 8];
        self.each(self.visible, |held| join(&mut clock, held.clock()));
        clock[(self.own & 7) as usize] = self.made();
        clock
    }
}
