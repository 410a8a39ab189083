//! What an adversary lends: any words, or sound words that are cut, damaged or put together wrongly.

use crate::frame_cases::{change_one_word, mend_check, sound_frame, words_of};
use crate::model::codec::Frame;
use crate::model::entry::{MOST_PLOTS, VALUES};
use crate::model::session::Session;
use crate::random::Random;
use crate::session_cases::{damage_session, random_session, some_new_entry, sound_session};
use crate::store_cases::{damage_store, some_of, Content};
use crate::token_cases::{Parts, BREAKS, CHANGES};

/// Gives each length from 0 to a bound in turn, so that none is left out.
#[derive(Default)]
pub struct Lengths(usize);

impl Lengths {
    pub fn next(&mut self, bound: usize) -> usize {
        self.0 = (self.0 + 1) % (bound + 1);
        self.0
    }
}

pub struct Adversary {
    pub random: Random,
    content: Content,
    stores: Lengths,
    frames: Lengths,
    tokens: Lengths,
    rows: Lengths,
    lists: Lengths,
    calls: u32,
}

/// Longer than any store, so that words beyond the need are met too.
const STORE: usize = 4_700;
const FRAME: usize = 300;
const TOKEN: usize = 700;
const ROW: usize = 600;
const LIST: usize = 40;

impl Adversary {
    pub fn new(seed: u64) -> Adversary {
        let mut random = Random::new(seed);
        let content = Content::sound(&mut random);
        let [stores, frames, tokens, rows, lists] = [(); 5].map(|()| Lengths::default());
        Adversary { random, content, stores, frames, tokens, rows, lists, calls: 0 }
    }

    /// Another ring now and then; not for each call, since making one takes long.
    pub fn turn(&mut self) {
        self.calls += 1;
        if self.calls % 16 == 0 {
            self.content = Content::sound(&mut self.random);
        }
    }

    /// A number near a bound, in range, or any.
    pub fn number(&mut self, bound: u32) -> u32 {
        match self.random.below(8) {
            0 => bound,
            1 => self.random.pick(&[0, bound + 1, 1 << 8, 1 << 16, 1 << 28, 1 << 31, u32::MAX]),
            2 => self.random.word(),
            _ => self.random.below(bound),
        }
    }

    pub fn offices(&mut self) -> u32 {
        if self.random.one_in(2) {
            self.content.offices
        } else {
            self.number(9)
        }
    }

    pub fn plots(&mut self) -> u32 {
        if self.random.one_in(2) {
            self.content.plots
        } else {
            self.number(65)
        }
    }

    pub fn plot(&mut self) -> u32 {
        self.number(self.content.plots)
    }

    pub fn value(&mut self) -> u32 {
        self.number(VALUES)
    }

    pub fn store(&mut self) -> Vec<u32> {
        let random = &mut self.random;
        let kind = random.below(12);
        if kind == 0 {
            return random.row(self.stores.next(STORE));
        }
        let beyond = random.pick(&[0, 0, 1, 50]);
        let mut words = self.content.words(random, beyond);
        match kind {
            1 => words.truncate(self.stores.next(STORE)),
            2 => words[3..].iter_mut().for_each(|word| *word = random.word()),
            3 => words[19..].iter_mut().for_each(|word| *word = random.word()),
            4..=6 => (0..random.between(1, 3)).for_each(|_| damage_store(random, &mut words)),
            _ => {}
        }
        words
    }

    pub fn session(&mut self) -> Session {
        let random = &mut self.random;
        let kind = random.below(10);
        if kind == 0 {
            return random_session(random);
        }
        let mut session = sound_session(random, &self.content);
        match kind {
            1 => session.count = random.word() as usize | (random.word() as usize) << 32,
            2 => {
                session.count =
                    random.pick(&[16, 17, 1 << 32, (1 << 32) + 1, 1 << 60, usize::MAX / 80, usize::MAX])
            }
            3 => session.own = random_session(random).own,
            4 | 5 => damage_session(random, &mut session),
            _ => {}
        }
        session
    }

    /// Words of the kinds that a frame has, with any payloads and a right check.
    fn kinds_only(&mut self) -> Vec<u32> {
        let len = self.frames.next(FRAME).max(1);
        let random = &mut self.random;
        let mut words: Vec<u32> = (0..len)
            .map(|_| random.pick(&[1, 3, 4, 5, 6, 8, 15]) << 28 | random.word() >> random.between(4, 31))
            .collect();
        mend_check(&mut words);
        words
    }

    /// A frame that fits the store, but may name what it does not hold.
    fn fitting_frame(&mut self) -> Vec<u32> {
        let (random, content) = (&mut self.random, &self.content);
        let new = if random.one_in(4) { content.some_unmade_id(random) } else { content.some_new_id(random) };
        let held = content.some_held_id(random).map(|(office, serial)| content.entry(office, serial));
        let mut deps = some_of(random, &content.held, 2);
        if random.one_in(6) {
            // Perhaps not held.
            deps[random.below(content.offices) as usize] |= 1 << random.below(32);
        }
        let entry = match (new, held) {
            (Some(id), _) if random.one_in(2) => some_new_entry(random, content, id, deps),
            (_, Some(held)) => held,
            _ => return vec![],
        };
        let hops = random.below(content.offices - 1);
        words_of(&Frame { offices: content.offices, hops, entry })
    }

    pub fn frame_content(&mut self) -> Frame {
        let random = &mut self.random;
        let offices = self.content.offices;
        let (hops, deps) = (random.below(offices - 1), random.index(32 * offices as usize));
        let mut frame = sound_frame(random, offices, hops, deps);
        match random.below(4) {
            0 => frame.entry = random_session(random).own[0],
            1 => frame.hops = random.word(),
            2 => frame.offices = random.pick(&[0, 1, 2, 8, 9, u32::MAX]),
            _ => {}
        }
        frame
    }

    pub fn frame(&mut self) -> Vec<u32> {
        let kind = self.random.below(8);
        if kind == 0 {
            let len = self.frames.next(FRAME);
            return self.random.row(len);
        }
        if kind == 1 {
            return self.kinds_only();
        }
        let mut words = self.fitting_frame();
        if kind < 5 && !words.is_empty() {
            match kind {
                2 => change_one_word(&mut self.random, &mut words),
                3 => words.truncate(self.frames.next(FRAME)),
                _ => words.push(self.random.word()),
            }
        }
        if kind == 2 && self.random.one_in(2) && !words.is_empty() {
            mend_check(&mut words);
        }
        words
    }

    /// Bytes of any count, also such as are no words.
    pub fn bytes(&mut self) -> Vec<u8> {
        let mut bytes: Vec<u8> = self.frame().iter().flat_map(|word| word.to_le_bytes()).collect();
        match self.random.below(4) {
            0 => bytes.truncate(self.frames.next(FRAME)),
            1 => bytes.extend(&self.random.word().to_le_bytes()[..self.random.index(4)]),
            _ => {}
        }
        bytes
    }

    pub fn token(&mut self) -> Vec<u32> {
        let random = &mut self.random;
        let kind = random.below(8);
        if kind == 0 {
            return random.row(self.tokens.next(TOKEN));
        }
        let session = sound_session(random, &self.content);
        let mut parts = Parts::of(&session);
        if kind == 1 || kind == 2 {
            let change = if kind == 1 {
                &BREAKS[random.index(BREAKS.len())]
            } else {
                &CHANGES[random.index(CHANGES.len())]
            };
            (change.apply)(random, &mut parts, &session);
        }
        let mut words = parts.words();
        match kind {
            3 => change_one_word(random, &mut words),
            4 => words.truncate(self.tokens.next(TOKEN)),
            5 => {
                // The counts in the head promise more than the row has.
                words[0] |= random.word() & 0x00FF_FFFF;
                mend_check(&mut words);
            }
            _ => {}
        }
        words
    }

    /// A row to be written to; long enough for most calls, or of each length in turn.
    pub fn row(&mut self) -> Vec<u32> {
        let len = if self.random.one_in(2) { self.rows.next(ROW) } else { 4_600 };
        self.random.row(len)
    }

    pub fn list(&mut self) -> Vec<u32> {
        let len = if self.random.one_in(4) { self.lists.next(LIST) } else { self.random.index(17) };
        let any = self.random.one_in(3);
        let plots = self.content.plots.min(MOST_PLOTS);
        (0..len).map(|_| if any { self.number(plots) } else { self.random.below(plots) }).collect()
    }
}
