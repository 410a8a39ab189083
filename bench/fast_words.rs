//! Compares the fast version's calls on frames, tokens, opening and fresh sessions with the model.

use crate::fast::{frame, office, session as fast_session, token};
use crate::frame_breaks;
use crate::frame_cases::{change_one_word, mend_check, sound_frame, words_of};
use crate::frame_spoils::{OF_ENTRY, OF_RING};
use crate::model::codec::{self, Frame};
use crate::model::session::{fresh_session, Session};
use crate::model::{office as model_office, token as model_token};
use crate::random::Random;
use crate::report::Report;
use crate::session_cases::{damage_session, random_session, sound_session};
use crate::store_cases::Content;
use crate::token_cases::{self, Parts};

pub struct Words {
    pub random: Random,
    pub report: Report,
}

fn outcome<T>(call: &str, model: &Result<T, u32>) -> String {
    match model {
        Ok(_) => format!("{call}: accepted"),
        Err(refusal) => format!("{call}: refused {refusal}"),
    }
}

impl Words {
    /// Compares replies, and rows where there are some.
    fn same<T: PartialEq + std::fmt::Debug>(
        &mut self,
        call: &str,
        fast: (Result<T, u32>, &[u32]),
        model: (Result<T, u32>, &[u32]),
    ) {
        self.report.check(&outcome(call, &model.0), fast == model, || {
            format!("fast {:08X?}\n  model {:08X?}", fast, model)
        });
    }

    fn read_frame_of(&mut self, name: &str, words: &[u32], offices: u32, plots: u32) {
        let fast = frame::read_frame(words, offices, plots);
        self.same(name, (fast, &[]), (codec::read_frame(words, offices, plots), &[]));
    }

    fn read_frame(&mut self, words: &[u32], offices: u32, plots: u32) {
        self.read_frame_of("read_frame", words, offices, plots);
    }

    fn write_frame(&mut self, name: &str, content: &Frame, room: usize) {
        let mut row = self.random.row(room);
        let mut model_row = row.clone();
        let fast = frame::write_frame(content, &mut row);
        let model = codec::write_frame(content, &mut model_row);
        self.same(name, (fast, &row), (model, &model_row));
    }

    fn read_token_of(&mut self, name: &str, words: &[u32], offices: u32, plots: u32) {
        let fast = token::read_token(words, offices, plots);
        self.same(name, (fast, &[]), (model_token::read_token(words, offices, plots), &[]));
    }

    fn read_token(&mut self, words: &[u32], offices: u32, plots: u32) {
        self.read_token_of("read_token", words, offices, plots);
    }

    fn write_token(&mut self, session: &Session, room: usize) {
        let mut row = self.random.row(room);
        let mut model_row = row.clone();
        let fast = token::write_token(session, &mut row);
        let model = model_token::write_token(session, &mut model_row);
        self.same("write_token", (fast, &row), (model, &model_row));
    }

    fn open(&mut self, offices: u32, own: u32, plots: u32, room: usize) {
        let mut store = self.random.row(room);
        let mut model_store = store.clone();
        let fast = office::open_office(offices, own, plots, &mut store);
        let model = model_office::open_office(offices, own, plots, &mut model_store);
        self.same("open_office", (fast, &store), (model, &model_store));
    }

    pub fn settings(&mut self) {
        for offices in (0..12).chain([255, 256, 258, u32::MAX]) {
            let fast = fast_session::fresh_session(offices);
            self.same("fresh_session", (fast, &[]), (fresh_session(offices), &[]));
            for own in (0..10).chain([u32::MAX]) {
                for plots in [0, 1, 64, 65, u32::MAX] {
                    let need = 19 + 576 * offices.clamp(2, 8) as usize;
                    for room in [0, 2, 19, need - 1, need, need + 7] {
                        self.open(offices, own, plots, room);
                    }
                }
            }
        }
    }

    /// Words with some of them changed, cut off or added, and for other settings.
    fn reads(&mut self, words: &[u32], (offices, plots): (u32, u32), read: fn(&mut Self, &[u32], u32, u32)) {
        read(self, words, offices, plots);
        for _ in 0..6 {
            let mut damaged = words.to_vec();
            change_one_word(&mut self.random, &mut damaged);
            read(self, &damaged, offices, plots);
        }
        let cut = self.random.index(words.len());
        read(self, &words[..cut], offices, plots);
        read(self, &words[..words.len() - 1], offices, plots);
        let (more, ring, fewer) = (self.random.word(), self.random.below(11), self.random.below(67));
        read(self, &[words, &[more]].concat(), offices, plots);
        read(self, words, ring, plots);
        read(self, words, offices, fewer);
    }

    pub fn frames(&mut self, offices: u32, hops: u32, deps: usize) {
        let content = sound_frame(&mut self.random, offices, hops, deps);
        let words = words_of(&content);
        self.reads(&words, (offices, 64), Self::read_frame);
        for broken in frame_breaks::BREAKS {
            if let Some(words) = broken.apply(&mut self.random, &content) {
                self.read_frame_of(&format!("read_frame, {}", broken.name), &words, offices, 64);
            }
        }
        let short = self.random.index(words.len());
        for room in [words.len(), words.len() - 1, short, words.len() + 9, 300] {
            self.write_frame("write_frame", &content, room);
        }
        for spoil in OF_RING.iter().chain(OF_ENTRY) {
            let mut spoilt = content;
            (spoil.apply)(&mut self.random, &mut spoilt);
            let room = self.random.pick(&[0, 300]);
            self.write_frame(&format!("write_frame, {}", spoil.name), &spoilt, room);
        }
    }

    /// Ids whose words go round past 2^32: their differences are those of ids in order.
    pub fn round_the_end(&mut self, offices: u32) {
        let content = sound_frame(&mut self.random, offices, 0, 2);
        let mut words = words_of(&content);
        let (first, serial) = (3 + offices as usize, self.random.between(1, 32));
        words[first] = 0xFFFF_FF00 | serial;
        words[first + 1] = words[first].wrapping_add(0x100);
        mend_check(&mut words);
        self.read_frame_of("read_frame, ids past the end of words", &words, offices, 64);
    }

    pub fn random_words(&mut self) {
        let len = self.random.index(40);
        let (offices, plots) = (self.random.between(2, 8), self.random.between(1, 64));
        let mut words = self.random.row(len);
        self.read_frame(&words, offices, plots);
        self.read_token(&words, offices, plots);
        // With a likely head the words come further before they are refused.
        if let Some(head) = words.first_mut() {
            *head = 0x1001_0000 | offices << 8 | self.random.below(4);
        }
        for (word, kind) in words.iter_mut().skip(1).zip([3, 4, 5, 5, 5, 5, 5, 5, 5, 5]) {
            *word = kind << 28 | *word & 0x1F;
        }
        self.read_frame(&words, offices, plots);
    }

    pub fn tokens(&mut self) {
        let content = Content::sound(&mut self.random);
        let session = sound_session(&mut self.random, &content);
        let words = Parts::of(&session).words();
        self.reads(&words, (content.offices, content.plots), Self::read_token);
        for broken in token_cases::BREAKS.iter().chain(token_cases::CHANGES) {
            let mut parts = Parts::of(&session);
            if (broken.apply)(&mut self.random, &mut parts, &session) {
                let name = format!("read_token, {}", broken.name);
                self.read_token_of(&name, &parts.words(), content.offices, content.plots);
            }
        }
        let short = self.random.index(words.len());
        for room in [words.len(), words.len() - 1, short, words.len() + 9, 5_000] {
            self.write_token(&session, room);
        }
        for room in [0, 5_000] {
            let mut damaged = session;
            damage_session(&mut self.random, &mut damaged);
            self.write_token(&damaged, room);
        }
        let any = random_session(&mut self.random);
        self.write_token(&any, 5_000);
        self.serials(session);
    }

    /// A first entry whose serial and own number agree, in range or not.
    fn serials(&mut self, mut session: Session) {
        let serial = self.random.pick(&[0, 1, 32, 33, 64, 1 << 31, u32::MAX]);
        if let Some(entry) = session.own[..session.count].first_mut() {
            entry.serial = serial;
            entry.clock[entry.office as usize] = serial;
        }
        self.write_token(&session, 5_000);
    }
}
