//! Compares the archive's calls on tokens, opening and fresh sessions with the model.

mod archive;
mod frame_cases;
#[path = "../model/mod.rs"]
mod model;
mod random;
mod report;
mod session_cases;
mod store_cases;
mod token_cases;

use archive::tokens as archive_tokens;
use frame_cases::change_one_word;
use model::office::open_office;
use model::session::{fresh_session, Session};
use model::token::{read_token, token_words, write_token};
use random::Random;
use report::Report;
use session_cases::{damage_session, random_session, sound_session, zeros_beyond};
use std::process::ExitCode;
use store_cases::Content;
use token_cases::{Parts, BREAKS, CHANGES};

const SEED: u64 = 0x70C3_2026_0101_5EED;

struct Test {
    random: Random,
    report: Report,
}

impl Test {
    fn read(&mut self, name: &str, words: &[u32], offices: u32, plots: u32, refusal: Option<u32>) {
        let archive = archive_tokens::read_token(words, offices, plots);
        let model = match read_token(words, offices, plots) {
            Ok(session) => (0, session),
            Err(refusal) => (refusal, Session::default()),
        };
        let holds = archive == model && refusal.is_none_or(|r| r == archive.0);
        self.report.check(&format!("read: {name}"), holds, || {
            format!("archive {archive:?}\n  model {model:?}\n  {refusal:?} {offices} {plots} {words:08X?}")
        });
    }

    fn write(&mut self, name: &str, session: &Session, room: usize, refusal: Option<u32>) -> Vec<u32> {
        let mut row = self.random.row(room);
        let mut model_row = row.clone();
        let archive = archive_tokens::write_token(session, &mut row);
        let model =
            write_token(session, &mut model_row).map_or_else(|refusal| (refusal, 0), |words| (0, words));
        let holds = archive == model && row == model_row && refusal.is_none_or(|r| r == archive.0);
        self.report.check(&format!("write: {name}"), holds, || {
            format!("archive {archive:?}, model {model:?}: {refusal:?} {room} {session:?}")
        });
        row
    }

    fn writes(&mut self, session: &Session, words: &[u32]) {
        let room = words.len();
        let row = self.write("exact room", session, room, Some(0));
        self.report.check("write: words of a sound session", row == words, || format!("{session:?}"));
        self.write("one word short", session, room - 1, Some(8));
        let short = self.random.index(room);
        self.write("any short room", session, short, Some(8));
        self.write("room to spare", session, room + 9, Some(0));
        let mut damaged = *session;
        damage_session(&mut self.random, &mut damaged);
        self.write("one field changed", &damaged, room + 9, None);
        self.write("one field changed and no room", &damaged, 0, None);
    }

    fn reads(&mut self, words: &[u32], content: &Content) {
        let (offices, plots) = (content.offices, content.plots);
        self.read("sound", words, offices, plots, Some(0));
        let fewer = self.random.between(1, plots);
        self.read("fewer plots", words, offices, fewer, None);
        let other = 2 + (offices - 2 + self.random.between(1, 6)) % 7;
        self.read("other ring", words, other, plots, Some(9));
        let bad_ring = self.random.pick(&[0, 1, 9, u32::MAX]);
        let bad_plots = self.random.pick(&[0, 65, u32::MAX]);
        self.read("ring size out of range", words, bad_ring, plots, Some(1));
        self.read("plots out of range", words, offices, bad_plots, Some(1));
        for _ in 0..6 {
            let mut damaged = words.to_vec();
            change_one_word(&mut self.random, &mut damaged);
            self.read("one word changed", &damaged, offices, plots, Some(9));
        }
        let cut = self.random.index(words.len());
        self.read("cut short", &words[..cut], offices, plots, Some(9));
        let any = self.random.word();
        self.read("one word more", &[words, &[any]].concat(), offices, plots, Some(9));
    }

    fn reads_of_broken(&mut self, session: &Session, content: &Content) {
        for broken in BREAKS {
            let mut parts = Parts::of(session);
            if (broken.apply)(&mut self.random, &mut parts, session) {
                self.read(broken.name, &parts.words(), content.offices, content.plots, Some(9));
            }
        }
        for change in CHANGES {
            let mut parts = Parts::of(session);
            if (change.apply)(&mut self.random, &mut parts, session) {
                self.read(change.name, &parts.words(), content.offices, content.plots, None);
            }
        }
    }

    fn tokens(&mut self) {
        let content = Content::sound(&mut self.random);
        let session = sound_session(&mut self.random, &content);
        let words = Parts::of(&session).words();
        let read = archive_tokens::read_token(&words, content.offices, content.plots);
        self.report.same("read: content of a sound token", &read, &(0, zeros_beyond(&session)));
        self.report.same("model: words of a token", &token_words(&session), &words.len());
        self.reads(&words, &content);
        self.reads_of_broken(&session, &content);
        self.writes(&session, &words);
        let any = random_session(&mut self.random);
        self.write("any words", &any, 5000, Some(3));
    }

    fn open(&mut self, offices: u32, own: u32, plots: u32, room: usize) {
        let mut store = self.random.row(room);
        let mut model_store = store.clone();
        let archive = archive_tokens::open_office(offices, own, plots, &mut store);
        let model = open_office(offices, own, plots, &mut model_store).err().unwrap_or(0);
        let name = if model == 0 { "open: accepted".to_string() } else { format!("open: refused {model}") };
        self.report.check(&name, archive == model && store == model_store, || {
            format!("archive {archive}, model {model}: {offices} {own} {plots} {room}")
        });
    }

    fn opens(&mut self) {
        for offices in (0..12).chain([255, u32::MAX]) {
            for own in (0..10).chain([u32::MAX]) {
                for plots in [0, 1, 64, 65, u32::MAX] {
                    let need = 19 + 576 * offices.clamp(2, 8) as usize;
                    for room in [0, 2, 19, need - 1, need, need + 7] {
                        self.open(offices, own, plots, room);
                    }
                }
            }
        }
    }

    fn fresh(&mut self) {
        for offices in (0..20).chain([255, 256, 258, u32::MAX]) {
            let archive = archive_tokens::fresh_session(offices);
            let model =
                fresh_session(offices).map_or_else(|r| (r, Session::default()), |session| (0, session));
            self.report.same("fresh session", &archive, &model);
        }
    }
}

fn main() -> ExitCode {
    let mut test = Test { random: Random::new(SEED), report: Report::default() };
    test.opens();
    test.fresh();
    for _ in 0..4_000 {
        test.tokens();
    }
    test.report.finish("tokens")
}
