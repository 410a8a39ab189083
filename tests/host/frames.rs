//! Compares the archive's reading, writing and checking of frames with the model, call by call.

mod archive;
mod frame_breaks;
mod frame_cases;
mod frame_spoils;
#[path = "../model/mod.rs"]
mod model;
mod random;
mod report;

use archive::frames as archive_frames;
use frame_breaks::BREAKS;
use frame_cases::{change_one_word, sound_frame, words_of};
use frame_spoils::{OF_ENTRY, OF_RING};
use model::checks;
use model::codec::{self, Frame};
use random::Random;
use report::Report;
use std::process::ExitCode;

const SEED: u64 = 0x0B0A_2026_0101_5EED;

struct Test {
    random: Random,
    report: Report,
}

fn reply<T: Default>(result: Result<T, u32>) -> (u32, T) {
    match result {
        Ok(value) => (0, value),
        Err(refusal) => (refusal, T::default()),
    }
}

impl Test {
    /// Reads words, and checks the same as bytes. Where document 01 settles the refusal, it is
    /// given, so that a fault in the model shows too.
    fn read(&mut self, name: &str, words: &[u32], offices: u32, plots: u32, refusal: Option<u32>) {
        let archive = archive_frames::read_frame(words, offices, plots);
        let model = reply(codec::read_frame(words, offices, plots));
        let holds = archive == model && refusal.is_none_or(|r| r == archive.0);
        self.report.check(&format!("read: {name}"), holds, || {
            format!("archive {archive:?}\n  model {model:?}\n  {refusal:?} {offices} {plots} {words:08X?}")
        });
        self.check(name, &checks::bytes_of(words), offices, plots, refusal);
    }

    /// Checks bytes that start at any alignment.
    fn check(&mut self, name: &str, bytes: &[u8], offices: u32, plots: u32, refusal: Option<u32>) {
        let shift = self.random.index(4);
        let mut moved = vec![0xA5; shift];
        moved.extend_from_slice(bytes);
        let archive = archive_frames::check_frame(&moved[shift..], offices, plots);
        let model = codec::check_frame(bytes, offices, plots);
        let holds = archive == model && refusal.is_none_or(|r| r == archive);
        self.report.check(&format!("check: {name}"), holds, || {
            format!("archive {archive}, model {model}: {refusal:?} {offices} {plots} {bytes:02X?}")
        });
    }

    /// Writes into rows of the same random words, and compares every word.
    fn write(&mut self, name: &str, frame: &Frame, room: usize, refusal: u32) -> Vec<u32> {
        let mut row = self.random.row(room);
        let mut model_row = row.clone();
        let archive = archive_frames::write_frame(frame, &mut row);
        let model = reply(codec::write_frame(frame, &mut model_row));
        let holds = archive == model && row == model_row && archive.0 == refusal;
        self.report.check(&format!("write: {name}"), holds, || {
            format!(
                "archive {archive:?} {row:08X?}\n  model {model:?} {model_row:08X?}\n  {refusal} {frame:?}"
            )
        });
        row
    }

    fn reads_of_sound(&mut self, frame: &Frame, words: &[u32]) {
        let (offices, plot) = (frame.offices, frame.entry.plot);
        self.read("sound", words, offices, 64, Some(0));
        let content = archive_frames::read_frame(words, offices, 64).1;
        self.report.same("read: content of a sound frame", &content, frame);
        self.read("plots just cover", words, offices, plot + 1, Some(0));
        // Without any plots the settings are out of range.
        let too_few = if plot == 0 { 1 } else { 9 };
        self.read("plots just too few", words, offices, plot, Some(too_few));
        let other = 2 + (offices - 2 + self.random.between(1, 6)) % 7;
        self.read("other ring", words, other, 64, Some(9));
    }

    fn reads_of_damaged(&mut self, words: &[u32], offices: u32) {
        for _ in 0..8 {
            let mut damaged = words.to_vec();
            change_one_word(&mut self.random, &mut damaged);
            self.read("one word changed", &damaged, offices, 64, Some(9));
        }
        let cut = self.random.index(words.len());
        self.read("cut short", &words[..cut], offices, 64, Some(9));
        self.read("last word missing", &words[..words.len() - 1], offices, 64, Some(9));
        let any = self.random.word();
        let extra = self.random.pick(&[0, words[words.len() - 1], 0xF000_0000, any]);
        self.read("one word more", &[words, &[extra]].concat(), offices, 64, Some(9));
        self.read("twice", &[words, words].concat(), offices, 64, Some(9));
    }

    fn reads_of_broken(&mut self, frame: &Frame) {
        for broken in BREAKS {
            if let Some(words) = broken.apply(&mut self.random, frame) {
                self.read(broken.name, &words, frame.offices, 64, Some(9));
            }
        }
    }

    fn reads_out_of_settings(&mut self, words: &[u32], offices: u32) {
        let bad_ring = self.random.pick(&[0, 1, 9, 16, 256 + offices, u32::MAX]);
        let bad_plots = self.random.pick(&[0, 65, 128, 320, u32::MAX]);
        self.read("ring size out of range", words, bad_ring, 64, Some(1));
        self.read("plots out of range", words, offices, bad_plots, Some(1));
        let mut damaged = words.to_vec();
        change_one_word(&mut self.random, &mut damaged);
        self.read("settings before words", &damaged, bad_ring, bad_plots, Some(1));
    }

    fn checks_of_odd_bytes(&mut self, words: &[u32], offices: u32) {
        let bytes = checks::bytes_of(words);
        let off = self.random.between(1, 3) as usize;
        let mut long = bytes.clone();
        long.extend(std::iter::repeat_n(0, off));
        for bytes in [&long, &bytes[..bytes.len() - off]] {
            self.check("bytes not divisible by 4", bytes, offices, 64, Some(9));
            self.check("settings before bytes", bytes, 9, 64, Some(1));
        }
    }

    fn writes_of_sound(&mut self, frame: &Frame, words: &[u32]) {
        let room = words.len();
        let row = self.write("exact room", frame, room, 0);
        self.report.check("write: words of a sound frame", row == words, || format!("{frame:?}"));
        self.write("one word short", frame, room - 1, 8);
        let short = self.random.index(room);
        self.write("any short room", frame, short, 8);
        let long = room + self.random.between(1, 40) as usize;
        self.write("room to spare", frame, long, 0);
    }

    fn writes_of_spoilt(&mut self, frame: &Frame) {
        for spoil in OF_RING.iter().chain(OF_ENTRY) {
            let mut spoilt = *frame;
            (spoil.apply)(&mut self.random, &mut spoilt);
            // 3 comes before 8, so the room may be short too.
            let room = if self.random.one_in(2) { self.random.index(280) } else { 300 };
            self.write(spoil.name, &spoilt, room, 3);
        }
    }

    fn all_of(&mut self, offices: u32, hops: u32, deps: usize) {
        let frame = sound_frame(&mut self.random, offices, hops, deps);
        let words = words_of(&frame);
        self.reads_of_sound(&frame, &words);
        self.reads_of_damaged(&words, offices);
        self.reads_of_broken(&frame);
        self.reads_out_of_settings(&words, offices);
        self.checks_of_odd_bytes(&words, offices);
        self.writes_of_sound(&frame, &words);
        self.writes_of_spoilt(&frame);
    }

    fn random_words(&mut self) {
        let len = self.random.index(40);
        let (offices, plots) = (self.random.between(2, 8), self.random.between(1, 64));
        let mut words = self.random.row(len);
        self.read("random words", &words, offices, plots, None);
        // With a likely head the words come further before they are refused.
        if let Some(head) = words.first_mut() {
            *head = 0x1001_0000 | offices << 8 | self.random.below(4);
        }
        self.read("random words after a head", &words, offices, plots, None);
        for (word, kind) in words.iter_mut().skip(1).zip([3, 4, 5, 5, 5, 5, 5, 5, 5, 5]) {
            *word = kind << 28 | *word & 0x1F;
        }
        self.read("random words of likely kinds", &words, offices, plots, None);
    }
}

fn main() -> ExitCode {
    let mut test = Test { random: Random::new(SEED), report: Report::default() };
    let a = (&checks::FRAME_A[..], checks::content_a());
    let b = (&checks::FRAME_B[..], checks::content_b());
    for (words, content) in [a, b] {
        test.reads_of_sound(&content, words);
        test.writes_of_sound(&content, words);
    }
    for offices in 2..=8 {
        for hops in 0..=offices - 2 {
            for deps in 0..32 * offices as usize {
                test.all_of(offices, hops, deps);
            }
        }
    }
    for _ in 0..20_000 {
        test.random_words();
    }
    test.report.finish("frames")
}
