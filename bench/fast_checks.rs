//! Compares the fast version with the model: every call with reply, session, store and rows, also on
//! unsound ones; and what the player prints for scripts.

#[path = "fast_archive.rs"]
mod archive;
mod busy_day;
mod fast;
mod fast_words;
#[path = "../tests/host/frame_breaks.rs"]
mod frame_breaks;
#[path = "../tests/host/frame_cases.rs"]
mod frame_cases;
#[path = "../tests/host/frame_spoils.rs"]
mod frame_spoils;
#[path = "../tests/host/join_calls.rs"]
mod join_calls;
#[path = "../tests/host/join_cases.rs"]
mod join_cases;
#[path = "../tests/host/joined.rs"]
mod joined;
#[path = "../tests/host/joint.rs"]
mod joint;
#[path = "../tests/host/later.rs"]
mod later;
#[path = "../tests/model/mod.rs"]
mod model;
#[path = "../tests/host/pasts.rs"]
mod pasts;
#[path = "../tests/host/random.rs"]
mod random;
#[path = "../tests/host/report.rs"]
mod report;
#[path = "../tests/host/ring.rs"]
mod ring;
#[path = "../tests/host/script_cases.rs"]
mod script_cases;
#[path = "../tests/host/session_cases.rs"]
mod session_cases;
#[path = "../tests/host/session_spoils.rs"]
mod session_spoils;
#[path = "../tests/host/single.rs"]
mod single;
#[path = "../tests/host/store_cases.rs"]
mod store_cases;
#[path = "../tests/host/swapped.rs"]
mod swapped;
#[path = "../tests/host/token_cases.rs"]
mod token_cases;
#[path = "../tests/host/tracked.rs"]
mod tracked;
#[path = "../tests/host/twin.rs"]
mod twin;

use fast::queue::{Queue, WAITING};
use fast_words::Words;
use random::Random;
use report::Report;
use script_cases::{edge_scripts, some_script};
use std::collections::VecDeque;
use std::io::Read;
use std::process::ExitCode;
use twin::Twin;

const SEED: u64 = 0xFA57_2026_0101_5EED;

/// Each way in which a call can end; a run that misses one has not tested it.
const OUTCOMES: &[(&str, &[u32])] = &[
    ("store_need", &[1]),
    ("store_settings", &[2]),
    ("open_office", &[1, 2]),
    ("fresh_session", &[1]),
    ("read_plot", &[2, 3, 4, 12]),
    ("read_joint", &[2, 3, 4, 8, 12]),
    ("write", &[2, 3, 4, 5, 6, 7, 8, 10, 11, 12]),
    ("receive", &[2, 8, 9, 10, 11, 12]),
    ("read_frame", &[1, 9]),
    ("write_frame", &[8]),
    ("read_token", &[1, 9]),
    ("write_token", &[3, 8]),
];

/// How the calls that are accepted end.
const ACCEPTED: &[&str] = &[
    "store_need: accepted",
    "store_settings: accepted",
    "open_office: accepted",
    "fresh_session: accepted",
    "read_plot: none",
    "read_plot: presented",
    "read_plot: own",
    "read_joint: one plot alone",
    "read_joint: goes together",
    "read_joint: keeps the session's past",
    "read_joint: keeps both pasts",
    "write: later by a joined session",
    "write: accepted",
    "write: carried",
    "receive: brought out",
    "receive: went on",
    "receive: went on, check gone round",
    "receive: went on, 200 words or more",
    "read_frame: accepted",
    "write_frame: accepted",
    "read_token: accepted",
    "write_token: accepted",
];

/// Gives a script in pieces of any size.
struct Pieces<'a> {
    script: &'a [u8],
    random: &'a mut Random,
}

impl Read for Pieces<'_> {
    fn read(&mut self, into: &mut [u8]) -> std::io::Result<usize> {
        let most = into.len().min(1 + self.random.index(40));
        self.script.read(&mut into[..most])
    }
}

/// What the player prints, and what it prints where the script comes in pieces.
fn played(script: &[u8], random: &mut Random) -> std::io::Result<(Vec<u8>, Vec<u8>)> {
    let (mut whole, mut pieces) = (Vec::new(), Vec::new());
    fast::script::play(script, &mut whole)?;
    fast::script::play(Pieces { script, random }, &mut pieces)?;
    Ok((whole, pieces))
}

fn compare(report: &mut Report, name: &str, script: &[u8], random: &mut Random) {
    let expected = model::script::play(script).into_bytes();
    let printed = played(script, random);
    let holds = printed.is_ok_and(|(whole, pieces)| whole == expected && pieces == expected);
    report.check(name, holds, || {
        format!("{} bytes: {:?}", script.len(), String::from_utf8_lossy(&script[..script.len().min(300)]))
    });
}

/// The longest line of a known form, and some that are longer by little.
const LONG_LINES: &str =
    "W 0 4294967295 4294967295\nW 0 4294967295 42949672950\nW 0 4294967295 4294967295 \n\
    W 0 4294967295 4294967295x\nW 0 42949672950 4294967295\nW 0 63 268435455\n";

/// Words that stand for a frame: its head gives the length.
fn some_frame(random: &mut Random, offices: u32) -> Vec<u32> {
    let deps = random.index(32 * offices as usize);
    let mut words = random.row(4 + offices as usize + deps);
    words[0] = words[0] & !0xFF | deps as u32;
    words
}

/// A queue beside one of the library, long enough for its words to move.
fn queues(random: &mut Random, report: &mut Report) {
    let (mut queue, mut twin) = (Queue::new(3), VecDeque::new());
    for _ in 0..2_000 {
        let frames = random.index(18);
        if twin.len() + frames <= WAITING {
            let frames: Vec<Vec<u32>> = (0..frames).map(|_| some_frame(random, 3)).collect();
            let words = frames.concat();
            queue.row()[..words.len()].copy_from_slice(&words);
            queue.push(words.len());
            twin.extend(frames);
        }
        let front: Option<&Vec<u32>> = twin.front();
        let same = queue.front() == front.map(|frame| &frame[..]) && queue.count == twin.len();
        report.check("queue: as many and the same", same, || format!("{} waiting", twin.len()));
        // One always waits, so that the words are never at the front by themselves.
        if twin.len() > 1 {
            queue.pop(twin[0].len());
            twin.pop_front();
        }
    }
}

fn scripts(random: &mut Random, mut report: Report) -> Report {
    for script in edge_scripts() {
        compare(&mut report, "script: edges", &script, random);
    }
    for _ in 0..100 {
        compare(&mut report, "script: long lines", LONG_LINES.as_bytes(), random);
    }
    for seed in busy_day::SEEDS {
        compare(&mut report, "script: busy days of 10,000 lines", &busy_day::script(seed, 10_000), random);
    }
    for _ in 0..50 {
        let (seed, lines) = (random.word(), 1_000 + random.index(1_000));
        compare(&mut report, "script: busy days", &busy_day::script(seed, lines), random);
        let script = some_script(random, 1_000);
        compare(&mut report, "script: random", &script, random);
    }
    report
}

fn offices(random: Random, report: Report) -> (Random, Report) {
    let mut twin = Twin { random, report };
    single::needs(&mut twin);
    (0..12_000).for_each(|_| single::calls(&mut twin));
    (0..2_000).for_each(|_| single::any_words(&mut twin));
    (0..200).for_each(|_| ring::play(&mut twin));
    (twin.random, twin.report)
}

fn words(random: Random, report: Report) -> (Random, Report) {
    let mut words = Words { random, report };
    words.settings();
    for offices in 2..=8 {
        words.round_the_end(offices);
        for deps in 0..32 * offices as usize {
            words.frames(offices, deps as u32 % (offices - 1), deps);
        }
    }
    (0..20_000).for_each(|_| words.random_words());
    (0..3_000).for_each(|_| words.tokens());
    (words.random, words.report)
}

fn main() -> ExitCode {
    let (random, report) = offices(Random::new(SEED), Report::default());
    let (mut random, mut report) = words(random, report);
    (0..1_000).for_each(|_| join_calls::calls(&mut random, &mut report));
    join_calls::met(&mut report, 300);
    let mut report = scripts(&mut random, report);
    queues(&mut random, &mut report);
    ACCEPTED.iter().for_each(|name| report.met(name));
    joint::ACCEPTED.iter().for_each(|name| report.met(&format!("read_joint: {name}")));
    swapped::ALIKE.iter().for_each(|name| report.met(&format!("join: {name}")));
    for (call, refusals) in OUTCOMES {
        refusals.iter().for_each(|refusal| report.met(&format!("{call}: refused {refusal}")));
    }
    report.finish("fast")
}
