//! Compares the archive's calls on one office with the model: reply, session, and every word of
//! the store and of each row.

mod archive;
mod frame_cases;
mod joined;
mod joint;
mod later;
#[path = "../model/mod.rs"]
mod model;
mod pasts;
mod random;
mod report;
mod ring;
mod session_cases;
mod single;
mod store_cases;
mod swapped;
mod tracked;
mod twin;

use random::Random;
use report::Report;
use std::process::ExitCode;
use twin::Twin;

const SEED: u64 = 0x0FF1_CE20_2601_5EED;

const PLOT: &[&str] = &["none", "presented", "own", "refused 2", "refused 3", "refused 4", "refused 12"];
const JOINT: &[&str] = &["one plot alone", "refused 2", "refused 3", "refused 4", "refused 8", "refused 12"];
const WRITE: &[&str] = &[
    "accepted",
    "carried",
    "refused 2",
    "refused 3",
    "refused 4",
    "refused 5",
    "refused 6",
    "refused 7",
    "refused 8",
    "refused 10",
    "refused 11",
    "refused 12",
];
const RECEIVE: &[&str] = &[
    "brought out",
    "went on",
    "went on, check gone round",
    "went on, 200 words or more",
    "refused 2",
    "refused 8",
    "refused 9",
    "refused 10",
    "refused 11",
    "refused 12",
];

/// Each way in which a call can end; a run that misses one has not tested it.
const OUTCOMES: &[(&str, &[&str])] = &[
    ("store_need", &["accepted", "refused 1"]),
    ("store_settings", &["accepted", "refused 2"]),
    ("read_plot", PLOT),
    ("read_plot, lent", PLOT),
    ("read_joint", joint::ACCEPTED),
    ("read_joint, lent", joint::ACCEPTED),
    ("read_joint", JOINT),
    ("read_joint, lent", JOINT),
    ("read_joint", &["goes together", "keeps the session's past", "keeps both pasts"]),
    ("write", WRITE),
    ("write, lent", WRITE),
    ("receive", RECEIVE),
    ("write", &later::PAST),
    ("write", &later::VISIBLE),
    ("write", &later::RINGS),
    ("write", &["a new id", "same in session, frame and store"]),
    ("write", &[later::CORRECTED, later::BY_COPY, later::BY_TOKEN, later::BY_JOIN]),
    ("stores", &later::PAST),
    ("read_plot", &["keeps the session's past", "keeps both pasts"]),
    ("read_plot", &["visible or above", "never what was corrected"]),
    ("pasts", &["lack only what an own entry outranks", "no chain comes back"]),
    ("token", &["the session itself"]),
    ("join", &joined::ACCEPTED),
    (
        "join",
        &["accepted", "refused 7", "swapped, the same but for the order", "in a run no entry is refused"],
    ),
    ("join", &swapped::ALIKE),
];

fn main() -> ExitCode {
    let mut twin = Twin { random: Random::new(SEED), report: Report::default() };
    single::needs(&mut twin);
    for _ in 0..20_000 {
        single::calls(&mut twin);
    }
    for _ in 0..2_000 {
        single::any_words(&mut twin);
    }
    for _ in 0..500 {
        ring::play(&mut twin);
    }
    for (call, outcomes) in OUTCOMES {
        for outcome in *outcomes {
            twin.report.met(&format!("{call}: {outcome}"));
        }
    }
    twin.report.finish("office")
}
