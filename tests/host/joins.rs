//! Compares the archive's join of two sessions with the model: the refusal, and every word of the session.

mod archive;
mod frame_cases;
mod frame_spoils;
mod join_calls;
mod join_cases;
mod joined;
#[path = "../model/mod.rs"]
mod model;
mod random;
mod report;
mod session_cases;
mod session_spoils;
mod store_cases;

use random::Random;
use report::Report;
use std::process::ExitCode;

const SEED: u64 = 0x1014_2026_0401_5EED;

fn main() -> ExitCode {
    let (mut random, mut report) = (Random::new(SEED), Report::default());
    (0..3_000).for_each(|_| join_calls::calls(&mut random, &mut report));
    join_calls::met(&mut report, 1_000);
    report.finish("joins")
}
