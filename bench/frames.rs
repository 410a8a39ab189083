//! Times reading and writing of one frame: archive, model and fast version side by side in one run, archive and
//! fast version through the C interface.
//! All use the same buffers, which are not cleared between calls.

#[path = "../tests/host/archive/mod.rs"]
mod archive;
mod fast;
mod fast_exports;
#[path = "../tests/host/frame_cases.rs"]
mod frame_cases;
#[path = "../tests/model/mod.rs"]
mod model;
#[path = "../tests/host/random.rs"]
mod random;
mod sides;

use model::codec::{self, Frame};
use sides::{Side, ARCHIVE, FAST};
use std::hint::black_box;
use std::time::Instant;

const ROUNDS: usize = 300;
const CALLS: u32 = 1_000;

struct Case {
    frame: Frame,
    words: Vec<u32>,
    row: Vec<u32>,
}

fn read(side: &Side, case: &mut Case) {
    let words = black_box(&case.words);
    let read = unsafe { (side.read_frame)(words.as_ptr(), words.len(), case.frame.offices, 64) };
    assert_eq!(black_box(&read).refusal, 0);
}

fn model_read(_: &Side, case: &mut Case) {
    let read = codec::read_frame(black_box(&case.words), case.frame.offices, 64);
    assert!(black_box(&read).is_ok());
}

fn write(side: &Side, case: &mut Case) {
    let row = &mut case.row;
    let written = unsafe { (side.write_frame)(*black_box(&case.frame), row.as_mut_ptr(), row.len()) };
    assert_eq!(black_box(&written).refusal, 0);
    black_box(&case.row);
}

fn model_write(_: &Side, case: &mut Case) {
    let written = codec::write_frame(black_box(&case.frame), &mut case.row);
    assert!(black_box(written).is_ok());
    black_box(&case.row);
}

type Call = fn(&Side, &mut Case);

/// Nanoseconds for each of many calls.
fn time(call: Call, side: &Side, case: &mut Case) -> f64 {
    let began = Instant::now();
    for _ in 0..CALLS {
        black_box(call)(black_box(side), case);
    }
    began.elapsed().as_nanos() as f64 / CALLS as f64
}

/// The best of rounds that take turns, so that a slow moment of the machine hits all.
fn best(call: Call, model: Call, case: &mut Case) -> [f64; 3] {
    let ways = [(call, &ARCHIVE), (model, &FAST), (call, &FAST)];
    let mut best = [f64::MAX; 3];
    for _ in 0..ROUNDS {
        for (best, (call, side)) in best.iter_mut().zip(ways) {
            *best = best.min(time(call, side, case));
        }
    }
    best
}

fn case(offices: u32, deps: usize) -> Case {
    let mut random = random::Random::new(0xBE7C_4000 + deps as u64);
    let frame = frame_cases::sound_frame(&mut random, offices, offices - 2, deps);
    let words = frame_cases::words_of(&frame);
    let row = vec![0; words.len()];
    Case { frame, words, row }
}

fn print_row(what: &str, offices: u32, deps: usize, [archive, model, fast]: [f64; 3]) {
    let (to_model, to_fast) = (archive / model, archive / fast);
    print!("{what:<6} {offices:>7} {deps:>12} ");
    println!("{archive:>10.1} {model:>10.1} {fast:>10.1} {to_model:>9.2} {to_fast:>9.2}");
}

fn main() {
    println!("                                     ns for each call          archive's time by");
    println!("call   offices dependencies    archive      model       fast     model      fast");
    for (offices, deps) in [(8, 255), (8, 64), (3, 0), (3, 8)] {
        let case = &mut case(offices, deps);
        print_row("read", offices, deps, best(read, model_read, case));
        print_row("write", offices, deps, best(write, model_write, case));
    }
}
