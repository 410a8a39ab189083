//! Runs a program on a script: what it prints, and how long it takes.

use std::fs::File;
use std::path::Path;
use std::process::{Command, Stdio};
use std::time::Instant;

/// Milliseconds.
#[derive(Clone, Copy, Default)]
pub struct Times {
    pub wall: f64,
    /// User and system time.
    pub cpu: f64,
}

impl Times {
    pub const MOST: Times = Times { wall: f64::MAX, cpu: f64::MAX };

    pub fn least(&self, other: &Times) -> Times {
        Times { wall: self.wall.min(other.wall), cpu: self.cpu.min(other.cpu) }
    }

    pub fn add(&mut self, other: &Times) {
        self.wall += other.wall;
        self.cpu += other.cpu;
    }
}

/// Two times of seconds and microseconds, user and system, and fourteen numbers more.
type Usage = [i64; 18];
const CHILDREN: i32 = -1;

extern "C" {
    fn getrusage(who: i32, usage: *mut Usage) -> i32;
}

/// The milliseconds that ended children have taken so far.
fn cpu_of_children() -> f64 {
    let mut usage = [0; 18];
    // It writes as many words as a Usage has on Linux with 64 bits.
    let status = unsafe { getrusage(CHILDREN, &mut usage) };
    assert_eq!(status, 0, "getrusage");
    (usage[0] + usage[2]) as f64 * 1e3 + (usage[1] + usage[3]) as f64 / 1e3
}

fn command(words: &[String], script: &Path) -> Command {
    let mut command = Command::new(&words[0]);
    command.args(&words[1..]).stdin(File::open(script).expect("the script"));
    command
}

pub fn printed(words: &[String], script: &Path) -> Vec<u8> {
    command(words, script).output().expect("the program starts").stdout
}

/// What it prints goes nowhere, so that nobody waits for a reader.
pub fn timed(words: &[String], script: &Path) -> Times {
    let mut command = command(words, script);
    command.stdout(Stdio::null());
    let (before, began) = (cpu_of_children(), Instant::now());
    let status = command.status().expect("the program starts");
    let wall = began.elapsed().as_secs_f64() * 1e3;
    assert!(status.success(), "the program ends well");
    Times { wall, cpu: cpu_of_children() - before }
}
