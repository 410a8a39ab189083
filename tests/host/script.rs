//! Plays random scripts through the ring program, given by its path, and compares its output
//! with the model's, byte by byte; then lets its input and output fail, also under 'scripts/play'.

#[path = "../model/mod.rs"]
mod model;
mod random;
mod report;
mod script_cases;
mod script_faults;

use model::script::play;
use random::Random;
use report::Report;
use script_cases::{edge_scripts, some_script};
use script_faults::check_faults;
use std::io::Write;
use std::process::{Command, ExitCode, Stdio};

const SEED: u64 = 0x5C21_2026_0101_5EED;
const SCRIPTS: usize = 500;
const LINES: usize = 1_000;

/// Each kind of reply that a script can bring about.
const REPLIES: &[&str] = &[
    "W",
    "R",
    "R none",
    "M ok",
    "H",
    "H none",
    "refused 4",
    "refused 5",
    "refused 6",
    "refused 7",
    "full",
    "line?",
];

/// What the program writes, or why it gave nothing to compare.
fn run(program: &str, script: &[u8]) -> Result<Vec<u8>, String> {
    let mut child = Command::new(program)
        .stdin(Stdio::piped())
        .stdout(Stdio::piped())
        .stderr(Stdio::piped())
        .spawn()
        .map_err(|error| format!("{program} does not start: {error}"))?;
    let mut input = child.stdin.take().unwrap();
    let script = script.to_vec();
    // By itself, since the program may write before it has read all.
    let writer = std::thread::spawn(move || input.write_all(&script));
    let output = child.wait_with_output().map_err(|error| error.to_string())?;
    let written = writer.join().unwrap();
    if !output.status.success() {
        return Err(format!("the program ended with {}", output.status));
    }
    if !output.stderr.is_empty() {
        return Err(format!("the program said {}", String::from_utf8_lossy(&output.stderr)));
    }
    written.map_err(|error| format!("the program did not read its input: {error}"))?;
    Ok(output.stdout)
}

/// The reply without its numbers, but for refusals.
fn kind(reply: &str) -> &str {
    match reply.split(' ').next() {
        Some(word @ ("W" | "H" | "R")) if !reply.ends_with("none") => word,
        _ => reply,
    }
}

fn context(script: &[u8], output: &[u8], expected: &str) -> String {
    let lines: Vec<&[u8]> = output.split(|&byte| byte == b'\n').collect();
    let wanted: Vec<&str> = expected.split('\n').collect();
    let same = |at: &usize| lines.get(*at).copied() == wanted.get(*at).map(|line| line.as_bytes());
    let at = (0..lines.len().max(wanted.len())).find(|at| !same(at)).unwrap_or(0);
    let show = |line: Option<&[u8]>| {
        line.map(|line| String::from_utf8_lossy(&line[..line.len().min(200)]).into_owned())
    };
    let asked = script.split(|&byte| byte == b'\n').nth(at);
    let wanted = wanted.get(at).map(|line| line.as_bytes());
    format!(
        "line {}: {:?} gave {:?}, not {:?}",
        at + 1,
        show(asked),
        show(lines.get(at).copied()),
        show(wanted)
    )
}

fn compare(report: &mut Report, name: &str, program: &str, script: &[u8]) {
    let expected = play(script);
    let output = run(program, script);
    let holds = output.as_ref().is_ok_and(|output| output == expected.as_bytes());
    report.check(name, holds, || match &output {
        Ok(output) => context(script, output, &expected),
        Err(why) => why.clone(),
    });
    for reply in expected.lines() {
        report.check(&format!("reply: {}", kind(reply)), holds, || "in a script that failed".to_string());
    }
}

fn main() -> ExitCode {
    let arguments: Vec<String> = std::env::args().collect();
    let [_, program, play] = &arguments[..] else {
        eprintln!("usage: script PROGRAM PLAY");
        return ExitCode::from(2);
    };
    let mut random = Random::new(SEED);
    let mut report = Report::default();
    for script in edge_scripts() {
        compare(&mut report, "edge scripts", program, &script);
    }
    for _ in 0..SCRIPTS {
        let script = some_script(&mut random, LINES);
        compare(&mut report, "random scripts of 1,000 lines", program, &script);
    }
    check_faults(&mut report, program, play);
    for reply in REPLIES {
        report.met(&format!("reply: {reply}"));
    }
    report.finish("script")
}
