//! The ring program where its input or output fails: it ends, says so on standard error, and plays no
//! line after a failed write and no half line before a failed read. 'scripts/play' turns what it says
//! into a status.

use crate::report::Report;
use std::fs::{File, OpenOptions};
use std::io::Write;
use std::os::fd::OwnedFd;
use std::os::unix::net::UnixStream;
use std::path::Path;
use std::process::{Command, Output, Stdio};

/// Input that fails, after these bytes: reading on would have to wait, and the descriptor does not.
fn failing_input(bytes: &[u8]) -> std::io::Result<Stdio> {
    let (mut near, far) = UnixStream::pair()?;
    near.write_all(bytes)?;
    far.set_nonblocking(true)?;
    // The near end stays open for as long as this program runs, or the input would end.
    std::mem::forget(near);
    Ok(Stdio::from(OwnedFd::from(far)))
}

/// Input that ends, after these bytes.
fn ending_input(bytes: &[u8]) -> std::io::Result<Stdio> {
    let (mut near, far) = UnixStream::pair()?;
    let bytes = bytes.to_vec();
    std::thread::spawn(move || near.write_all(&bytes));
    Ok(Stdio::from(OwnedFd::from(far)))
}

fn run(command: &mut Command, input: std::io::Result<Stdio>, output: Stdio) -> std::io::Result<Output> {
    command.stdin(input?).stdout(output).stderr(Stdio::piped()).spawn()?.wait_with_output()
}

/// What is wrong with an end, or nothing.
fn wrong(output: std::io::Result<Output>, status: i32, written: &[u8], said: Option<&str>) -> Option<String> {
    let output = match output {
        Ok(output) => output,
        Err(error) => return Some(error.to_string()),
    };
    let expected = said.map_or(String::new(), |what| format!("ring_program: {what}\n"));
    let holds = output.status.code() == Some(status)
        && output.stdout == written
        && output.stderr == expected.as_bytes();
    (!holds).then(|| format!("{output:?}, not status {status}, {written:?}, {expected:?}"))
}

fn full_device() -> std::io::Result<Stdio> {
    Ok(Stdio::from(OpenOptions::new().write(true).open("/dev/full")?))
}

fn directory() -> std::io::Result<Stdio> {
    Ok(Stdio::from(File::open(Path::new("/"))?))
}

const UNREAD: Option<&str> = Some("standard input cannot be read");
const UNWRITTEN: Option<&str> = Some("standard output cannot be written");

/// `start` makes the command, whose status is 0 or `failed`.
fn faults(report: &mut Report, name: &str, start: impl Fn() -> Command, failed: i32) {
    let mut check = |what: &str, wrong: Option<String>| {
        report.check(&format!("{name}: {what}"), wrong.is_none(), || wrong.clone().unwrap());
    };
    let reads = |input, status, written: &[u8], said| {
        wrong(run(&mut start(), input, Stdio::piped()), status, written, said)
    };
    check(
        "a script without a last newline",
        reads(ending_input(b"W 0 5 709\nR 0 5"), 0, b"W 0.1\nR 709 0.1\n", None),
    );
    check("a half line before a failed read", reads(failing_input(b"W 0 5 70"), failed, b"", UNREAD));
    check(
        "lines before a failed read",
        reads(failing_input(b"W 0 5 709\nR 0 5\nW"), failed, b"W 0.1\nR 709 0.1\n", UNREAD),
    );
    check("input that cannot be read", reads(directory(), failed, b"", UNREAD));
    let mut writes = |what: &str, script: &[u8]| {
        let output = full_device().and_then(|full| run(&mut start(), ending_input(script), full));
        check(what, wrong(output, failed, b"", UNWRITTEN));
    };
    writes("a failed write", b"W 0 5 709\n");
    writes("a failed write of the last line", b"W 0 5 709");
    check("a failed write ends the reading", reads_on(&start));
}

/// What is wrong where the first of many lines cannot be answered: the rest is not taken.
fn reads_on(start: &impl Fn() -> Command) -> Option<String> {
    let (mut near, far) = UnixStream::pair().ok()?;
    let writer = std::thread::spawn(move || near.write_all(&b"H 0\n".repeat(1_000_000)));
    let output = full_device().and_then(|full| run(&mut start(), Ok(Stdio::from(OwnedFd::from(far))), full));
    let taken = writer.join().unwrap();
    (output.is_err() || taken.is_ok()).then(|| format!("{output:?}, the input was taken: {taken:?}"))
}

/// What a shell finds of `scripts/play`, by its status: the reader gone, output closed, programs that are not there.
fn statuses(report: &mut Report, program: &str, play: &str) {
    let mut check = |what: &str, script: &str, status: i32| {
        let output = Command::new("bash").args(["-c", script, "play", play, program]).output();
        let holds = output.as_ref().is_ok_and(|output| {
            output.status.code() == Some(status) && output.stderr.is_empty() == (status == 0)
        });
        report.check(&format!("scripts/play: {what}"), holds, || format!("{output:?}, not status {status}"));
    };
    let many = "yes 'H 0' | head -n 100000";
    check("replies that nobody reads", &format!("{many} | \"$1\" \"$2\" | true; exit ${{PIPESTATUS[2]}}"), 1);
    check("closed output", "echo 'H 0' | \"$1\" \"$2\" >&-", 1);
    check("closed input", "\"$1\" \"$2\" <&-", 1);
    check("a program that is not there", "echo 'H 0' | \"$1\" \"$2-none\"", 2);
    check("a folder for a program", "echo 'H 0' | \"$1\" .", 2);
    check("a name that a path of commands has", "echo 'H 0' | \"$1\" ls", 2);
}

pub fn check_faults(report: &mut Report, program: &str, play: &str) {
    faults(report, "the program", || Command::new(program), 0);
    let by_play = || {
        let mut command = Command::new(play);
        command.arg(program);
        command
    };
    faults(report, "scripts/play", by_play, 1);
    statuses(report, program, play);
}
