//! Self checks of the model's ring program.

use super::checks::Check;
use super::script::play;

/// The example of document 01.
const LINES: [(&str, &str); 11] = [
    ("W 0 5 709", "W 0.1"),
    ("M 0 1", "M ok"),
    ("W 0 6 1", "W 1.1"),
    ("R 1 6", "R none"),
    ("H 2", "H 1"),
    ("H 2", "H 0"),
    ("H 0", "H 1"),
    ("H 0", "H 0"),
    ("R 1 6", "R 1 1.1"),
    ("M 1 2", "M ok"),
    ("R 1 5", "R 709 0.1"),
];

fn eleven_lines() -> bool {
    let input: String = LINES.iter().map(|(line, _)| format!("{line}\n")).collect();
    let output: String = LINES.iter().map(|(_, reply)| format!("{reply}\n")).collect();
    play(input.as_bytes()) == output
}

fn line_ends() -> bool {
    play(b"") == ""
        && play(b"\n") == "line?\n"
        && play(b"M 0 1") == "M ok\n"
        && play(b"M 0 1\n") == "M ok\n"
        && play(b"M 0 1\n\nH 0") == "M ok\nline?\nH none\n"
}

fn other_lines() -> bool {
    let bad = [
        "w 0 1 2",
        "W 0 1",
        "W 0 1 2 3",
        "W  0 1 2",
        " W 0 1 2",
        "W 0 1 2 ",
        "W 00 1 2",
        "W 0 01 2",
        "W +0 1 2",
        "W 4 1 2",
        "W 0 1 4294967296",
        "W 0 -1 2",
        "W 0 1 2\r",
        "M 0 3",
        "M 4 0",
        "H 3",
        "H",
        "H ",
        "R 0",
        "R 4 0",
        "X",
        "R 0 1x",
        "W\t0 1 2",
        "R 0 \u{0661}",
    ];
    bad.iter().all(|line| play(line.as_bytes()) == "line?\n") && play(b"R 0 \xFF") == "line?\n"
}

fn refusals() -> bool {
    play(b"W 0 64 1\nW 0 4294967295 4294967295\nW 0 63 268435456\nW 0 63 268435455\nR 0 64\nR 0 63\n")
        == "refused 4\nrefused 4\nrefused 5\nW 0.1\nrefused 4\nR 268435455 0.1\n"
}

/// Two sessions bring 15 entries each to office 1 and write there: 32 frames wait at office 2.
fn full_by_writing() -> bool {
    let fill = "W 0 0 1\n".repeat(15) + &"W 1 0 1\n".repeat(15) + "M 0 1\nM 1 1\nM 2 1\nW 0 0 1\nW 1 0 1\n";
    // One more is refused before it is found to be too many; and full changes nothing.
    let rest = "W 0 0 1\nW 2 9 9\nR 2 9\nH 2\nW 2 9 9\n";
    let replies = "W 1.1\nW 1.2\nrefused 7\nfull\nR none\nH 31\nW 1.3\n";
    play((fill + rest).as_bytes()).ends_with(replies)
}

/// 32 frames from office 0 wait at office 1, and a frame from office 2 would go on to it.
fn full_by_hearing() -> bool {
    let fill = "W 0 0 1\n".repeat(16) + &"W 1 0 1\n".repeat(16) + "W 2 0 1\nM 2 2\nW 2 9 9\n";
    let rest = "H 0\nH 1\nH 0\n";
    let replies = "W 0.32\nrefused 6\nM ok\nW 2.1\nfull\nH 31\nH 0\n";
    play((fill + rest).as_bytes()).ends_with(replies)
}

pub fn script_checks() -> Vec<Check> {
    vec![
        ("model: the eleven lines", eleven_lines()),
        ("model: ends of lines", line_ends()),
        ("model: other lines", other_lines()),
        ("model: refusals of the ring program", refusals()),
        ("model: full by writing", full_by_writing()),
        ("model: full by hearing", full_by_hearing()),
    ]
}
