//! Random scripts for the ring program.

use crate::random::Random;

/// How often each kind of line comes, out of their sum.
struct Mix {
    write: u32,
    read: u32,
    go: u32,
    hear: u32,
    other: u32,
    plots: u32,
    sessions: u32,
}

/// Some scripts hear little, so that offices fill up; some stay in one place; some are mostly noise.
fn some_mix(random: &mut Random) -> Mix {
    let other = random.pick(&[0, 1, 2, 30]);
    Mix {
        write: random.pick(&[2, 5, 10, 30]),
        read: random.pick(&[2, 10, 20]),
        go: random.pick(&[0, 1, 4, 10]),
        hear: random.pick(&[0, 1, 5, 20, 40]),
        other,
        plots: random.pick(&[1, 2, 5, 64]),
        sessions: random.between(1, 4),
    }
}

fn some_plot(random: &mut Random, mix: &Mix) -> u32 {
    if random.one_in(40) {
        random.pick(&[63, 64, 65, u32::MAX])
    } else {
        random.below(mix.plots)
    }
}

fn some_value(random: &mut Random) -> u32 {
    match random.below(20) {
        0 => 0,
        1 => (1 << 28) - 1,
        2 => 1 << 28,
        3 => u32::MAX,
        _ => random.below(1 << 28),
    }
}

/// Lines of no known form, and near misses of known ones.
const OTHER: &[&str] = &[
    "",
    " ",
    "W",
    "R",
    "M",
    "H",
    "W 0 0",
    "W 0 0 0 0",
    "R 0",
    "R 0 0 0",
    "M 0",
    "M 0 0 0",
    "H 0 0",
    "H 3",
    "H 10",
    "M 0 3",
    "M 4 0",
    "R 4 0",
    "W 4 0 0",
    "w 0 0 0",
    "r 0 0",
    "X 0",
    "W  0 0 0",
    " W 0 0 0",
    "W 0 0 0 ",
    "W 00 0 0",
    "W 0 00 0",
    "W 0 0 00",
    "R 0 01",
    "M 0 01",
    "H 00",
    "H 01",
    "W 0 0 4294967296",
    "R 0 4294967296",
    "R 4294967296 0",
    "H 4294967296",
    "W 0 0 99999999999999999999",
    "W 0 0 18446744073709551616",
    "W 0 0 -1",
    "W 0 0 +1",
    "R +0 0",
    "R 0 0x1",
    "R 0 1.0",
    "R 0 a",
    "H a",
    "W\t0 0 0",
    "R 0 0\r",
    "H 0\r",
    "HH 0",
    "H0",
    "R0 0",
    "M 0 1 ",
    "refused 4",
    "line?",
    "W 0 , 0",
    "H 0\0",
    "\0",
    "# note",
];

fn some_noise(random: &mut Random) -> Vec<u8> {
    let len = random.index(30);
    let byte = |random: &mut Random| random.pick(b"WRMH 0123456789\r\t\x00\xff-+.");
    (0..len).map(|_| byte(random)).collect()
}

fn other_line(random: &mut Random) -> Vec<u8> {
    match random.below(40) {
        0 => b"W 0 0 ".repeat(random.index(400)),
        1 => vec![b'0'; random.index(3_000)],
        2..=9 => some_noise(random),
        _ => random.pick(OTHER).as_bytes().to_vec(),
    }
}

fn some_line(random: &mut Random, mix: &Mix) -> Vec<u8> {
    let session = random.below(mix.sessions);
    let mut at = random.below(mix.write + mix.read + mix.go + mix.hear + mix.other);
    if at < mix.write {
        return format!("W {session} {} {}", some_plot(random, mix), some_value(random)).into();
    }
    at -= mix.write;
    if at < mix.read {
        return format!("R {session} {}", some_plot(random, mix)).into();
    }
    at -= mix.read;
    if at < mix.go {
        return format!("M {session} {}", random.below(3)).into();
    }
    at -= mix.go;
    if at < mix.hear {
        format!("H {}", random.below(3)).into()
    } else {
        other_line(random)
    }
}

/// A script whose habits change now and then; the last line may lack its newline.
pub fn some_script(random: &mut Random, lines: usize) -> Vec<u8> {
    let mut script = Vec::new();
    let mut mix = some_mix(random);
    for _ in 0..lines {
        if random.one_in(150) {
            mix = some_mix(random);
        }
        script.extend(some_line(random, &mix));
        script.push(b'\n');
    }
    // An empty last line without its newline would be none.
    if random.one_in(4) && !script.ends_with(b"\n\n") {
        script.pop();
    }
    script
}

/// Every session carries 16 and 32 frames wait at each office, each to go on: no write is left, and every
/// hearing is `full` for ever.
fn standstill() -> String {
    let parts =
        [("W 0 0 1\n", 15), ("W 1 0 1\n", 15), ("W 2 0 1\n", 2), ("M 0 2\nW 0 1 1\nM 1 2\nW 1 1 1\n", 1)];
    let rest = [("M 2 1\n", 1), ("W 2 2 2\n", 14), ("M 3 1\n", 1), ("W 3 3 3\n", 16), ("H 0\nH 1\nH 2\n", 2)];
    parts.iter().chain(&rest).map(|(lines, times)| lines.repeat(*times)).collect()
}

/// Short and strange ones.
pub fn edge_scripts() -> Vec<Vec<u8>> {
    let long = [vec![b'R'; 200_000], b"\nM 0 1\n".to_vec(), vec![b'0'; 70_000]].concat();
    let almost = [b"R 0 ".to_vec(), vec![b'0'; 65_536], b"1\nM 0 1".to_vec()].concat();
    let mut scripts: Vec<Vec<u8>> = ["", "\n", "\n\n", "H 0", "H 0\n", "H 0\n\n", "M 0 1\n ", "\r\n", "\0"]
        .iter()
        .map(|script| script.as_bytes().to_vec())
        .collect();
    scripts.extend([long, almost]);
    scripts.push(standstill().into_bytes());
    // Lines that end on and about the sizes that a buffer may have.
    for size in [4_095, 4_096, 4_097, 32_768, 65_535, 65_536, 65_537] {
        let lines = b"M 0 1\n".repeat(size / 6);
        let rest = vec![b'x'; size - lines.len()];
        scripts.push([lines, rest, b"\nR 0 0\nH 1\n".to_vec()].concat());
    }
    // Some chunks, and a last line that the input's end ends: within a chunk, and at its very end.
    for size in [3 * 4_096, 5 * 4_096 + 1, 70_000] {
        let last = b"W 0 5 709";
        let lines = b"W 1 2 3\nH 1\nR 1 2\n".repeat(size / 18 + 1);
        let mut script = [&lines[..size - last.len() - 1], b"\n", last].concat();
        scripts.push(script.clone());
        script.pop();
        scripts.push(script);
    }
    scripts
}
