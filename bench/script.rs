//! The ring program beside two Rust programs that make the same checks at each call: the model, which is
//! this program with `--play`, and the fast player. Busy days of 10,000 lines, as processes that take
//! turns, the best of many runs. Another ring program, named by BASE_PROGRAM, takes its turn too.

mod busy_day;
mod child;
#[path = "../tests/model/mod.rs"]
mod model;

use child::{printed, timed, Times};
use std::io::{Read, Write};
use std::path::Path;

const LINES: usize = 10_000;
const RUNS: usize = 20;

struct Program {
    name: &'static str,
    command: Vec<String>,
    /// The sum of the best times of each day.
    sum: Times,
}

fn program(name: &'static str, words: &[&str]) -> Program {
    let command = words.iter().map(|word| word.to_string()).collect();
    Program { name, command, sum: Times::default() }
}

fn play() {
    let mut script = Vec::new();
    std::io::stdin().read_to_end(&mut script).expect("standard input");
    std::io::stdout().write_all(model::script::play(&script).as_bytes()).expect("standard output");
}

/// The best times of each program on one script.
fn best(programs: &[Program], script: &Path) -> Vec<Times> {
    let mut best = vec![Times::MOST; programs.len()];
    for _ in 0..RUNS {
        for (best, program) in best.iter_mut().zip(programs) {
            *best = best.least(&timed(&program.command, script));
        }
    }
    best
}

fn print_row(title: &str, times: &[Times]) {
    let columns: String =
        times.iter().map(|t| format!("{:>9.2} {:>9}", t.wall, format!("({:.2})", t.cpu))).collect();
    println!("{title:<6}{columns}");
}

fn play_day(programs: &mut [Program], seed: u32) {
    let script = Path::new("target/bench/busy_day.txt");
    std::fs::write(script, busy_day::script(seed, LINES)).expect("the script");
    let expected = printed(&programs[0].command, script);
    for program in &programs[1..] {
        assert!(printed(&program.command, script) == expected, "{} prints something else", program.name);
    }
    let best = best(programs, script);
    print_row(&seed.to_string(), &best);
    programs.iter_mut().zip(&best).for_each(|(program, best)| program.sum.add(best));
}

fn main() {
    let words: Vec<String> = std::env::args().collect();
    let [this, ours, rest @ ..] = &words[..] else { panic!("usage: script PROGRAM FAST_PLAYER") };
    if ours == "--play" {
        return play();
    }
    let mut programs = vec![
        program("ring_program", &[ours]),
        program("model", &[this, "--play"]),
        program("fast", &[&rest[0]]),
    ];
    if let Ok(base) = std::env::var("BASE_PROGRAM") {
        programs.push(program("base", &[&base]));
    }
    println!(
        "\nBusy days of {LINES} lines by their seeds, best of {RUNS} runs that take turns: milliseconds"
    );
    println!("from start to end, and of user and system time in brackets.\n");
    let names: String = programs.iter().map(|program| format!("{:>19}", program.name)).collect();
    println!("seed  {names}");
    busy_day::SEEDS.iter().for_each(|&seed| play_day(&mut programs, seed));
    print_row("sum", &programs.iter().map(|program| program.sum).collect::<Vec<_>>());
    println!();
    for other in &programs[1..] {
        let (wall, cpu) = (programs[0].sum.wall / other.sum.wall, programs[0].sum.cpu / other.sum.cpu);
        println!("ring_program / {:<6} {wall:.2} ({cpu:.2})", other.name);
    }
}
