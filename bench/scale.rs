//! How the time of the archive's calls grows with the entries that an office holds and with the offices of
//! its ring: a table, and a plot for the ring of eight, which goes to the path given.

#[path = "../tests/host/archive/mod.rs"]
mod archive;
mod fast;
mod fast_exports;
#[path = "../tests/model/mod.rs"]
mod model;
mod office_calls;
mod office_cases;
mod plot;
mod sides;
mod timing;

use office_calls::{Timed, JOINT, LAST_HOP, MIDDLE, PLOT, READ_TOKEN, WRITE, WRITE_TOKEN};
use office_cases::partly;
use plot::{Line, Plot};
use std::time::Duration;

const CALLS: [Timed; 7] = [PLOT, JOINT, WRITE, LAST_HOP, MIDDLE, READ_TOKEN, WRITE_TOKEN];
const HELD: [u32; 4] = [0, 32, 96, 256];
const BUDGET: Duration = Duration::from_millis(60);

/// The entries held, and nanoseconds for each call; none for a middle office in a ring of two.
fn time(timed: &Timed, offices: u32, held: u32) -> Option<(u32, f64)> {
    let hops = (timed.hops)(offices);
    if timed.name == MIDDLE.name && hops == 0 {
        return None;
    }
    let from = (timed.spare)(offices).map(|(office, _)| office);
    let case = partly(offices, held, from, hops);
    let [nanoseconds] = timing::best(timed.name, [timed.archive()], timed.changes, &case, BUDGET);
    let held = case.lent.store[3..11].iter().map(|word| word.count_ones()).sum();
    Some((held, nanoseconds))
}

fn print_row(offices: u32, held: u32) {
    print!("| {offices} | {held} |");
    for timed in &CALLS {
        match time(timed, offices, held) {
            Some((_, nanoseconds)) => print!(" {nanoseconds:.0} |"),
            None => print!(" |"),
        }
    }
    println!();
}

fn print_table() {
    let names: String = CALLS.iter().map(|timed| format!(" {} |", timed.name)).collect();
    println!(
        "Nanoseconds for each call of the archive, best of many rounds. All entries held are visible, each"
    );
    println!(
        "depends on all before it, and the session has read them all and carries up to 15. Where all that a"
    );
    println!("ring can hold is held, a call that brings one more finds one less.\n");
    println!("| offices | held |{names}\n|---|---|{}", "---|".repeat(CALLS.len()));
    for offices in 2..=8 {
        let mut sizes = HELD.map(|held| held.min(32 * offices)).to_vec();
        sizes.dedup();
        sizes.iter().for_each(|&held| print_row(offices, held));
    }
}

fn line(timed: &Timed) -> Line {
    let points = (0..=256).step_by(32).filter_map(|held| time(timed, 8, held));
    Line { name: timed.name, points: points.map(|(held, y)| (f64::from(held), y)).collect() }
}

fn main() {
    print_table();
    let Some(path) = std::env::args().nth(1) else { return };
    let plot = Plot {
        title: "Calls on one office of a ring of eight",
        x: "entries held",
        y: "nanoseconds for each call",
        lines: CALLS.iter().map(line).collect(),
    };
    std::fs::write(&path, plot.svg()).expect("the plot");
}
