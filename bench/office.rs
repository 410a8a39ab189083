//! Times each call on one office: archive, model and fast version side by side in one run.

#[path = "../tests/host/archive/mod.rs"]
mod archive;
mod fast;
mod fast_exports;
#[path = "../tests/model/mod.rs"]
mod model;
mod office_calls;
mod office_cases;
mod sides;
mod timing;

use office_calls::{
    Timed, JOIN, JOINT, JOINT_BY_VALUE, JOINT_OWN, LAST_HOP, MIDDLE, NEED, NO_STORE, PLOT, PLOTS,
    PLOT_BY_VALUE, READ_TOKEN, SETTINGS, WRITE, WRITE_BY_VALUE, WRITE_TOKEN,
};
use office_cases::{empty, full, joins, own_at_empty, own_at_full, Case};
use std::time::Duration;

const CALLS: [Timed; 14] = [
    NEED,
    SETTINGS,
    NO_STORE,
    PLOT,
    PLOT_BY_VALUE,
    JOINT,
    JOINT_BY_VALUE,
    JOINT_OWN,
    WRITE,
    WRITE_BY_VALUE,
    LAST_HOP,
    MIDDLE,
    READ_TOKEN,
    WRITE_TOKEN,
];

const BUDGET: Duration = Duration::from_millis(150);

fn print_row(timed: &Timed, store: &str, case: &Case) {
    let ways = [timed.archive(), timed.model(), timed.fast()];
    let [archive, model, fast] = timing::best(timed.name, ways, timed.changes, case, BUDGET);
    let (to_model, to_fast) = (archive / model, archive / fast);
    print!("{:<18} {:>7} {store:>5} ", timed.name, case.offices);
    println!("{archive:>10.1} {model:>10.1} {fast:>10.1} {to_model:>9.2} {to_fast:>9.2}");
}

const TIMED: &str = "
Timed: whole calls, those of archive and fast version both through the C interface, with the session lent, as the model
takes it, and by value, there and back (1,360 bytes each way). All check store and session at every call.
Not timed: setting store, session and row back, which is done for a whole round before its clock starts.
Empty: an office that holds nothing, a fresh session. Full: 32 entries of each office held and visible, less
the one that a write or a frame brings; each depends on all before it; the session has read them all and
carries 15. The frame that an empty office hears is the smallest of its ring, the one that a full office hears
the largest; from a middle office it goes on. No store: lent a store of no words and refused 2 at once, which
leaves the cost of crossing.
Of own entries: the session carries one on each of the four plots, new here and above what is visible there;
at the empty office it carries only these, at the full one 15, and those four are not held.
A join has no store; in that column stands what the two sessions carry: nothing, 8 entries each and none in common, or
16 that are the same, a session with itself. Both have read all that is in their ring. They cross by value; the model
gets them lent.
The model is plain Rust, written to be read and not for speed. The fast version is Rust written for speed, with
the same checks.
";

/// An empty office and a full one.
fn cases(timed: &Timed, offices: u32) -> [Case; 2] {
    if timed.own {
        return [own_at_empty(offices, &PLOTS), own_at_full(offices, &PLOTS)];
    }
    let (spare, hops) = ((timed.spare)(offices), (timed.hops)(offices));
    let from = spare.map_or(1, |(office, _)| office);
    [empty(offices, from, hops), full(offices, spare, hops)]
}

fn main() {
    println!("{TIMED}");
    println!("                                     ns for each call                 archive's time by");
    println!("call               offices store    archive      model       fast     model      fast");
    for timed in &CALLS {
        for offices in [3, 8] {
            let [empty, full] = cases(timed, offices);
            print_row(timed, "empty", &empty);
            print_row(timed, "full", &full);
        }
    }
    for offices in [3, 8] {
        for (carried, case) in &joins(offices) {
            print_row(&JOIN, carried, case);
        }
    }
}
