//! Lends any words to every call, in rows that touch a page which no one may touch: first behind the
//! row, then before it. No call may fault or run on; a refusal leaves every lent word as it was.
//! The argument is the number of calls.

mod adversary_cases;
mod archive;
mod fault;
mod frame_cases;
mod guard;
#[path = "../model/mod.rs"]
mod model;
mod random;
mod report;
mod session_cases;
mod store_cases;
mod token_cases;

use adversary_cases::Adversary;
use archive::forms::{JointRead, PlotRead, Write};
use archive::{frames, lent, office, tokens};
use guard::{Guarded, Side};
use model::codec::Frame;
use model::entry::Entry;
use model::session::Session;
use model::store::Store;
use report::Report;
use std::process::ExitCode;

const SEED: u64 = 0xADE5_2026_0101_5EED;
const DEFAULT: u64 = 100_000;

pub const CALLS: &[&str] = &[
    "check_frame",
    "read_frame",
    "write_frame",
    "store_need",
    "open_office",
    "fresh_session",
    "read_plot",
    "read_joint",
    "write",
    "receive",
    "read_token",
    "write_token",
    "lent_read_plot",
    "lent_read_joint",
    "lent_write",
    "store_settings",
    "join_sessions",
];

/// The replies that each call may give; a run that misses one has not tested it.
const REPLIES: [&[u32]; 17] = [
    &[0, 1, 9],
    &[0, 1, 9],
    &[0, 3, 8],
    &[0, 1],
    &[0, 1, 2],
    &[0, 1],
    &[0, 2, 3, 4, 12],
    &[0, 2, 3, 4, 8, 12],
    &[0, 2, 3, 4, 5, 6, 7, 8, 10, 11, 12],
    &[0, 2, 8, 9, 10, 11, 12],
    &[0, 1, 9],
    &[0, 3, 8],
    &[0, 2, 3, 4, 12],
    &[0, 2, 3, 4, 8, 12],
    &[0, 2, 3, 4, 5, 6, 7, 8, 10, 11, 12],
    &[0, 2],
    &[0, 1, 3, 7, 11],
];

struct Test {
    adversary: Adversary,
    report: Report,
    side: Side,
    number: u64,
    /// A guarded room for each lent place: store, session, row that is read, row that is written.
    store: Guarded,
    session: Guarded,
    input: Guarded,
    output: Guarded,
}

/// What a call did.
struct Done {
    refusal: u32,
    /// All that must stay has stayed.
    kept: bool,
}

/// On refusal nothing changes; otherwise what lies beyond the words that were written stays.
fn row_kept(refusal: u32, written: usize, before: &[u32], after: &[u32]) -> bool {
    let from = if refusal == 0 { written } else { 0 };
    from <= after.len() && before[from..] == after[from..] && (refusal == 0 || written == 0)
}

/// A store that is left by a call is sound, and keeps the words beyond its need.
fn store_kept(refusal: u32, before: &[u32], after: &mut [u32]) -> bool {
    if refusal != 0 {
        return before == after;
    }
    let Some(store) = Store::sound(after) else { return false };
    let need = model::store::need(store.offices());
    before[need..] == after[need..]
}

fn session_kept(refusal: u32, before: &Session, after: &Session) -> bool {
    refusal != 0 && before == after
        || refusal == 0
            && after.count <= 16
            && before.own[..before.count] == after.own[..before.count]
            && before.own[after.count..] == after.own[after.count..]
}

impl Test {
    fn about_to(&mut self, call: usize) {
        fault::about_to(call, self.number);
    }

    fn check_frame(&mut self) -> Done {
        let (bytes, offices, plots) =
            (self.adversary.bytes(), self.adversary.offices(), self.adversary.plots());
        let lent = self.input.bytes(&bytes, self.side);
        let refusal = frames::check_frame(lent, offices, plots);
        Done { refusal, kept: *lent == bytes }
    }

    fn read_frame(&mut self) -> Done {
        let (words, offices, plots) =
            (self.adversary.frame(), self.adversary.offices(), self.adversary.plots());
        let lent = self.input.words(&words, self.side);
        let (refusal, frame) = frames::read_frame(lent, offices, plots);
        Done { refusal, kept: *lent == words && (refusal == 0 || frame == Frame::default()) }
    }

    fn write_frame(&mut self) -> Done {
        let (frame, row) = (self.adversary.frame_content(), self.adversary.row());
        let lent = self.output.words(&row, self.side);
        let (refusal, words) = frames::write_frame(&frame, lent);
        Done { refusal, kept: row_kept(refusal, words, &row, lent) }
    }

    fn store_need(&mut self) -> Done {
        let (offices, own, plots) =
            (self.adversary.offices(), self.adversary.number(8), self.adversary.plots());
        let (refusal, words) = office::store_need(offices, own, plots);
        Done { refusal, kept: (refusal == 0) == (words > 0) && words <= 8_192 }
    }

    fn store_settings(&mut self) -> Done {
        let words = self.adversary.store();
        let lent = self.store.words(&words, self.side);
        let (refusal, settings) = office::store_settings(lent);
        let said = if refusal == 0 { settings[..] == words[..3] } else { settings == [0; 3] };
        Done { refusal, kept: said && *lent == words }
    }

    fn open_office(&mut self) -> Done {
        let (offices, own, plots) =
            (self.adversary.offices(), self.adversary.number(8), self.adversary.plots());
        let words = self.adversary.store();
        let lent = self.store.words(&words, self.side);
        let refusal = tokens::open_office(offices, own, plots, lent);
        Done { refusal, kept: row_kept(refusal, if refusal == 0 { 19 } else { 0 }, &words, lent) }
    }

    fn fresh_session(&mut self) -> Done {
        let (refusal, session) = tokens::fresh_session(self.adversary.offices());
        Done { refusal, kept: refusal == 0 || session == Session::default() }
    }

    fn read_plot(&mut self, call: PlotRead) -> Done {
        let (words, session, plot) =
            (self.adversary.store(), self.adversary.session(), self.adversary.plot());
        let lent = self.store.words(&words, self.side);
        let after = self.session.value(&session, self.side);
        let (refusal, found) = call(lent, after, plot);
        let kept = store_kept(refusal, &words, lent) && session_kept(refusal, &session, after);
        Done {
            refusal,
            kept: kept && (found.0 == 1 || found == (0, Entry::default())) && (refusal == 0 || found.0 == 0),
        }
    }

    fn read_joint(&mut self, call: JointRead) -> Done {
        let (words, session) = (self.adversary.store(), self.adversary.session());
        let (plots, row) = (self.adversary.list(), self.adversary.row());
        let (lent, list) = (self.store.words(&words, self.side), self.input.words(&plots, self.side));
        let answer = self.output.words(&row, self.side);
        let after = self.session.value(&session, self.side);
        let refusal = call(lent, after, list, answer);
        let written = if refusal == 0 { 3 * plots.len() } else { 0 };
        let kept = store_kept(refusal, &words, lent) && session_kept(refusal, &session, after);
        Done { refusal, kept: kept && *list == plots && row_kept(refusal, written, &row, answer) }
    }

    fn write(&mut self, call: Write) -> Done {
        let (words, session) = (self.adversary.store(), self.adversary.session());
        let (plot, value, row) = (self.adversary.plot(), self.adversary.value(), self.adversary.row());
        let (lent, out) = (self.store.words(&words, self.side), self.output.words(&row, self.side));
        let after = self.session.value(&session, self.side);
        let (refusal, written) = call(lent, after, plot, value, out);
        let kept = store_kept(refusal, &words, lent) && session_kept(refusal, &session, after);
        Done { refusal, kept: kept && row_kept(refusal, written, &row, out) }
    }

    fn receive(&mut self) -> Done {
        let (words, frame, row) = (self.adversary.store(), self.adversary.frame(), self.adversary.row());
        let (lent, heard) = (self.store.words(&words, self.side), self.input.words(&frame, self.side));
        let out = self.output.words(&row, self.side);
        let (refusal, written) = office::receive(lent, heard, out);
        let kept = store_kept(refusal, &words, lent) && *heard == frame;
        Done { refusal, kept: kept && row_kept(refusal, written, &row, out) }
    }

    fn read_token(&mut self) -> Done {
        let (words, offices, plots) =
            (self.adversary.token(), self.adversary.offices(), self.adversary.plots());
        let lent = self.input.words(&words, self.side);
        let (refusal, session) = tokens::read_token(lent, offices, plots);
        Done { refusal, kept: *lent == words && (refusal == 0 || session == Session::default()) }
    }

    fn write_token(&mut self) -> Done {
        let (session, row) = (self.adversary.session(), self.adversary.row());
        let lent = self.output.words(&row, self.side);
        let (refusal, words) = tokens::write_token(&session, lent);
        Done { refusal, kept: row_kept(refusal, words, &row, lent) }
    }

    /// The two are given by value: what they were taken from must stay.
    fn join_sessions(&mut self) -> Done {
        let (offices, plots) = (self.adversary.offices(), self.adversary.plots());
        let (first, second) = (self.adversary.session(), self.adversary.session());
        let given = (self.session.value(&first, self.side), self.input.value(&second, self.side));
        let (refusal, joined) = tokens::join_sessions(offices, plots, given.0, given.1);
        let said = if refusal == 0 { joined.is_sound(offices, plots) } else { joined == Session::default() };
        Done { refusal, kept: said && *given.0 == first && *given.1 == second }
    }

    fn call(&mut self, call: usize) -> Done {
        self.about_to(call);
        match call {
            0 => self.check_frame(),
            1 => self.read_frame(),
            2 => self.write_frame(),
            3 => self.store_need(),
            4 => self.open_office(),
            5 => self.fresh_session(),
            6 => self.read_plot(office::read_plot),
            7 => self.read_joint(office::read_joint),
            8 => self.write(office::write),
            9 => self.receive(),
            10 => self.read_token(),
            11 => self.write_token(),
            12 => self.read_plot(lent::read_plot),
            13 => self.read_joint(lent::read_joint),
            14 => self.write(lent::write),
            15 => self.store_settings(),
            _ => self.join_sessions(),
        }
    }

    /// The calls that are lent most come most often.
    fn step(&mut self) {
        let call = self.adversary.random.pick(&[
            0, 1, 2, 3, 4, 5, 6, 6, 7, 7, 8, 8, 9, 9, 9, 10, 10, 11, 12, 12, 12, 13, 13, 13, 14, 14, 14, 14,
            15, 16, 16,
        ]);
        let done = self.call(call);
        let known = REPLIES[call].contains(&done.refusal);
        let (side, number) = (self.side, self.number);
        self.report.check(&name(call, done.refusal), known && done.kept, || {
            format!("call number {number}, guard {side:?}: known {known}, kept {}", done.kept)
        });
        self.adversary.turn();
        self.number += 1;
    }

    fn steps(&mut self, calls: u64, side: Side) {
        self.side = side;
        (0..calls).for_each(|_| self.step());
    }
}

fn name(call: usize, refusal: u32) -> String {
    match refusal {
        0 => format!("adversary: {}: accepted", CALLS[call]),
        _ => format!("adversary: {}: refused {refusal}", CALLS[call]),
    }
}

fn main() -> ExitCode {
    let calls = std::env::args().nth(1).map_or(DEFAULT, |calls| calls.parse().expect("a number of calls"));
    let mut test = Test {
        adversary: Adversary::new(SEED),
        report: Report::default(),
        side: Side::Behind,
        number: 0,
        store: Guarded::new(),
        session: Guarded::new(),
        input: Guarded::new(),
        output: Guarded::new(),
    };
    fault::watch();
    test.steps(calls / 2, Side::Behind);
    test.steps(calls - calls / 2, Side::Before);
    for (call, replies) in REPLIES.iter().enumerate() {
        replies.iter().for_each(|&refusal| test.report.met(&name(call, refusal)));
    }
    test.report.finish("adversary")
}
