//! Rings of offices: sessions move, are copied and joined, frames flow from office to office, and every call
//! is compared. All that goes on is what the archive left and sent.

use crate::archive::office::store_need;
use crate::archive::tokens::open_office;
use crate::frame_cases::frames;
use crate::joined::{self, Given};
use crate::later;
use crate::model::entry::MOST_PLOTS;
use crate::model::past::Log;
use crate::pasts;
use crate::report::Report;
use crate::single::{some_listed, some_plots};
use crate::swapped::Swapped;
use crate::tracked::Tracked;
use crate::twin::{unless, Twin};
use std::collections::VecDeque;

const STEPS: usize = 300;
const SESSIONS: usize = 3;

struct Ring {
    offices: u32,
    plots: u32,
    stores: Vec<Vec<u32>>,
    waiting: Vec<VecDeque<Vec<u32>>>,
    sessions: [Tracked; SESSIONS],
    log: Log,
}

/// An office that is opened over any words.
fn opened(twin: &mut Twin, offices: u32, own: u32, plots: u32) -> Vec<u32> {
    let mut store = twin.random.row(store_need(offices, own, plots).1);
    let refusal = open_office(offices, own, plots, &mut store);
    twin.report.same("open_office: of a ring", &refusal, &0);
    store
}

/// What a call of the run replied. Entries are never missing, unmade or different there, so only what it was
/// given besides them may be refused.
fn accepted<T>(report: &mut Report, call: &str, reply: Result<T, u32>, refusals: &[u32]) -> Option<T> {
    let refusal = reply.as_ref().err().copied();
    let holds = refusal.is_none_or(|refusal| refusals.contains(&refusal));
    report.check(&format!("{call}: in a run no entry is refused"), holds, || format!("{refusal:?}"));
    reply.ok()
}

impl Ring {
    fn new(twin: &mut Twin) -> Ring {
        let offices = twin.random.between(2, 8);
        let plots = twin.random.pick(&[1, 3, 8, 64]);
        let stores = (0..offices).map(|own| opened(twin, offices, own, plots)).collect();
        let waiting = vec![VecDeque::new(); offices as usize];
        let sessions = [Tracked::fresh(twin, offices); SESSIONS];
        Ring { offices, plots, stores, waiting, sessions, log: Log::default() }
    }

    fn send(&mut self, from: usize, frames: Vec<Vec<u32>>) {
        let to = (from + 1) % self.offices as usize;
        self.waiting[to].extend(frames);
    }

    fn hear(&mut self, twin: &mut Twin, office: usize) {
        let Some(frame) = self.waiting[office].front().cloned() else { return };
        let reply = twin.receive(&mut self.stores[office], &frame);
        if let Some(words) = accepted(&mut twin.report, "receive", reply, &[8]) {
            self.waiting[office].pop_front();
            self.send(office, frames(self.offices, &words));
        }
    }

    /// A frame that waits, out of its turn: the office may lack what it depends on.
    fn hear_early(&mut self, twin: &mut Twin, office: usize) {
        let queue = &self.waiting[office];
        if queue.len() > 1 {
            let frame = queue[twin.random.index(queue.len())].clone();
            // On a copy, so that the run goes on as it was.
            let _ = twin.receive(&mut self.stores[office].clone(), &frame);
        }
    }

    /// A new session, or a copy of another, perhaps through a token, that goes on by itself.
    fn another_session(&mut self, twin: &mut Twin) {
        let at = twin.random.index(SESSIONS);
        let other = self.sessions[(at + 1) % SESSIONS];
        self.sessions[at] = match twin.random.below(4) {
            0 => other.through_token(twin, self.plots),
            1 => other.copy(),
            _ => Tracked::fresh(twin, self.offices),
        };
    }

    /// Two sessions, or one with itself, perhaps through tokens: what is joined of them goes on in the place
    /// of any.
    fn join(&mut self, twin: &mut Twin, office: usize) {
        let [first, second] = [(); 2].map(|()| {
            let tracked = self.sessions[twin.random.index(SESSIONS)];
            if twin.random.one_in(2) {
                tracked.through_token(twin, self.plots)
            } else {
                tracked
            }
        });
        // Any plots that cover those of the ring will do.
        let (offices, plots) = (self.offices, twin.random.pick(&[self.plots, MOST_PLOTS]));
        let given = Given { offices, plots, first: first.session, second: second.session };
        let [(refusal, session), (_, swapped)] = joined::join(&mut twin.report, &given);
        let reply = unless(refusal, session);
        let Some(session) = accepted(&mut twin.report, "join", reply, &[7]) else { return };
        let plot = some_listed(&mut twin.random, self.plots, &session);
        let swapped = Swapped { sessions: [session, swapped], store: &self.stores[office] };
        swapped.alike(&mut twin.report, plot);
        self.sessions[twin.random.index(SESSIONS)] = Tracked::joined(session, &first, &second);
    }

    /// What a reading handed back, as the answer of a joint one: it keeps the session's past, and joins it.
    fn handed_back(&mut self, twin: &mut Twin, call: &str, at: usize, plots: &[u32], answer: &[u32]) {
        let Tracked { session, past, origin } = &mut self.sessions[at];
        let whose = if *origin == Some(later::BY_JOIN) { "both pasts" } else { "the session's past" };
        let kept = pasts::keeps_past(&self.log, *past, plots, answer);
        self.log.read(past, pasts::handed_back(answer));
        let lacks = pasts::lacks_only_outranked(&self.log, *past, session);
        let claims = [
            (format!("{call}: keeps {whose}"), kept),
            ("pasts: lack only what an own entry outranks".to_string(), lacks),
        ];
        for (claim, holds) in claims {
            if let Some(holds) = holds {
                twin.report
                    .check(&claim, holds, || format!("plots {plots:?}, answer {answer:?}, {session:?}"));
            }
        }
    }

    fn read_plot(&mut self, twin: &mut Twin, office: usize, at: usize, plot: u32) {
        let read = twin.read_plot(&mut self.stores[office], &mut self.sessions[at].session, plot);
        if let Some(found) = accepted(&mut twin.report, "read_plot", read, &[]) {
            let answer = found.map_or([0; 3], |entry| [1, entry.value, entry.payload()]);
            self.handed_back(twin, "read_plot", at, &[plot], &answer);
        }
    }

    fn read_joint(&mut self, twin: &mut Twin, office: usize, at: usize) {
        let session = &mut self.sessions[at].session;
        let plots = some_plots(&mut twin.random, self.plots, session);
        let read = twin.read_joint(&mut self.stores[office], session, &plots);
        let Some(answer) = accepted(&mut twin.report, "read_joint", read, &[4, 8]) else { return };
        if let Some(holds) = pasts::goes_together(&self.log, &plots, &answer) {
            let say = || format!("plots {plots:?}, answer {answer:?}");
            twin.report.check("read_joint: goes together", holds, say);
        }
        self.handed_back(twin, "read_joint", at, &plots, &answer);
    }

    /// The write of a session that sent this frame last.
    fn made(&mut self, twin: &mut Twin, office: usize, at: usize, frame: &[u32]) {
        let (store, writer) = (&self.stores[office], &mut self.sessions[at]);
        let Some(new) = later::new_entry(&mut twin.report, &writer.session, frame, store) else { return };
        twin.report.same("write: a new id", &self.log.entry(new.id()), &None);
        later::over_visible(&mut twin.report, &new, store);
        self.log.wrote(&mut writer.past, &new);
        later::made(&mut twin.report, &self.log, &new, self.offices, writer.origin);
    }

    fn write(&mut self, twin: &mut Twin, office: usize, at: usize, plot: u32) {
        let value = twin.random.below(1 << 28);
        let session = &mut self.sessions[at].session;
        let wrote = twin.write(&mut self.stores[office], session, plot, value);
        let Some(words) = accepted(&mut twin.report, "write", wrote, &[6, 7, 8]) else { return };
        let frames = frames(self.offices, &words);
        if let Some(last) = frames.last() {
            self.made(twin, office, at, last);
        }
        self.send(office, frames);
    }

    fn step(&mut self, twin: &mut Twin) {
        let office = twin.random.index(self.offices as usize);
        let at = twin.random.index(SESSIONS);
        let plot = twin.random.below(self.plots);
        match twin.random.below(17) {
            0 => self.another_session(twin),
            1 => self.hear_early(twin, office),
            2..=4 => self.read_plot(twin, office, at, plot),
            5 | 6 => self.read_joint(twin, office, at),
            7..=9 => self.write(twin, office, at, plot),
            10 => self.join(twin, office),
            _ => self.hear(twin, office),
        }
    }
}

pub fn play(twin: &mut Twin) {
    let mut ring = Ring::new(twin);
    for _ in 0..STEPS {
        ring.step(twin);
    }
    later::at_end(twin, &ring.log, &ring.stores);
}
