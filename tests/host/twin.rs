//! Makes each call with copies: on the archive, with the session by value and lent, and on the model. It
//! compares all that is left, and goes on with what the archive left.

use crate::archive::forms::{JointRead, PlotRead, Write};
use crate::archive::{lent, office as archive};
use crate::frame_cases::check_goes_round;
use crate::joint;
use crate::model::entry::Entry;
use crate::model::office as model;
use crate::model::session::Session;
use crate::random::Random;
use crate::report::Report;

pub struct Twin {
    pub random: Random,
    pub report: Report,
}

/// What a call left behind.
#[derive(Clone, PartialEq)]
struct Left<R> {
    reply: R,
    store: Vec<u32>,
    session: Session,
    row: Vec<u32>,
}

/// A call of the archive by its name.
type Form<F> = (&'static str, F);

const PLOT_READS: [Form<PlotRead>; 2] =
    [("read_plot", archive::read_plot), ("read_plot, lent", lent::read_plot)];
const JOINT_READS: [Form<JointRead>; 2] =
    [("read_joint", archive::read_joint), ("read_joint, lent", lent::read_joint)];
const WRITES: [Form<Write>; 2] = [("write", archive::write), ("write, lent", lent::write)];

/// Store, session and row.
type Lent<'a> = (&'a [u32], &'a Session, &'a [u32]);

/// What a call leaves of copies.
fn on_copies<R>(
    (store, session, row): Lent,
    call: impl FnOnce(&mut [u32], &mut Session, &mut [u32]) -> R,
) -> Left<R> {
    let (mut store, mut session, mut row) = (store.to_vec(), *session, row.to_vec());
    let reply = call(&mut store, &mut session, &mut row);
    Left { reply, store, session, row }
}

/// What each form of a call leaves of copies.
fn each_form<F: Copy, R>(
    forms: [Form<F>; 2],
    lent: Lent,
    made: impl Fn(F, &mut [u32], &mut Session, &mut [u32]) -> R,
) -> [Form<Left<R>>; 2] {
    forms.map(|(name, call)| (name, on_copies(lent, |store, session, row| made(call, store, session, row))))
}

fn first_difference(archive: &[u32], model: &[u32]) -> String {
    match archive.iter().zip(model).position(|(a, m)| a != m) {
        Some(at) => format!("word {at}: {:#X}, not {:#X}", archive[at], model[at]),
        None => "same".to_string(),
    }
}

fn describe<R: std::fmt::Debug>(archive: &Left<R>, model: &Left<R>) -> String {
    let mut text = format!("archive {:?}, not {:?}", archive.reply, model.reply);
    text += &format!("; store {}", first_difference(&archive.store, &model.store));
    text += &format!("; row {}", first_difference(&archive.row, &model.row));
    if archive.session != model.session {
        text += &format!("\n  session {:?}\n  not {:?}", archive.session, model.session);
    }
    text
}

/// The refusal and the number of words.
fn reply(result: Result<usize, u32>) -> (u32, usize) {
    result.map_or_else(|refusal| (refusal, 0), |words| (0, words))
}

/// The reply, unless it is refused.
pub fn unless<T>(refusal: u32, reply: T) -> Result<T, u32> {
    match refusal {
        0 => Ok(reply),
        _ => Err(refusal),
    }
}

fn outcome(refusal: u32, accepted: impl FnOnce() -> &'static str) -> String {
    match refusal {
        0 => accepted().to_string(),
        _ => format!("refused {refusal}"),
    }
}

/// Whether an entry is handed back, and which: all zeros where none is.
fn found(entry: &Option<Entry>) -> (u32, Entry) {
    entry.map_or((0, Entry::default()), |entry| (1, entry))
}

impl Twin {
    /// A row of any words; its length is often just enough or one word short.
    pub fn row_for(&mut self, needed: usize) -> Vec<u32> {
        let room = match self.random.below(8) {
            0 => needed.saturating_sub(1),
            1 => self.random.index(needed + 1),
            2 => needed + self.random.index(30),
            _ => needed,
        };
        self.random.row(room)
    }

    fn compare<R: PartialEq + std::fmt::Debug>(
        &mut self,
        call: &str,
        outcome: &str,
        archive: &Left<R>,
        model: &Left<R>,
    ) {
        self.report.check(&format!("{call}: {outcome}"), archive == model, || describe(archive, model));
    }

    fn compare_forms<R: PartialEq + std::fmt::Debug>(
        &mut self,
        outcome: &str,
        archive: &[Form<Left<R>>; 2],
        model: &Left<R>,
    ) {
        for (call, left) in archive {
            self.compare(call, outcome, left, model);
        }
    }

    /// What either form of a call left, by chance; it takes the place of what was lent.
    fn go_on<R>(
        &mut self,
        archive: [Form<Left<R>>; 2],
        store: &mut [u32],
        session: &mut Session,
    ) -> (R, Vec<u32>) {
        let [(_, by_value), (_, lent)] = archive;
        let left = if self.random.one_in(2) { by_value } else { lent };
        store.copy_from_slice(&left.store);
        *session = left.session;
        (left.reply, left.row)
    }

    pub fn store_need(&mut self, offices: u32, own: u32, plots: u32) {
        let archive = archive::store_need(offices, own, plots);
        let model = reply(model::store_need(offices, own, plots));
        let name = format!("store_need: {}", outcome(model.0, || "accepted"));
        self.report.same(&name, &archive, &model);
    }

    pub fn store_settings(&mut self, store: &[u32]) {
        let lent = store.to_vec();
        let archive = (archive::store_settings(&lent), lent == store);
        let result = model::store_settings(store);
        let model = result.map_or_else(|refusal| (refusal, [0; 3]), |settings| (0, settings));
        let name = format!("store_settings: {}", outcome(model.0, || "accepted"));
        self.report.same(&name, &archive, &(model, true));
    }

    /// The entry that is handed back, if any.
    pub fn read_plot(
        &mut self,
        store: &mut [u32],
        session: &mut Session,
        plot: u32,
    ) -> Result<Option<Entry>, u32> {
        let lent: Lent = (store, session, &[]);
        let archive = each_form(PLOT_READS, lent, |call, store, session, _| call(store, session, plot));
        let model = on_copies(lent, |store, session, _| match model::read_plot(store, session, plot) {
            Ok(entry) => (0, found(&entry)),
            Err(refusal) => (refusal, found(&None)),
        });
        let outcome = outcome(model.reply.0, || match model.reply.1 {
            (0, _) => "none",
            (_, entry) if model.session.own_entries().contains(&entry) => "own",
            _ => "presented",
        });
        self.compare_forms(&outcome, &archive, &model);
        let ((refusal, (found, entry)), _) = self.go_on(archive, store, session);
        unless(refusal, (found == 1).then_some(entry))
    }

    /// A joint reading of one plot is the reading of that plot.
    fn read_each_alone(&mut self, store: &[u32], session: &Session, plots: &[u32]) {
        let lent: Lent = (store, session, &[0; 3]);
        let mut plots = plots.to_vec();
        plots.sort();
        plots.dedup();
        for plot in plots {
            let single = each_form(PLOT_READS, lent, |call, store, session, row| {
                let (refusal, (found, entry)) = call(store, session, plot);
                row.copy_from_slice(&[found, entry.value, entry.payload()]);
                refusal
            });
            let joint =
                each_form(JOINT_READS, lent, |call, store, session, row| call(store, session, &[plot], row));
            for ((call, joint), (_, single)) in joint.iter().zip(&single) {
                self.compare(call, "one plot alone", joint, single);
            }
        }
    }

    /// The answer.
    pub fn read_joint(
        &mut self,
        store: &mut [u32],
        session: &mut Session,
        plots: &[u32],
    ) -> Result<Vec<u32>, u32> {
        self.read_each_alone(store, session, plots);
        let row = self.row_for(3 * plots.len());
        let lent: Lent = (store, session, &row);
        let archive =
            each_form(JOINT_READS, lent, |call, store, session, row| call(store, session, plots, row));
        let mut model = on_copies(lent, |store, session, row| {
            model::read_joint(store, session, plots, row).err().unwrap_or(0)
        });
        let outcomes = match model.reply {
            0 => joint::outcomes(&mut model.store, &model.session, plots)
                .into_iter()
                .map(String::from)
                .collect(),
            refusal => vec![format!("refused {refusal}")],
        };
        for outcome in &outcomes {
            self.compare_forms(outcome, &archive, &model);
        }
        let (refusal, mut row) = self.go_on(archive, store, session);
        row.truncate(3 * plots.len());
        unless(refusal, row)
    }

    /// The row's words that were written.
    pub fn write(
        &mut self,
        store: &mut [u32],
        session: &mut Session,
        plot: u32,
        value: u32,
    ) -> Result<Vec<u32>, u32> {
        // A trial on copies tells how much room the call needs.
        let trial = model::write(&mut store.to_vec(), &mut session.clone(), plot, value, &mut [0; 4600]);
        let any = self.random.index(300);
        let row = self.row_for(trial.unwrap_or(any));
        let lent: Lent = (store, session, &row);
        let archive =
            each_form(WRITES, lent, |call, store, session, row| call(store, session, plot, value, row));
        let model =
            on_copies(lent, |store, session, row| reply(model::write(store, session, plot, value, row)));
        let one = 4 + session.offices as usize + model.row.first().map_or(0, |head| (head & 0xFF) as usize);
        let outcome = outcome(model.reply.0, || if model.reply.1 > one { "carried" } else { "accepted" });
        self.compare_forms(&outcome, &archive, &model);
        let ((refusal, words), mut row) = self.go_on(archive, store, session);
        row.truncate(words);
        unless(refusal, row)
    }

    /// The words that go on, if any.
    pub fn receive(&mut self, store: &mut [u32], frame: &[u32]) -> Result<Vec<u32>, u32> {
        let row = self.row_for(frame.len());
        let lent: Lent = (store, &Session::default(), &row);
        let mut archive = on_copies(lent, |store, _, row| archive::receive(store, frame, row));
        let model = on_copies(lent, |store, _, row| reply(model::receive(store, frame, row)));
        let outcome = outcome(model.reply.0, || match model.reply.1 {
            0 => "brought out",
            _ if check_goes_round(frame) => "went on, check gone round",
            200.. => "went on, 200 words or more",
            _ => "went on",
        });
        self.compare("receive", &outcome, &archive, &model);
        store.copy_from_slice(&archive.store);
        let (refusal, words) = archive.reply;
        archive.row.truncate(words);
        unless(refusal, archive.row)
    }
}
