//! Document 02 (iv): "Swapping the two may change the carrying order only." So what is joined either way
//! round reads and writes alike.

use crate::archive::lent::{read_joint, read_plot, write};
use crate::frame_cases::frames;
use crate::joined::in_order;
use crate::model::session::Session;
use crate::report::Report;

/// Two sessions and the office that they come to.
pub struct Swapped<'a> {
    pub sessions: [Session; 2],
    pub store: &'a [u32],
}

/// What has to be compared at least once with what is carried in two orders.
pub const ALIKE: [&str; 3] =
    ["in two orders, read_plot alike", "in two orders, read_joint alike", "in two orders, write alike"];

/// A write on this plot: the refusal, and the frames that are sent.
fn write_on(store: &mut [u32], session: &mut Session, plot: u32) -> (u32, Vec<Vec<u32>>) {
    let mut row = [0; 4_600];
    let (refusal, words) = write(store, session, plot, 7, &mut row);
    (refusal, sent(&row[..words], session.offices))
}

impl Swapped<'_> {
    /// Where the two carry in one order, as a session joined with itself, there is less to compare.
    fn name(&self, call: &str) -> String {
        let orders = if self.sessions[0].own == self.sessions[1].own { "one order" } else { "two orders" };
        format!("join: in {orders}, {call} alike")
    }

    /// Each makes a call, at a copy of the office: reply and store are the same, and the session but for the
    /// order of what it carries.
    fn compare<R: PartialEq>(
        &self,
        report: &mut Report,
        call: &str,
        made: impl Fn(&mut [u32], &mut Session) -> R,
    ) {
        let [one, other] = self.sessions.map(|mut session| {
            let mut store = self.store.to_vec();
            let reply = made(&mut store, &mut session);
            (reply, store, in_order(session))
        });
        report.check(&self.name(call), one == other, || format!("{:?}", self.sessions));
    }

    /// The plots of all that is carried are read jointly.
    pub fn alike(&self, report: &mut Report, plot: u32) {
        let plots: Vec<u32> = self.sessions[0].own_entries().iter().map(|entry| entry.plot).collect();
        self.compare(report, "read_plot", |store, session| read_plot(store, session, plot));
        self.compare(report, "read_joint", |store, session| {
            let mut answer = [0; 48];
            (read_joint(store, session, &plots, &mut answer), answer)
        });
        let refusal = write_on(&mut self.store.to_vec(), &mut self.sessions[0].clone(), plot).0;
        let call = if refusal == 0 { "write" } else { "refused write" };
        self.compare(report, call, |store, session| write_on(store, session, plot));
    }
}

/// The frames of a row but for the order of those that were carried: that of the new entry comes last.
fn sent(words: &[u32], offices: u32) -> Vec<Vec<u32>> {
    let mut frames = frames(offices, words);
    if let Some((_, carried)) = frames.split_last_mut() {
        carried.sort();
    }
    frames
}
