//! Joins two sessions on the archive and on the model, both ways round, and compares all that comes back.

use crate::archive::tokens::join_sessions;
use crate::model::entry::{Entry, IdSet};
use crate::model::join as model;
use crate::model::session::Session;
use crate::report::Report;
use std::hint::black_box;

/// What a join is given.
#[derive(Clone, Copy, Debug)]
pub struct Given {
    pub offices: u32,
    pub plots: u32,
    pub first: Session,
    pub second: Session,
}

/// What comes back: the refusal and the session, all zeros on refusal.
type Answer = (u32, Session);

/// What the two of an accepted join carry; a test that misses one has not tested it.
pub const ACCEPTED: [&str; 6] = [
    "nothing carried",
    "own writes distinct",
    "own writes overlap",
    "own writes the same",
    "16 carried",
    "read in one and own in the other",
];

fn overlap(a: &IdSet, b: &IdSet) -> bool {
    a.iter().zip(b).any(|(a, b)| a & b != 0)
}

impl Given {
    pub fn swapped(&self) -> Given {
        Given { first: self.second, second: self.first, ..*self }
    }

    fn on_model(&self) -> Answer {
        let joined = model::join_sessions(self.offices, self.plots, &self.first, &self.second);
        joined.map_or_else(|refusal| (refusal, Session::default()), |session| (0, session))
    }

    /// The archive's answer, and whether the two that it was given have stayed.
    fn on_archive(&self) -> (Answer, bool) {
        let given = black_box([self.first, self.second]);
        let answer = join_sessions(self.offices, self.plots, &given[0], &given[1]);
        (answer, *black_box(&given) == [self.first, self.second])
    }

    /// Which of ACCEPTED it is, once accepted with so many carried.
    fn accepted(&self, carried: usize) -> impl Iterator<Item = &'static str> {
        let (first, second) = (&self.first, &self.second);
        let (ids, others) = (first.own_ids(), second.own_ids());
        let (some, shared) = (first.count > 0 && second.count > 0, overlap(&ids, &others));
        let holds = [
            carried == 0,
            some && !shared,
            shared && ids != others,
            shared && ids == others,
            carried == 16,
            overlap(&first.read, &others) || overlap(&second.read, &ids),
        ];
        ACCEPTED.into_iter().zip(holds).filter(|(_, holds)| *holds).map(|(name, _)| name)
    }

    fn compare(&self, report: &mut Report) -> Answer {
        let (model, (archive, stayed)) = (self.on_model(), self.on_archive());
        let names: Vec<String> = match model.0 {
            0 => ["accepted"].into_iter().chain(self.accepted(model.1.count)).map(String::from).collect(),
            refusal => vec![format!("refused {refusal}")],
        };
        for name in names {
            report.check(&format!("join: {name}"), archive == model && stayed, || {
                format!("archive {archive:?}\n  model {model:?}\n  stayed {stayed}: {self:?}")
            });
        }
        archive
    }
}

/// The session with all that it carries in the order of ids.
pub fn in_order(mut session: Session) -> Session {
    session.own.sort_by_key(Entry::id);
    session
}

/// The archive's answer, once it is compared, and that to the two swapped.
pub fn join(report: &mut Report, given: &Given) -> [Answer; 2] {
    let ways = [given.compare(report), given.swapped().compare(report)];
    let [one, other] = ways.map(|(refusal, session)| (refusal, in_order(session)));
    let same = one == other;
    report.check("join: swapped, the same but for the order", same, || format!("{ways:?}\n  {given:?}"));
    ways
}
