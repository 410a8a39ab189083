//! The sessions of a run, each with its past beside it.

use crate::archive::tokens::{fresh_session, read_token, write_token};
use crate::later;
use crate::model::entry::{is_subset, IdSet};
use crate::model::past::{both, EMPTY};
use crate::model::session::Session;
use crate::model::token::token_words;
use crate::twin::Twin;

#[derive(Clone, Copy)]
pub struct Tracked {
    pub session: Session,
    pub past: IdSet,
    /// How it was copied, if it had a past then; or that it was joined of two of which each knew something
    /// that the other did not.
    pub origin: Option<&'static str>,
}

/// The session as it comes back from a token: itself.
fn through_token(twin: &mut Twin, session: &Session, plots: u32) -> Session {
    let mut token = twin.random.row(token_words(session));
    let written = write_token(session, &mut token);
    let read = read_token(&token, session.offices, plots);
    twin.report.same("token: the session itself", &(written, read), &((0, token.len()), (0, *session)));
    read.1
}

impl Tracked {
    pub fn fresh(twin: &mut Twin, offices: u32) -> Tracked {
        let (refusal, session) = fresh_session(offices);
        twin.report.same("fresh_session: of a ring", &refusal, &0);
        Tracked { session, past: EMPTY, origin: None }
    }

    fn of_origin(&self, session: Session, how: &'static str) -> Tracked {
        Tracked { session, past: self.past, origin: (self.past != EMPTY).then_some(how) }
    }

    pub fn copy(&self) -> Tracked {
        self.of_origin(self.session, later::BY_COPY)
    }

    pub fn through_token(&self, twin: &mut Twin, plots: u32) -> Tracked {
        self.of_origin(through_token(twin, &self.session, plots), later::BY_TOKEN)
    }

    /// This session, joined of these two.
    pub fn joined(session: Session, first: &Tracked, second: &Tracked) -> Tracked {
        let of_two = !is_subset(&first.past, &second.past) && !is_subset(&second.past, &first.past);
        Tracked { session, past: both(&first.past, &second.past), origin: of_two.then_some(later::BY_JOIN) }
    }
}
