//! The fast version's calls in the shapes of tests/host/archive, so that what tests the archive there
//! tests them too.

#[path = "../tests/host/archive/forms.rs"]
pub mod forms;

pub mod lent {
    use crate::fast::entry::reply;
    use crate::fast::office;
    use crate::model::entry::Entry;
    use crate::model::session::Session;

    pub fn read_plot(store: &mut [u32], session: &mut Session, plot: u32) -> (u32, (u32, Entry)) {
        let (refusal, entry) = reply(office::read_plot(store, session, plot));
        (refusal, entry.map_or((0, Entry::default()), |entry| (1, entry)))
    }

    pub fn read_joint(store: &mut [u32], session: &mut Session, plots: &[u32], answer: &mut [u32]) -> u32 {
        reply(office::read_joint(store, session, plots, answer)).0
    }

    pub fn write(
        store: &mut [u32],
        session: &mut Session,
        plot: u32,
        value: u32,
        out: &mut [u32],
    ) -> (u32, usize) {
        reply(office::write(store, session, plot, value, out))
    }
}

pub mod office {
    pub use super::lent::{read_joint, read_plot, write};
    use crate::fast::entry::reply;
    use crate::fast::office;

    pub fn store_need(offices: u32, own: u32, plots: u32) -> (u32, usize) {
        reply(office::store_need(offices, own, plots))
    }

    pub fn store_settings(store: &[u32]) -> (u32, [u32; 3]) {
        reply(office::store_settings(&mut store.to_vec()))
    }

    pub fn receive(store: &mut [u32], frame: &[u32], out: &mut [u32]) -> (u32, usize) {
        reply(office::receive(store, frame, out))
    }
}

pub mod tokens {
    use crate::fast::entry::reply;
    use crate::fast::{join, office, session, token};
    use crate::model::session::Session;

    pub fn read_token(words: &[u32], offices: u32, plots: u32) -> (u32, Session) {
        reply(token::read_token(words, offices, plots))
    }

    pub fn write_token(session: &Session, out: &mut [u32]) -> (u32, usize) {
        reply(token::write_token(session, out))
    }

    pub fn open_office(offices: u32, own: u32, plots: u32, store: &mut [u32]) -> u32 {
        reply(office::open_office(offices, own, plots, store)).0
    }

    pub fn fresh_session(offices: u32) -> (u32, Session) {
        reply(session::fresh_session(offices))
    }

    pub fn join_sessions(offices: u32, plots: u32, first: &Session, second: &Session) -> (u32, Session) {
        let mut joined = Session::default();
        let (refusal, ()) = reply(join::join_sessions(offices, plots, first, second, &mut joined));
        (refusal, joined)
    }
}
