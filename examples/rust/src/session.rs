//! A session: what one person has read and written, carried from office to office.

use crate::bounds::TOKEN_WORDS;
use crate::ffi;
use crate::refusal::Refusal;
use crate::settings::Ring;
use crate::token::Token;

/// What one person has read and written. A clone goes on with its own history.
#[derive(Clone, Debug)]
pub struct Session {
    pub(crate) inner: ffi::Session,
}

impl Session {
    /// A session with nothing read and nothing written.
    ///
    /// ```
    /// # use burial_register::{Refusal, Ring, Session};
    /// assert_eq!(Session::fresh(Ring { offices: 3, plots: 64 })?.carried(), 0);
    /// # Ok::<(), Refusal>(())
    /// ```
    pub fn fresh(ring: Ring) -> Result<Session, Refusal> {
        Ok(Session { inner: ffi::fresh_session(ring)? })
    }

    /// One session of two, where two people went on with copies: it knows what either of them knew.
    /// They stay as they are. Swapped, they change the order in which it carries their entries, and
    /// nothing else.
    ///
    /// ```
    /// # use burial_register::{Office, Refusal, Ring, Session};
    /// # let ring = Ring { offices: 3, plots: 64 };
    /// # let (mut office, mut elsewhere) = (Office::open(ring, 0)?, Office::open(ring, 1)?);
    /// let mut first = Session::fresh(ring)?;
    /// let mut second = first.clone();
    /// office.write(&mut first, 5, 709)?;
    /// elsewhere.write(&mut second, 6, 1)?;
    /// let mut both = Session::join(ring, &first, &second)?;
    /// let found = office.read_joint(&mut both, &[5, 6])?;
    /// assert_eq!(found[0].unwrap().to_string(), "709 by 0.1");
    /// assert_eq!(found[1].unwrap().to_string(), "1 by 1.1");
    /// # Ok::<(), Refusal>(())
    /// ```
    pub fn join(ring: Ring, first: &Session, second: &Session) -> Result<Session, Refusal> {
        Ok(Session { inner: ffi::join_sessions(ring, &first.inner, &second.inner)? })
    }

    /// The session that a token was made from.
    pub fn from_token(ring: Ring, token: &Token) -> Result<Session, Refusal> {
        Ok(Session { inner: ffi::read_token(ring, token.words())? })
    }

    /// The session as a token, to be kept or taken to another office.
    pub fn token(&self) -> Result<Token, Refusal> {
        let mut row = vec![0; TOKEN_WORDS];
        let words = ffi::write_token(&self.inner, &mut row)?;
        row.truncate(words);
        Ok(Token::from_words(row))
    }

    /// How many entries of its own it carries. With 16 it can write no more; a fresh one can.
    pub fn carried(&self) -> usize {
        self.inner.count
    }
}

#[cfg(test)]
mod tests {
    use super::*;
    use crate::Office;

    const RING: Ring = Ring { offices: 3, plots: 64 };

    /// A session that wrote so many entries at one office.
    fn with_entries(own: u32, count: u32) -> Session {
        let mut office = Office::open(RING, own).unwrap();
        let mut session = Session::fresh(RING).unwrap();
        for plot in 0..count {
            office.write(&mut session, plot, 7).unwrap();
        }
        session
    }

    #[test]
    fn a_token_gives_the_session_back() {
        for count in 0..=16 {
            let session = with_entries(0, count);
            let token = session.token().unwrap();
            let back = Session::from_token(RING, &token).unwrap();
            assert_eq!(back.carried(), count as usize);
            assert_eq!(back.token(), Ok(token));
        }
    }

    #[test]
    fn a_token_with_one_word_changed_is_refused() {
        let token = with_entries(0, 2).token().unwrap();
        for place in 0..token.words().len() {
            let mut words = token.words().to_vec();
            words[place] ^= 1;
            let read = Session::from_token(RING, &Token::from_words(words));
            assert_eq!(read.err(), Some(Refusal::NotAFrame));
        }
    }

    #[test]
    fn a_token_of_another_ring_is_refused() {
        let token = with_entries(0, 2).token().unwrap();
        let read = |offices, plots| Session::from_token(Ring { offices, plots }, &token).err();
        assert_eq!(read(4, 64), Some(Refusal::NotAFrame));
        assert_eq!(read(3, 1), Some(Refusal::NotAFrame));
        assert_eq!(read(3, 0), Some(Refusal::BadSettings));
    }

    #[test]
    fn two_that_are_joined_are_carried_in_order_and_stay() {
        let (first, second) = (with_entries(0, 2), with_entries(1, 3));
        let before = [first.token(), second.token()];
        let both = Session::join(RING, &first, &second).unwrap();
        let ids = both.inner.own[..both.carried()].iter().map(|own| (own.office, own.serial));
        assert_eq!(ids.collect::<Vec<_>>(), [(0, 1), (0, 2), (1, 1), (1, 2), (1, 3)]);
        assert_eq!([first.token(), second.token()], before);
    }

    #[test]
    fn a_session_joined_with_an_earlier_copy_is_itself() {
        let session = with_entries(0, 3);
        let mut later = session.clone();
        Office::open(RING, 1).unwrap().write(&mut later, 9, 7).unwrap();
        for (first, second) in [(&session, &later), (&later, &session), (&later, &later)] {
            let both = Session::join(RING, first, second).unwrap();
            assert_eq!(both.token(), later.token());
        }
    }

    #[test]
    fn a_join_is_refused_in_order() {
        let join = |offices, plots, first, second| {
            Session::join(Ring { offices, plots }, first, second).err()
        };
        let (all, more) = (with_entries(0, 16), with_entries(1, 1));
        let mut other = all.clone();
        other.inner.own[0].value = 8;
        assert_eq!(join(9, 64, &all, &other), Some(Refusal::BadSettings));
        assert_eq!(join(3, 15, &all, &other), Some(Refusal::BadContent));
        assert_eq!(join(4, 64, &all, &other), Some(Refusal::BadContent));
        assert_eq!(join(3, 16, &all, &other), Some(Refusal::Different));
        assert_eq!(join(3, 16, &all, &more), Some(Refusal::SessionFull));
        assert_eq!(join(3, 16, &all, &all), None);
    }

    #[test]
    fn a_ring_of_nine_has_no_session() {
        let fresh = Session::fresh(Ring { offices: 9, plots: 64 });
        assert_eq!(fresh.err(), Some(Refusal::BadSettings));
    }
}
