//! A token: a session as words.

/// A session as words, to be kept or sent. They are checked when a session is read from them.
#[derive(Clone, Debug, PartialEq, Eq, Hash)]
pub struct Token(Vec<u32>);

impl Token {
    /// A token that has come from elsewhere. It may hold any words.
    ///
    /// ```
    /// # use burial_register::{Refusal, Ring, Session, Token};
    /// let ring = Ring { offices: 3, plots: 64 };
    /// let read = Session::from_token(ring, &Token::from_words(vec![1, 2, 3]));
    /// assert_eq!(read.err(), Some(Refusal::NotAFrame));
    /// ```
    pub fn from_words(words: Vec<u32>) -> Token {
        Token(words)
    }

    /// The words to keep or send.
    pub fn words(&self) -> &[u32] {
        &self.0
    }
}
