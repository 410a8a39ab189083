//! The frames that wait at one office, one right after the other.

use super::frame::frame_words;

/// How many frames may wait.
pub const WAITING: usize = 32;
/// How many frames a write sends at most.
const SENT: usize = 17;

pub struct Queue {
    words: Vec<u32>,
    first: usize,
    end: usize,
    offices: u32,
    pub count: usize,
}

impl Queue {
    /// Room for all that may wait and for a write twice over, so that words seldom move.
    pub fn new(offices: u32) -> Self {
        let words = vec![0; (WAITING + 2 * SENT) * longest(offices)];
        Queue { words, first: 0, end: 0, offices, count: 0 }
    }

    /// Where a call writes frames that come to wait.
    pub fn row(&mut self) -> &mut [u32] {
        if self.words.len() - self.end < SENT * longest(self.offices) {
            self.words.copy_within(self.first..self.end, 0);
            self.end -= self.first;
            self.first = 0;
        }
        &mut self.words[self.end..]
    }

    /// Takes in the words that a call wrote.
    pub fn push(&mut self, words: usize) {
        let end = self.end + words;
        while self.end < end {
            self.end += frame_words(self.words[self.end], self.offices);
            self.count += 1;
        }
    }

    /// The oldest frame.
    pub fn front(&self) -> Option<&[u32]> {
        let rest = &self.words[self.first..self.end];
        rest.get(..frame_words(*rest.first()?, self.offices))
    }

    pub fn pop(&mut self, words: usize) {
        self.first += words;
        self.count -= 1;
    }
}

/// The words that a frame takes at most.
fn longest(offices: u32) -> usize {
    4 + 33 * offices as usize
}
