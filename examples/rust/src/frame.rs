//! A frame: an entry on its way round the ring, as words for the line.

use crate::entry::Entry;
use crate::ffi;
use crate::refusal::Refusal;
use crate::settings::Ring;

/// An entry on its way round the ring. Its words are a frame of that ring.
#[derive(Clone, Debug, PartialEq, Eq, Hash)]
pub struct Frame {
    words: Vec<u32>,
    entry: Entry,
    hops: u32,
}

impl Frame {
    /// Reads a frame that takes all the words.
    ///
    /// ```
    /// # use burial_register::{Frame, Ring};
    /// # let ring = Ring { offices: 2, plots: 64 };
    /// let words = [0x10010200, 0x30000005, 0x400002C5, 0x50000001, 0x50000000, 0xF00104CB];
    /// assert_eq!(Frame::from_words(ring, &words)?.entry().to_string(), "709 by 0.1");
    /// # Ok::<(), burial_register::Refusal>(())
    /// ```
    pub fn from_words(ring: Ring, words: &[u32]) -> Result<Frame, Refusal> {
        let read = ffi::read_frame(ring, words)?;
        Ok(Frame { words: words.to_vec(), entry: read.entry.into(), hops: read.hops })
    }

    /// Reads a frame from bytes, each word lowest byte first.
    pub fn from_bytes(ring: Ring, bytes: &[u8]) -> Result<Frame, Refusal> {
        ffi::check_frame(ring, bytes)?;
        let word = |part: &[u8]| u32::from_le_bytes([part[0], part[1], part[2], part[3]]);
        let words: Vec<u32> = bytes.chunks_exact(4).map(word).collect();
        Frame::from_words(ring, &words)
    }

    /// Reads the frames of a row in which each begins right after the one before.
    pub fn split(ring: Ring, mut row: &[u32]) -> Result<Vec<Frame>, Refusal> {
        let mut frames = Vec::new();
        while let Some(head) = row.first() {
            // Head, plot, value and check; a clock; and as many dependencies as the head says.
            let words = 4 + ring.offices as usize + (head & 0xFF) as usize;
            let (frame, rest) = row.split_at_checked(words).ok_or(Refusal::NotAFrame)?;
            frames.push(Frame::from_words(ring, frame)?);
            row = rest;
        }
        Ok(frames)
    }

    /// The words to send.
    pub fn words(&self) -> &[u32] {
        &self.words
    }

    /// The same as bytes, each word lowest byte first.
    pub fn to_bytes(&self) -> Vec<u8> {
        self.words.iter().flat_map(|word| word.to_le_bytes()).collect()
    }

    /// The entry that it carries.
    pub fn entry(&self) -> Entry {
        self.entry
    }

    /// How many offices are still to hear it after the one that gets it next.
    pub fn hops(&self) -> u32 {
        self.hops
    }
}

#[cfg(test)]
mod tests {
    use super::*;

    const RING: Ring = Ring { offices: 3, plots: 64 };
    /// Cases A and B of the ring program's table.
    const ROW: [u32; 15] = [
        0x10011300, 0x30000005, 0x400002C5, 0x50000001, 0x50000000, 0x50000000, 0xF00115CB,
        0x11011301, 0x30000006, 0x40000001, 0x50000001, 0x50000001, 0x50000000, 0x60000001,
        0xF101130B,
    ];

    #[test]
    fn a_row_is_split_into_its_frames() {
        let frames = Frame::split(RING, &ROW).unwrap();
        let told: Vec<_> = frames.iter().map(|f| (f.entry().to_string(), f.hops())).collect();
        assert_eq!(told, [("709 by 0.1".to_string(), 1), ("1 by 1.1".to_string(), 1)]);
        assert_eq!([frames[0].words(), frames[1].words()].concat(), ROW);
        assert_eq!(Frame::split(RING, &[]), Ok(vec![]));
    }

    #[test]
    fn a_row_that_ends_within_a_frame_is_refused() {
        for words in (1..15).filter(|words| *words != 7) {
            assert_eq!(Frame::split(RING, &ROW[..words]), Err(Refusal::NotAFrame));
        }
    }

    #[test]
    fn bytes_and_words_are_one_frame() {
        let frame = Frame::from_words(RING, &ROW[7..]).unwrap();
        let bytes = frame.to_bytes();
        assert_eq!(bytes[..4], [0x01, 0x13, 0x01, 0x11]);
        assert_eq!(Frame::from_bytes(RING, &bytes), Ok(frame));
        assert_eq!(Frame::from_bytes(RING, &bytes[..31]), Err(Refusal::NotAFrame));
        assert_eq!(Frame::from_bytes(RING, &[]), Err(Refusal::NotAFrame));
    }

    #[test]
    fn a_frame_of_another_ring_is_refused() {
        let read = |offices, plots| Frame::from_words(Ring { offices, plots }, &ROW[..7]).err();
        assert_eq!(read(4, 64), Some(Refusal::NotAFrame));
        assert_eq!(read(3, 5), Some(Refusal::NotAFrame));
        assert_eq!(read(3, 6), None);
        assert_eq!(read(9, 64), Some(Refusal::BadSettings));
    }
}
