//! Self checks of the model against the cases that document 01 gives.

use super::codec::{check_frame, read_frame, write_frame, Frame};
use super::entry::Entry;

/// The first line of the example script sends this frame.
pub const FRAME_A: [u32; 7] =
    [0x10011300, 0x30000005, 0x400002C5, 0x50000001, 0x50000000, 0x50000000, 0xF00115CB];

/// Its third line sends A again, then this frame.
pub const FRAME_B: [u32; 8] =
    [0x11011301, 0x30000006, 0x40000001, 0x50000001, 0x50000001, 0x50000000, 0x60000001, 0xF101130B];

pub fn content_a() -> Frame {
    let clock = [1, 0, 0, 0, 0, 0, 0, 0];
    let entry = Entry { office: 0, serial: 1, plot: 5, value: 709, clock, deps: [0; 8] };
    Frame { offices: 3, hops: 1, entry }
}

pub fn content_b() -> Frame {
    let clock = [1, 1, 0, 0, 0, 0, 0, 0];
    let deps = [1, 0, 0, 0, 0, 0, 0, 0];
    let entry = Entry { office: 1, serial: 1, plot: 6, value: 1, clock, deps };
    Frame { offices: 3, hops: 1, entry }
}

pub fn bytes_of(words: &[u32]) -> Vec<u8> {
    words.iter().flat_map(|word| word.to_le_bytes()).collect()
}

/// A name and whether it holds.
pub type Check = (&'static str, bool);

fn reads_and_writes(words: &[u32], content: &Frame) -> bool {
    let mut row = vec![7; words.len() + 1];
    read_frame(words, 3, 64) == Ok(*content)
        && check_frame(&bytes_of(words), 3, 64) == 0
        && write_frame(content, &mut row) == Ok(words.len())
        && row[..words.len()] == *words
        && row[words.len()] == 7
}

fn refuses_every_flipped_bit(words: &[u32]) -> bool {
    (0..words.len() * 32).all(|bit| {
        let mut damaged = words.to_vec();
        damaged[bit / 32] ^= 1 << (bit % 32);
        read_frame(&damaged, 3, 64) == Err(9)
    })
}

fn refuses_in_order() -> bool {
    let bytes = bytes_of(&FRAME_A);
    let mut row = [7; 6];
    let short = write_frame(&content_a(), &mut row) == Err(8) && row == [7; 6];
    short
        && check_frame(&bytes[..27], 9, 64) == 1
        && check_frame(&bytes[..27], 3, 64) == 9
        && read_frame(&FRAME_A, 3, 5) == Err(9)
        && read_frame(&FRAME_A, 3, 6).is_ok()
        && read_frame(&FRAME_A, 4, 64) == Err(9)
}

pub fn frame_checks() -> Vec<Check> {
    vec![
        ("model: frame A", reads_and_writes(&FRAME_A, &content_a())),
        ("model: frame B", reads_and_writes(&FRAME_B, &content_b())),
        ("model: frame A with one bit changed", refuses_every_flipped_bit(&FRAME_A)),
        ("model: frame B with one bit changed", refuses_every_flipped_bit(&FRAME_B)),
        ("model: order of refusals of frames", refuses_in_order()),
    ]
}
