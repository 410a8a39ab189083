//! Self checks of the model's tokens.

use super::checks::Check;
use super::office::{open_office, store_need, write};
use super::session::{fresh_session, Session};
use super::token::{read_token, token_words, write_token};

/// A session that carries entries from two offices and has read one more.
fn travelled() -> Session {
    let mut session = fresh_session(3).unwrap();
    for own in 0..2 {
        let mut store = vec![0; store_need(3, own, 64).unwrap()];
        open_office(3, own, 64, &mut store).unwrap();
        write(&mut store, &mut session, own + 5, 709, &mut [0; 40]).unwrap();
    }
    session.read[2] = 1 << 31;
    session
}

fn fresh_token() -> bool {
    let mut row = [7; 6];
    let words = [0x8300_0000, 0x5000_0000, 0x5000_0000, 0x5000_0000, 0xF300_0000];
    let session = fresh_session(3).unwrap();
    write_token(&session, &mut row) == Ok(5)
        && row[..5] == words
        && row[5] == 7
        && read_token(&words, 3, 1) == Ok(session)
}

fn round_trip() -> bool {
    let session = travelled();
    let mut row = vec![7; token_words(&session)];
    write_token(&session, &mut row) == Ok(row.len())
        && read_token(&row, 3, 64) == Ok(session)
        && read_token(&row, 3, 7) == Ok(session)
        && read_token(&row, 3, 6) == Err(9)
        && read_token(&row, 4, 64) == Err(9)
        && read_token(&row, 9, 64) == Err(1)
}

fn changed_words() -> bool {
    let mut row = vec![0; token_words(&travelled())];
    write_token(&travelled(), &mut row).unwrap();
    (0..32 * row.len()).all(|bit| {
        let mut damaged = row.clone();
        damaged[bit / 32] ^= 1 << (bit % 32);
        read_token(&damaged, 3, 64) == Err(9)
    })
}

fn refused_writing() -> bool {
    let mut unsound = travelled();
    unsound.own[0].deps[1] = 2;
    let mut row = vec![7; token_words(&travelled()) - 1];
    write_token(&unsound, &mut row) == Err(3)
        && write_token(&travelled(), &mut row) == Err(8)
        && row.iter().all(|&word| word == 7)
}

pub fn token_checks() -> Vec<Check> {
    vec![
        ("model: token of a fresh session", fresh_token()),
        ("model: token round trip", round_trip()),
        ("model: token with one bit changed", changed_words()),
        ("model: refusals of writing a token", refused_writing()),
    ]
}
