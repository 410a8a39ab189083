//! The ring program: plays a ring of three offices from a script.

use super::office::{open_office, read_plot, receive, store_need, write};
use super::session::{fresh_session, Session};
use std::collections::VecDeque;

const OFFICES: usize = 3;
const PLOTS: u32 = 64;
const SESSIONS: usize = 4;
/// How many frames may wait at one office.
const WAITING: usize = 32;
/// More than 17 frames of a ring of three take.
const ROW: usize = 2048;

#[derive(Clone, Copy, Debug, PartialEq, Eq)]
enum Command {
    Write { session: usize, plot: u32, value: u32 },
    Read { session: usize, plot: u32 },
    Move { session: usize, office: usize },
    Hear { office: usize },
}

/// A decimal number of 32 bits with no leading zeros.
fn number(field: &str) -> Option<u32> {
    let plain = field.bytes().all(|byte| byte.is_ascii_digit());
    let leading = field.len() > 1 && field.starts_with('0');
    if plain && !leading {
        field.parse().ok()
    } else {
        None
    }
}

fn below(field: &str, bound: usize) -> Option<usize> {
    number(field).map(|n| n as usize).filter(|&n| n < bound)
}

fn command(line: &[u8]) -> Option<Command> {
    let fields: Vec<&str> = std::str::from_utf8(line).ok()?.split(' ').collect();
    Some(match fields[..] {
        ["W", session, plot, value] => {
            let session = below(session, SESSIONS)?;
            Command::Write { session, plot: number(plot)?, value: number(value)? }
        }
        ["R", session, plot] => Command::Read { session: below(session, SESSIONS)?, plot: number(plot)? },
        ["M", session, office] => {
            Command::Move { session: below(session, SESSIONS)?, office: below(office, OFFICES)? }
        }
        ["H", office] => Command::Hear { office: below(office, OFFICES)? },
        _ => return None,
    })
}

/// Lines end at a newline or at the end of the input; none begins there.
fn lines(input: &[u8]) -> impl Iterator<Item = &[u8]> {
    input.split_inclusive(|&byte| byte == b'\n').map(|line| line.strip_suffix(b"\n").unwrap_or(line))
}

/// Frames that were written one right after the other.
fn split_frames(mut words: &[u32]) -> Vec<Vec<u32>> {
    let mut frames = Vec::new();
    while !words.is_empty() {
        let (frame, rest) = words.split_at(4 + OFFICES + (words[0] & 0xFF) as usize);
        frames.push(frame.to_vec());
        words = rest;
    }
    frames
}

#[derive(Clone)]
struct Office {
    store: Vec<u32>,
    waiting: VecDeque<Vec<u32>>,
}

#[derive(Clone, Copy)]
struct Traveller {
    session: Session,
    office: usize,
}

pub struct Ring {
    offices: Vec<Office>,
    sessions: [Traveller; SESSIONS],
}

fn next(office: usize) -> usize {
    (office + 1) % OFFICES
}

impl Ring {
    pub fn new() -> Self {
        let sessions = [Traveller { session: fresh_session(OFFICES as u32).unwrap(), office: 0 }; SESSIONS];
        let offices = (0..OFFICES as u32)
            .map(|own| {
                let mut store = vec![0; store_need(OFFICES as u32, own, PLOTS).unwrap()];
                open_office(OFFICES as u32, own, PLOTS, &mut store).unwrap();
                Office { store, waiting: VecDeque::new() }
            })
            .collect();
        Ring { offices, sessions }
    }

    fn has_room(&self, office: usize, frames: usize) -> bool {
        self.offices[office].waiting.len() + frames <= WAITING
    }

    /// Works on copies, which take the place of the originals once the frames have room.
    fn write(&mut self, session: usize, plot: u32, value: u32) -> Result<String, u32> {
        let mut traveller = self.sessions[session];
        let mut store = self.offices[traveller.office].store.clone();
        let mut row = [0; ROW];
        let words = write(&mut store, &mut traveller.session, plot, value, &mut row)?;
        let frames = split_frames(&row[..words]);
        if !self.has_room(next(traveller.office), frames.len()) {
            return Ok("full".to_string());
        }
        self.offices[next(traveller.office)].waiting.extend(frames);
        self.offices[traveller.office].store = store;
        self.sessions[session] = traveller;
        let new = traveller.session.own_entries().last().unwrap();
        Ok(format!("W {}.{}", new.office, new.serial))
    }

    fn read(&mut self, session: usize, plot: u32) -> Result<String, u32> {
        let traveller = &mut self.sessions[session];
        let store = &mut self.offices[traveller.office].store;
        Ok(match read_plot(store, &mut traveller.session, plot)? {
            Some(entry) => format!("R {} {}.{}", entry.value, entry.office, entry.serial),
            None => "R none".to_string(),
        })
    }

    fn hear(&mut self, office: usize) -> Result<String, u32> {
        let Some(frame) = self.offices[office].waiting.front() else {
            return Ok("H none".to_string());
        };
        let mut store = self.offices[office].store.clone();
        let mut row = [0; ROW];
        let words = receive(&mut store, frame, &mut row)?;
        let frames = split_frames(&row[..words]);
        if !self.has_room(next(office), frames.len()) {
            return Ok("full".to_string());
        }
        self.offices[office].waiting.pop_front();
        self.offices[office].store = store;
        self.offices[next(office)].waiting.extend(frames);
        Ok(format!("H {}", self.offices[office].waiting.len()))
    }

    /// The reply to one line, without its newline.
    pub fn reply(&mut self, line: &[u8]) -> String {
        let result = match command(line) {
            None => Ok("line?".to_string()),
            Some(Command::Write { session, plot, value }) => self.write(session, plot, value),
            Some(Command::Read { session, plot }) => self.read(session, plot),
            Some(Command::Hear { office }) => self.hear(office),
            Some(Command::Move { session, office }) => {
                self.sessions[session].office = office;
                Ok("M ok".to_string())
            }
        };
        result.unwrap_or_else(|refusal| format!("refused {refusal}"))
    }
}

/// What the ring program prints for a script.
pub fn play(input: &[u8]) -> String {
    let mut ring = Ring::new();
    lines(input).map(|line| ring.reply(line) + "\n").collect()
}
