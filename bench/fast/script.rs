//! The ring program: plays a ring of three offices from a script, in place, on what it lends to calls.

use super::line::{command, Command, LONGEST};
use super::office::{frames_of_write, open_office, read_plot, receive, store_need, write};
use super::queue::{Queue, WAITING};
use super::session::fresh_session;
use crate::model::refusal;
use crate::model::session::Session;
use std::io::{self, Read, Write};

const OFFICES: usize = 3;
const PLOTS: u32 = 64;
const SESSIONS: usize = 4;
const BUFFER: usize = 1 << 16;

struct Ring {
    stores: [Vec<u32>; OFFICES],
    queues: [Queue; OFFICES],
    sessions: [Session; SESSIONS],
    /// The office where each session is.
    places: [usize; SESSIONS],
}

fn opened(own: u32) -> Result<Vec<u32>, u32> {
    let mut store = vec![0; store_need(OFFICES as u32, own, PLOTS)?];
    open_office(OFFICES as u32, own, PLOTS, &mut store)?;
    Ok(store)
}

fn next(office: usize) -> usize {
    (office + 1) % OFFICES
}

fn put_number(text: &mut Vec<u8>, before: &[u8], number: u32) {
    let (mut digits, mut first, mut rest) = ([0; 10], 10, number);
    while rest > 0 || first == 10 {
        first -= 1;
        digits[first] = b'0' + (rest % 10) as u8;
        rest /= 10;
    }
    text.extend_from_slice(before);
    text.extend_from_slice(&digits[first..]);
}

fn put_id(text: &mut Vec<u8>, office: u32, serial: u32) {
    put_number(text, b" ", office);
    put_number(text, b".", serial);
}

impl Ring {
    fn new() -> Result<Self, u32> {
        let queues = std::array::from_fn(|_| Queue::new(OFFICES as u32));
        let sessions = [fresh_session(OFFICES as u32)?; SESSIONS];
        Ok(Ring { stores: [opened(0)?, opened(1)?, opened(2)?], queues, sessions, places: [0; SESSIONS] })
    }

    fn read(&mut self, who: usize, plot: u32, text: &mut Vec<u8>) -> Result<(), u32> {
        match read_plot(&mut self.stores[self.places[who]], &mut self.sessions[who], plot)? {
            Some(entry) => {
                put_number(text, b"R ", entry.value);
                put_id(text, entry.office, entry.serial);
            }
            None => text.extend_from_slice(b"R none"),
        }
        Ok(())
    }

    /// Where too many frames would wait, the call gets no room: it then refuses what it would refuse anyway,
    /// or else for want of room, and nothing changes.
    fn write(&mut self, who: usize, plot: u32, value: u32, text: &mut Vec<u8>) -> Result<(), u32> {
        let at = self.places[who];
        let (store, session) = (&mut self.stores[at], &mut self.sessions[who]);
        let queue = &mut self.queues[next(at)];
        let full = queue.count + frames_of_write(store, session) > WAITING;
        let words = write(store, session, plot, value, if full { &mut [] } else { queue.row() })?;
        queue.push(words);
        let new = &session.own[session.count - 1];
        text.push(b'W');
        put_id(text, new.office, new.serial);
        Ok(())
    }

    /// Full as for a write; at its last office a frame needs no room.
    fn hear(&mut self, office: usize, text: &mut Vec<u8>) -> Result<(), u32> {
        let Ok([here, there]) = self.queues.get_disjoint_mut([office, next(office)]) else { return Ok(()) };
        let Some(frame) = here.front() else {
            text.extend_from_slice(b"H none");
            return Ok(());
        };
        let (heard, full) = (frame.len(), there.count == WAITING);
        let words = receive(&mut self.stores[office], frame, if full { &mut [] } else { there.row() })?;
        there.push(words);
        here.pop(heard);
        put_number(text, b"H ", here.count as u32);
        Ok(())
    }

    fn line(&mut self, line: &[u8], text: &mut Vec<u8>) {
        let done = match command(line, SESSIONS as u32, OFFICES as u32) {
            Some(Command::Read { session, plot }) => self.read(session, plot, text),
            Some(Command::Write { session, plot, value }) => self.write(session, plot, value, text),
            Some(Command::Hear { office }) => self.hear(office, text),
            Some(Command::Move { session, office }) => {
                self.places[session] = office;
                text.extend_from_slice(b"M ok");
                Ok(())
            }
            None => {
                text.extend_from_slice(b"line?");
                Ok(())
            }
        };
        match done {
            Ok(()) => {}
            Err(refusal::ROOM) => text.extend_from_slice(b"full"),
            Err(refusal) => put_number(text, b"refused ", refusal),
        }
        text.push(b'\n');
    }
}

/// Plays the input to its end.
pub fn play(mut input: impl Read, mut output: impl Write) -> io::Result<()> {
    let mut ring = Ring::new().map_err(|_| io::Error::other("settings out of range"))?;
    let (mut bytes, mut text) = (vec![0; BUFFER], Vec::with_capacity(BUFFER));
    // How many bytes of a line without an end stand at the front of the buffer.
    let mut pending = 0;
    loop {
        let got = input.read(&mut bytes[pending..])?;
        if got == 0 {
            break;
        }
        let filled = pending + got;
        let mut rest = &bytes[..filled];
        while let Some(end) = rest.iter().position(|&byte| byte == b'\n') {
            ring.line(&rest[..end], &mut text);
            rest = &rest[end + 1..];
            // No reply takes 64 bytes.
            if text.len() + 64 > BUFFER {
                output.write_all(&text)?;
                text.clear();
            }
        }
        // A line that is too long stays too long without its later bytes.
        let from = filled - rest.len();
        pending = rest.len().min(LONGEST + 1);
        bytes.copy_within(from..from + pending, 0);
    }
    if pending > 0 {
        ring.line(&bytes[..pending], &mut text);
    }
    output.write_all(&text)?;
    output.flush()
}
