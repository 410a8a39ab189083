//! The offices of one ring in one process, with a line to each.

use burial_register::{Frame, Id, Office, Refusal, Ring, Session};
use std::collections::VecDeque;

pub struct House {
    ring: Ring,
    offices: Vec<Office>,
    /// For each office the frames on their way to it, oldest first.
    lines: Vec<VecDeque<Frame>>,
}

impl House {
    pub fn open(ring: Ring) -> Result<House, Refusal> {
        let offices: Result<Vec<Office>, Refusal> =
            (0..ring.offices).map(|own| Office::open(ring, own)).collect();
        let lines = (0..ring.offices).map(|_| VecDeque::new()).collect();
        Ok(House { ring, offices: offices?, lines })
    }

    pub fn office(&mut self, own: u32) -> &mut Office {
        &mut self.offices[own as usize]
    }

    /// Writes at an office and sends the frames on their way; they are handed back too, by id.
    /// Between the two a host with files keeps the office, the session and the frames.
    pub fn write(
        &mut self,
        own: u32,
        session: &mut Session,
        plot: u32,
        value: u32,
    ) -> Result<Vec<Id>, Refusal> {
        let frames = self.office(own).write(session, plot, value)?;
        let ids = frames.iter().map(|frame| frame.entry().id).collect();
        self.lines[self.ring.next(own) as usize].extend(frames);
        Ok(ids)
    }

    /// Hears the oldest frame that waits at an office, and sends it on unless all have heard it. A
    /// refused one stays where it is. Hands back which it was and how many wait now, or nothing
    /// where none did.
    pub fn hear(&mut self, own: u32) -> Result<Option<(Id, usize)>, Refusal> {
        let at = own as usize;
        let Some(frame) = self.lines[at].front() else { return Ok(None) };
        let (id, onward) = (frame.entry().id, self.offices[at].hear(frame)?);
        self.lines[at].pop_front();
        self.lines[self.ring.next(own) as usize].extend(onward);
        Ok(Some((id, self.lines[at].len())))
    }
}
