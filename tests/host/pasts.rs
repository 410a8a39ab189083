//! What readings owe to the model's pasts.

use crate::model::entry::{has, union, Entry, IdSet};
use crate::model::past::{Log, EMPTY};
use crate::model::session::Session;

/// The office and serial of the entry that is handed back for a plot, if any.
fn reply(words: &[u32]) -> Option<(u32, u32)> {
    (words[0] == 1).then_some((words[2] >> 8, words[2] & 0xFF))
}

pub fn handed_back(answer: &[u32]) -> impl Iterator<Item = (u32, u32)> + '_ {
    answer.chunks_exact(3).filter_map(reply)
}

/// Whether no reply is below an entry of this past; none where the past has no entry of a listed plot.
pub fn keeps_past(log: &Log, past: IdSet, plots: &[u32], answer: &[u32]) -> Option<bool> {
    let earlier: Vec<&Entry> = log.entries(past).filter(|entry| plots.contains(&entry.plot)).collect();
    let holds = plots.iter().zip(answer.chunks_exact(3)).all(|(plot, words)| {
        let reply = reply(words).and_then(|id| log.entry(id));
        let mut of_plot = earlier.iter().filter(|entry| entry.plot == *plot);
        of_plot.all(|entry| reply.is_some_and(|reply| !entry.outranks(reply)))
    });
    (!earlier.is_empty()).then_some(holds)
}

/// Whether no reply is below the past of the writer of an entry that is handed back with it.
pub fn goes_together(log: &Log, plots: &[u32], answer: &[u32]) -> Option<bool> {
    let pasts = handed_back(answer).map(|id| log.writers_past(id));
    keeps_past(log, pasts.fold(EMPTY, |past, more| union(&past, &more)), plots, answer)
}

/// Whether each entry that was read and that the past lacks is below an own one, as it was not handed back;
/// none where the past lacks nothing that was read.
pub fn lacks_only_outranked(log: &Log, past: IdSet, session: &Session) -> Option<bool> {
    let mut lacking =
        log.entries(session.read).filter(|read| !has(&past, read.office, read.serial)).peekable();
    lacking.peek()?;
    Some(lacking.all(|read| {
        let mut own = session.own_entries().iter();
        own.any(|own| own.plot == read.plot && own.outranks(read))
    }))
}
