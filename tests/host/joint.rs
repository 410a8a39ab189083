//! What a joint reading comes upon: on each listed plot, and by the list.

use crate::model::entry::Entry;
use crate::model::session::Session;
use crate::model::store::Store;

/// How a joint reading that is accepted can end; a run that misses one has not tested it.
pub const ACCEPTED: &[&str] = &[
    "none",
    "presented",
    "own",
    "own below",
    "own, none presented",
    "own is presented",
    "tie",
    "own beside presented",
    "repeated plot",
    "16 plots",
    "empty list",
];

fn on_plot(presented: Option<Entry>, own: Option<Entry>) -> &'static str {
    match (presented, own) {
        (None, None) => "none",
        (Some(_), None) => "presented",
        (None, Some(_)) => "own, none presented",
        (Some(presented), Some(own)) if own.outranks(&presented) => "own",
        (Some(presented), Some(own)) if presented.outranks(&own) => "own below",
        (Some(presented), Some(own)) if presented == own => "own is presented",
        (Some(_), Some(_)) => "tie",
    }
}

fn highest_own(session: &Session, plot: u32) -> Option<Entry> {
    let own = session.own_entries().iter().filter(|entry| entry.plot == plot);
    own.copied().reduce(|best, entry| if entry.outranks(&best) { entry } else { best })
}

/// Each outcome once, of a reading that has left store and session so: own entries stay, and what it
/// presents is shown.
pub fn outcomes(store: &mut [u32], session: &Session, plots: &[u32]) -> Vec<&'static str> {
    let store = Store::sound(store).expect("an accepted reading leaves a sound store");
    let visible = store.visible();
    let mut met: Vec<&str> = plots
        .iter()
        .map(|&plot| on_plot(store.presented(plot, &visible), highest_own(session, plot)))
        .collect();
    met.sort();
    met.dedup();
    let has = |name| met.contains(&name);
    let of_list = [
        ("own beside presented", (has("own") || has("own, none presented")) && has("presented")),
        ("repeated plot", (1..plots.len()).any(|at| plots[..at].contains(&plots[at]))),
        ("16 plots", plots.len() == 16),
        ("empty list", plots.is_empty()),
    ];
    met.extend(of_list.iter().filter(|(_, holds)| *holds).map(|(name, _)| name));
    met
}
