//! Joins of pairs: sound ones, ones with a rule broken or an entry of two contents, and any words. Where
//! document 02 settles the refusal, it is given, so that a fault in the model shows too.

use crate::join_cases::{sound_pair, two_contents, Shares, PARTS};
use crate::joined::{join, Given, ACCEPTED};
use crate::model::session::Session;
use crate::random::Random;
use crate::report::Report;
use crate::session_cases::{random_session, zeros_beyond};
use crate::session_spoils::spoilt;

/// Together 16 entries, 17 and 32.
const AT_16: [Shares; 5] = [
    Shares::of(8, 0, 8),
    Shares::of(16, 0, 0),
    Shares::of(0, 16, 0),
    Shares::of(1, 14, 1),
    Shares::of(0, 15, 1),
];
const AT_17: [Shares; 3] = [Shares::of(8, 0, 9), Shares::of(16, 0, 1), Shares::of(1, 15, 1)];
const AT_32: [Shares; 1] = [Shares::of(16, 0, 16)];
/// Both carry two entries at least.
const TWO_EACH: [Shares; 4] =
    [Shares::of(2, 0, 2), Shares::of(0, 2, 0), Shares::of(1, 3, 2), Shares::of(9, 1, 9)];

/// Refused so, whichever of the two comes first; the session that is joined.
fn expect(report: &mut Report, name: &str, given: &Given, refusal: u32) -> Session {
    let answers = join(report, given);
    let refusals = answers.map(|answer| answer.0);
    report.check(&format!("join: {name}"), refusals == [refusal; 2], || {
        format!("refused {refusals:?}, not {refusal}: {given:?}")
    });
    answers[0].1
}

/// Joined to this session, whichever of the two comes first.
fn expect_session(report: &mut Report, name: &str, given: &Given, session: &Session) {
    let (answers, expected) = (join(report, given), (0, zeros_beyond(session)));
    report.check(&format!("join: {name}"), answers == [expected; 2], || {
        format!("{answers:?}\n  not {expected:?}: {given:?}")
    });
}

fn sound(random: &mut Random, report: &mut Report) {
    let shares = Shares::some(random);
    let given = sound_pair(random, shares);
    let over = shares.carried() > 16;
    let session = expect(report, "a sound pair", &given, if over { 7 } else { 0 });
    let holds = over || session.is_sound(given.offices, given.plots);
    report.check("join: what is joined is sound", holds, || format!("{session:?}"));
}

fn at_the_bound(random: &mut Random, report: &mut Report) {
    let bounds = [("16 in all", &AT_16[..], 0), ("17 in all", &AT_17, 7), ("32 in all", &AT_32, 7)];
    for (name, shares, refusal) in bounds {
        let shares = random.pick(shares);
        let given = sound_pair(random, shares);
        expect(report, name, &given, refusal);
    }
}

/// A session with itself, and with what it was some writes ago.
fn copies(random: &mut Random, report: &mut Report) {
    let shares = Shares::some(random);
    let given = sound_pair(random, shares);
    let first = given.first;
    expect_session(report, "with itself", &Given { second: first, ..given }, &first);
    let count = random.index(first.count + 1);
    let earlier = Session { count, ..first };
    expect_session(report, "with what it was before", &Given { second: earlier, ..given }, &first);
}

/// Other words in the places beyond the counts.
fn words_behind(random: &mut Random, report: &mut Report) {
    let shares = Shares::some(random);
    let given = sound_pair(random, shares);
    let [first, second] = [given.first, given.second].map(|session| {
        let mut other = Session { own: random_session(random).own, ..session };
        other.own[..session.count].copy_from_slice(session.own_entries());
        other
    });
    let (answers, others) = (join(report, &given), join(report, &Given { first, second, ..given }));
    report.check("join: words behind what is carried", answers == others, || {
        format!("{answers:?}\n  {others:?}: {given:?}")
    });
}

/// Also where over 16 entries would be carried, which comes after.
fn different(random: &mut Random, report: &mut Report) {
    for (name, part) in PARTS {
        let shares = if random.one_in(2) { Shares::of(9, 1, 8) } else { Shares::some(random) };
        let mut given = sound_pair(random, shares);
        if two_contents(random, part, &mut given) {
            expect(report, &format!("two contents: {name}"), &given, 11);
        }
    }
}

/// Each of the two, beside one that is sound. There may be two contents and over 16 entries too, which come
/// after.
fn unsound(random: &mut Random, report: &mut Report) {
    let shares = random.pick(&TWO_EACH);
    let mut given = sound_pair(random, shares);
    if random.one_in(2) {
        let part = random.pick(&PARTS).1;
        two_contents(random, part, &mut given);
    }
    for (name, first) in spoilt(random, &given.first, given.plots) {
        expect(report, &format!("unsound first: {name}"), &Given { first, ..given }, 3);
    }
    for (name, second) in spoilt(random, &given.second, given.plots) {
        expect(report, &format!("unsound second: {name}"), &Given { second, ..given }, 3);
    }
}

/// A pair of sessions, one of them perhaps any words.
fn any_pair(random: &mut Random) -> Given {
    let shares = Shares::some(random);
    let given = sound_pair(random, shares);
    match random.below(4) {
        0 => Given { first: random_session(random), ..given },
        1 => Given { second: random_session(random), ..given },
        _ => given,
    }
}

fn settings(random: &mut Random, report: &mut Report) {
    let given = any_pair(random);
    let offices = random.pick(&[0, 1, 9, 10, 16, given.offices + 256, 1 << 31, u32::MAX]);
    let plots = random.pick(&[0, 65, 128, given.plots + 256, 1 << 31, u32::MAX]);
    expect(report, "ring size out of range", &Given { offices, ..given }, 1);
    expect(report, "plots out of range", &Given { plots, ..given }, 1);
    expect(report, "both out of range", &Given { offices, plots, ..given }, 1);
    let other = 2 + (given.offices - 2 + random.between(1, 6)) % 7;
    expect(report, "another ring", &Given { offices: other, ..given }, 3);
    // Whether these cover what is carried depends on it.
    join(report, &Given { plots: random.between(1, given.plots), ..given });
}

/// Sessions that were never one; with the ring size of the call they come further before they are refused.
fn any_words(random: &mut Random, report: &mut Report) {
    let (offices, plots) = (random.between(2, 8), random.between(1, 64));
    let given = Given { offices, plots, first: random_session(random), second: random_session(random) };
    join(report, &given);
    let [first, second] = [given.first, given.second].map(|session| Session { offices, ..session });
    join(report, &Given { first, second, ..given });
}

/// Some joins of each kind.
pub fn calls(random: &mut Random, report: &mut Report) {
    (0..8).for_each(|_| sound(random, report));
    at_the_bound(random, report);
    copies(random, report);
    words_behind(random, report);
    different(random, report);
    unsound(random, report);
    settings(random, report);
    any_words(random, report);
}

/// Whether each way to end, and each part of a content, came so often at least.
pub fn met(report: &mut Report, least: u64) {
    [1, 3, 7, 11].iter().for_each(|refusal| report.met_often(&format!("join: refused {refusal}"), least));
    ACCEPTED.iter().for_each(|name| report.met_often(&format!("join: {name}"), least));
    PARTS.iter().for_each(|(name, _)| report.met_often(&format!("join: two contents: {name}"), least / 10));
}
