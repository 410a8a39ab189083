//! Self checks of the model's joins, in rings of three offices. Most sessions carry entries that are made by
//! hand.

use super::checks::Check;
use super::entry::{Entry, IdSet};
use super::join::join_sessions;
use super::joint_checks::{carrying, entry};
use super::office::write;
use super::office_checks::{fresh, opened};
use super::session::Session;

fn joined(first: &Session, second: &Session) -> Result<Session, u32> {
    join_sessions(3, 64, first, second)
}

/// Entries of office 1 with these serials; none depends on another.
fn entries(serials: std::ops::RangeInclusive<u32>) -> Vec<Entry> {
    serials.map(|serial| entry(1, [0, serial, 0], serial)).collect()
}

/// A copy that goes on with writes at one office.
fn goes_on(session: &Session, office: u32, plots: &[u32]) -> Session {
    let (mut copy, mut store) = (*session, opened(3, office));
    for &plot in plots {
        write(&mut store, &mut copy, plot, 7, &mut [0; 99]).unwrap();
    }
    copy
}

/// The family's session, and those of two people who go on with it at offices 1 and 2.
fn two_people() -> [Session; 3] {
    let family = goes_on(&fresh(3), 0, &[5]);
    [family, goes_on(&family, 1, &[6]), goes_on(&family, 2, &[7, 8])]
}

fn both_are_carried() -> bool {
    let [family, first, second] = two_people();
    let own = [family.own[0], first.own[1], second.own[1], second.own[2]];
    let clock = [1, 1, 2, 0, 0, 0, 0, 0];
    joined(&first, &second) == Ok(Session { clock, ..carrying(&own) })
}

/// What a session says, whatever the order in which it carries.
fn content(session: &Session) -> (u32, [IdSet; 2], Vec<Entry>) {
    let mut own = session.own_entries().to_vec();
    own.sort_by_key(Entry::id);
    (session.offices, [session.clock, session.read], own)
}

fn swapped_alike(first: &Session, second: &Session) -> bool {
    let ways = [joined(first, second), joined(second, first)];
    let [one, other] = ways.map(|result| result.map(|session| content(&session)));
    one == other
}

fn swap_changes_the_order_only() -> bool {
    let [family, first, second] = two_people();
    let (mut other, mut unsound) = (first, first);
    other.own[1].value = 8;
    unsound.own[0].plot = 64;
    let full = carrying(&entries(1..=15));
    let sessions = [family, first, second, other, unsound, full, fresh(3)];
    let order = joined(&first, &second) != joined(&second, &first);
    order && sessions.iter().all(|one| sessions.iter().all(|two| swapped_alike(one, two)))
}

fn with_itself() -> bool {
    two_people().iter().all(|session| joined(session, session) == Ok(*session))
}

/// Of a session and a copy that has gone on, the copy.
fn with_its_copy() -> bool {
    let [family, first, second] = two_people();
    let is = |one: &Session, other: &Session, longer: &Session| joined(one, other) == Ok(*longer);
    let later = [first, second].iter().all(|copy| is(&family, copy, copy) && is(copy, &family, copy));
    later && is(&fresh(3), &first, &first) && is(&first, &fresh(3), &first)
}

/// What one wrote and the other read stays both: read and carried.
fn read_and_own() -> bool {
    let [_, writer, reader] = two_people();
    let read = [0, 1, 0, 0, 0, 0, 0, 0];
    let reader = Session { read, ..reader };
    [(writer, reader), (reader, writer)].iter().all(|(first, second)| {
        let session = joined(first, second).unwrap();
        session.read == read && session.count == 4 && session.own_entries().contains(&writer.own[1])
    })
}

/// Read ids of either, and the greater number at each place.
fn read_and_clock() -> bool {
    let with = |read, clock| Session { read, clock, ..fresh(3) };
    let first = with([1, 2, 0, 0, 0, 0, 0, 0], [3, 32, 0, 0, 0, 0, 0, 0]);
    let second = with([1, 4, 8, 0, 0, 0, 0, 0], [9, 0, 1, 0, 0, 0, 0, 0]);
    joined(&first, &second) == Ok(with([1, 6, 8, 0, 0, 0, 0, 0], [9, 32, 1, 0, 0, 0, 0, 0]))
}

/// For the ring's size and all plots that cover both.
fn is_sound() -> bool {
    let [_, first, second] = two_people();
    joined(&first, &second).is_ok_and(|session| session.is_sound(3, 9) && !session.is_sound(3, 8))
}

/// What stands behind the carried entries does not count, and is zeros in what is joined.
fn places_behind() -> bool {
    let [_, first, second] = two_people();
    let filled = |session: &Session| {
        let mut session = *session;
        session.own[session.count..].fill(Entry { office: 9, value: 7, ..first.own[0] });
        session
    };
    let session = joined(&filled(&first), &filled(&second));
    session == joined(&first, &second) && session.unwrap().own[4..] == [Entry::default(); 12]
}

/// 7 exactly where over 16 would be carried.
fn sixteen_carried() -> bool {
    let count = |first, second| {
        let (first, second) = (carrying(&entries(first)), carrying(&entries(second)));
        joined(&first, &second).map(|session| session.count)
    };
    count(1..=8, 9..=16) == Ok(16)
        && count(1..=8, 9..=17) == Err(7)
        && count(1..=16, 1..=16) == Ok(16)
        && count(1..=16, 16..=16) == Ok(16)
        && count(1..=16, 17..=17) == Err(7)
        && count(17..=17, 1..=16) == Err(7)
        && count(1..=16, 17..=32) == Err(7)
}

/// Each part of the content by itself; where over 16 would be carried too, 11 comes before 7.
fn one_name_two_contents() -> bool {
    let other = |change: fn(&mut Entry)| {
        let mut own = entries(16..=31);
        change(&mut own[0]);
        let (first, second) = (carrying(&entries(1..=16)), carrying(&own));
        let second = Session { read: [1, 0, 0, 0, 0, 0, 0, 0], ..second };
        [joined(&first, &second), joined(&second, &first)]
    };
    let changes: [fn(&mut Entry); 5] = [
        |entry| entry.plot += 1,
        |entry| entry.value += 1,
        |entry| entry.clock[0] += 1,
        |entry| entry.clock[2] += 1,
        |entry| entry.deps[0] = 1,
    ];
    changes.iter().all(|&change| other(change) == [Err(11); 2]) && other(|_| {}) == [Err(7); 2]
}

struct Call {
    offices: u32,
    plots: u32,
    first: Session,
    second: Session,
}

/// A call with every reason to be refused; each repair takes away the reason that comes first.
fn order_of_join_refusals() -> bool {
    let mut own = entries(16..=17);
    own[0].value = 8;
    let (mut first, mut second) = (carrying(&entries(1..=16)), carrying(&own));
    first.clock[3] = 1;
    second.offices = 4;
    let mut call = Call { offices: 9, plots: 65, first, second };
    let repairs: [(u32, fn(&mut Call)); 6] = [
        (1, |call| call.offices = 3),
        (1, |call| call.plots = 18),
        (3, |call| call.first.clock[3] = 0),
        (3, |call| call.second.offices = 3),
        (11, |call| call.second.own[0].value = 7),
        (7, |call| call.second.count = 1),
    ];
    let made = |call: &Call| join_sessions(call.offices, call.plots, &call.first, &call.second);
    let in_order = repairs.iter().all(|(refusal, repair)| {
        let refused = made(&call) == Err(*refusal);
        repair(&mut call);
        refused
    });
    in_order && made(&call).is_ok()
}

pub fn join_checks() -> Vec<Check> {
    vec![
        ("model: a join of two copies that have gone on", both_are_carried()),
        ("model: a swap changes the order of what is carried only", swap_changes_the_order_only()),
        ("model: a join with itself", with_itself()),
        ("model: a join with a copy that has gone on", with_its_copy()),
        ("model: an id read in one and own in the other", read_and_own()),
        ("model: a join unites what was read and joins the clocks", read_and_clock()),
        ("model: a join is sound", is_sound()),
        ("model: a join and the places behind what is carried", places_behind()),
        ("model: a join carries 16, over that it is refused 7", sixteen_carried()),
        ("model: a join of one name with two contents is refused 11", one_name_two_contents()),
        ("model: order of refusals of joins", order_of_join_refusals()),
    ]
}
