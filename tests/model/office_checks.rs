//! Self checks of the model's office calls.

use super::checks::{Check, FRAME_A, FRAME_B};
use super::codec::{write_frame, Frame};
use super::entry::Entry;
use super::office::{open_office, read_plot, receive, store_need, store_settings, write};
use super::session::{fresh_session, Session};

pub fn opened(offices: u32, own: u32) -> Vec<u32> {
    let mut store = vec![0xEEEE_EEEE; store_need(offices, own, 64).unwrap()];
    open_office(offices, own, 64, &mut store).unwrap();
    store
}

pub fn fresh(offices: u32) -> Session {
    fresh_session(offices).unwrap()
}

pub fn words_of(frame: &Frame) -> Vec<u32> {
    let mut row = vec![0; frame.words()];
    write_frame(frame, &mut row).unwrap();
    row
}

fn value_at(store: &mut [u32], plot: u32) -> Option<u32> {
    read_plot(store, &mut fresh(3), plot).unwrap().map(|entry| entry.value)
}

fn settings() -> bool {
    let mut store = opened(3, 0);
    store_need(9, 0, 64) == Err(1)
        && store_need(3, 3, 64) == Err(1)
        && store_need(3, 0, 65) == Err(1)
        && store_need(8, 7, 1) == Ok(4627)
        && open_office(9, 0, 64, &mut store) == Err(1)
        && open_office(4, 0, 64, &mut store) == Err(2)
        && fresh_session(9) == Err(1)
        && fresh_session(1) == Err(1)
}

/// A store keeps the settings with which it was opened; one that is not sound has none.
fn settings_of_a_store() -> bool {
    let (mut store, mut session) = (opened(3, 2), fresh(3));
    let at_first = store_settings(&store) == Ok([3, 2, 64]);
    write(&mut store, &mut session, 5, 709, &mut [0; 7]).unwrap();
    let after = store_settings(&store) == Ok([3, 2, 64]);
    let short = store_settings(&store[..store.len() - 1]) == Err(2) && store_settings(&[]) == Err(2);
    // A visible entry that is not held.
    store[11] = 1;
    at_first && after && short && store_settings(&store) == Err(2)
}

fn sends_a_then_b() -> bool {
    let (mut first, mut second) = (opened(3, 0), opened(3, 1));
    let mut session = fresh(3);
    let mut row = [7; 20];
    let a = write(&mut first, &mut session, 5, 709, &mut row) == Ok(7) && row[..7] == FRAME_A;
    row = [7; 20];
    let b = write(&mut second, &mut session, 6, 1, &mut row) == Ok(15);
    a && b && row[..7] == FRAME_A && row[7..15] == FRAME_B && row[15..] == [7; 5] && session.count == 2
}

fn shows_at_the_last_office_only() -> bool {
    let (mut middle, mut last) = (opened(3, 1), opened(3, 2));
    let mut row = [7; 7];
    let went_on = receive(&mut middle, &FRAME_A, &mut row) == Ok(7);
    let hidden = value_at(&mut middle, 5).is_none();
    let ended = receive(&mut last, &row, &mut []) == Ok(0);
    // A frame that is not new here goes on all the same.
    let again = receive(&mut middle, &FRAME_A, &mut row) == Ok(7);
    went_on && hidden && ended && value_at(&mut last, 5) == Some(709) && again
}

fn office_makes_32() -> bool {
    let mut store = opened(2, 1);
    let mut row = [0; 600];
    let all = (1..=32).all(|_| write(&mut store, &mut fresh(2), 0, 1, &mut row).is_ok());
    let before = store.clone();
    all && write(&mut store, &mut fresh(2), 0, 1, &mut row) == Err(6) && store == before
}

fn session_carries_16() -> bool {
    let mut store = opened(2, 0);
    let mut session = fresh(2);
    let mut row = [0; 600];
    let all = (1..=16).all(|_| write(&mut store, &mut session, 0, 1, &mut row).is_ok());
    all && session.count == 16 && write(&mut store, &mut session, 0, 1, &mut row) == Err(7)
}

fn value_bound() -> bool {
    let (mut store, mut session, mut row) = (opened(2, 0), fresh(2), [0; 20]);
    write(&mut store, &mut session, 0, 1 << 28, &mut row) == Err(5)
        && write(&mut store, &mut session, 0, (1 << 28) - 1, &mut row).is_ok()
}

fn one_word_short() -> bool {
    let (mut first, mut second, mut session) = (opened(3, 0), opened(3, 1), fresh(3));
    write(&mut first, &mut session, 5, 709, &mut [0; 7]).unwrap();
    let before = (second.clone(), session);
    let mut row = [7; 14];
    let short = write(&mut second, &mut session, 6, 1, &mut row) == Err(8);
    short && row == [7; 14] && (second, session) == before
}

/// The example of three clocks: whatever the order, the entry of [2, 1] is kept whole.
fn three_clocks() -> bool {
    let entry = |office, serial, clock: [u32; 2], value| {
        let clock = [clock[0], clock[1], 0, 0, 0, 0, 0, 0];
        words_of(&Frame {
            offices: 3,
            hops: 0,
            entry: Entry { office, serial, plot: 9, value, clock, deps: [0; 8] },
        })
    };
    let frames = [entry(0, 2, [2, 0], 20), entry(1, 3, [0, 3], 3), entry(1, 1, [2, 1], 21)];
    let orders = [[0, 1, 2], [0, 2, 1], [1, 0, 2], [1, 2, 0], [2, 0, 1], [2, 1, 0]];
    orders.iter().all(|order| {
        let mut store = opened(3, 2);
        order.iter().for_each(|&at| assert_eq!(receive(&mut store, &frames[at], &mut []), Ok(0)));
        value_at(&mut store, 9) == Some(21)
    })
}

/// A correction outranks what its writer read, also where the office does not show that yet.
fn correction_outranks() -> bool {
    let (mut last, mut middle, mut session) = (opened(3, 2), opened(3, 1), fresh(3));
    let mut row = [0; 40];
    let read = Frame {
        offices: 3,
        hops: 0,
        entry: Entry {
            office: 0,
            serial: 9,
            plot: 5,
            value: 1,
            clock: [9, 0, 0, 0, 0, 0, 0, 0],
            deps: [0; 8],
        },
    };
    receive(&mut last, &words_of(&read), &mut []).unwrap();
    receive(&mut middle, &words_of(&Frame { hops: 1, ..read }), &mut row).unwrap();
    read_plot(&mut last, &mut session, 5).unwrap();
    write(&mut middle, &mut session, 5, 2, &mut row).unwrap();
    let new = session.own[0];
    new.clock[..3] == [9, 1, 0]
        && new.deps[0] == 1 << 8
        && new.outranks(&read.entry)
        && read_plot(&mut middle, &mut session, 5).unwrap() == Some(new)
}

struct Call {
    store: Vec<u32>,
    session: Session,
    plot: u32,
    value: u32,
    room: usize,
}

impl Call {
    /// Makes the call; a refusal must change nothing.
    fn write(&mut self) -> Result<usize, u32> {
        let before = (self.store.clone(), self.session);
        let mut row = vec![7; self.room];
        let result = write(&mut self.store, &mut self.session, self.plot, self.value, &mut row);
        let unchanged = (&self.store, self.session) == (&before.0, before.1) && row.iter().all(|&w| w == 7);
        assert!(result.is_ok() || unchanged);
        result
    }
}

/// A call with every reason to be refused; each repair takes away the reason that comes first.
fn order_of_write_refusals() -> bool {
    let (mut store, mut session, mut other) = (opened(2, 0), fresh(2), fresh(2));
    let mut row = [0; 40];
    for _ in 0..16 {
        write(&mut store, &mut other, 0, 1, &mut row).unwrap();
    }
    for _ in 0..16 {
        write(&mut store, &mut session, 0, 1, &mut row).unwrap();
    }
    store[4] = 1; // holds an entry of office 1 with any words
    session.offices = 3;
    session.read[1] = 1;
    let mut call = Call { store, session, plot: 64, value: 1 << 28, room: 0 };
    let repairs: [(u32, fn(&mut Call)); 10] = [
        (2, |call| call.store[4] = 0),
        (3, |call| call.session.offices = 2),
        (4, |call| call.plot = 0),
        (5, |call| call.value = 0),
        (7, |call| call.session.count = 1),
        (6, |call| call.store[3] = 1), // the office has made one
        (12, |call| call.session.read[1] = 0),
        (10, |call| {
            call.session.own[0].serial = 1;
            call.session.own[0].clock[0] = 1;
            call.session.own[0].value = 77;
        }),
        (11, |call| call.session.own[0].value = 1),
        (8, |call| call.room = 7),
    ];
    let in_order = repairs.iter().all(|(refusal, repair)| {
        let refused = call.write() == Err(*refusal);
        repair(&mut call);
        refused
    });
    in_order && call.write() == Ok(7)
}

fn refusals_of_hearing() -> bool {
    let mut store = opened(3, 0);
    let mut row = [7; 20];
    let unmade = receive(&mut store, &FRAME_A, &mut row) == Err(10);
    let missing = receive(&mut store, &FRAME_B, &mut row) == Err(12);
    write(&mut store, &mut fresh(3), 5, 709, &mut [0; 7]).unwrap();
    let no_room = receive(&mut store, &FRAME_B, &mut row[..7]) == Err(8);
    let mut other = super::checks::content_a();
    other.entry.value = 710;
    let different = receive(&mut store, &words_of(&other), &mut row) == Err(11);
    let bad = receive(&mut store, &FRAME_A[..6], &mut row) == Err(9);
    let short = store.len() - 1;
    let unsound = receive(&mut store[..short], &FRAME_A[..6], &mut row) == Err(2);
    unmade && missing && no_room && different && bad && unsound && row == [7; 20]
}

/// An own entry that ties with the presented one gives way to it.
fn tie_hands_back_the_presented() -> bool {
    let (mut store, mut session) = (opened(3, 0), fresh(3));
    write(&mut store, &mut session, 5, 1, &mut [0; 7]).unwrap();
    let mut reader = session;
    reader.read[0] = 1;
    reader.own[0].value = 2;
    read_plot(&mut store, &mut reader, 5).unwrap().map(|entry| entry.value) == Some(1)
}

pub fn office_checks() -> Vec<Check> {
    vec![
        ("model: settings", settings()),
        ("model: settings of a store", settings_of_a_store()),
        ("model: a write sends A, the next A and B", sends_a_then_b()),
        ("model: shown at the last office only", shows_at_the_last_office_only()),
        ("model: 32 made, 33rd refused 6", office_makes_32()),
        ("model: 16 carried, 17th refused 7", session_carries_16()),
        ("model: value bound", value_bound()),
        ("model: out row one word short", one_word_short()),
        ("model: three clocks in any order", three_clocks()),
        ("model: a correction outranks what was read", correction_outranks()),
        ("model: order of refusals of writing", order_of_write_refusals()),
        ("model: refusals of hearing", refusals_of_hearing()),
        ("model: a tie hands back the presented entry", tie_hands_back_the_presented()),
    ]
}
