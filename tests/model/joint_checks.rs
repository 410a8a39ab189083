//! Self checks of the model's joint readings. In most of them the office shows A, value 709 of plot 5 by
//! office 0, and the session carries entries that are made by hand.

use super::checks::{content_a, Check};
use super::codec::Frame;
use super::entry::{Clock, Entry, IdSet};
use super::office::{read_joint, read_plot, receive, write};
use super::office_checks::{fresh, opened, words_of};
use super::session::Session;
use super::store::Store;

type Answer = [u32; 3];

const NONE: Answer = [0; 3];
const A: Answer = [1, 709, 1];
/// The answer for an own entry: office 2, serial 1, value 7.
const OWN: Answer = [1, 7, 0x201];
const ONLY_A: IdSet = [1, 0, 0, 0, 0, 0, 0, 0];
const CLOCK_OF_A: Clock = [1, 0, 0, 0, 0, 0, 0, 0];

fn heard_a(hops: u32) -> Vec<u32> {
    let mut store = opened(3, 1);
    receive(&mut store, &words_of(&Frame { hops, ..content_a() }), &mut [0; 7]).unwrap();
    store
}

fn showing_a() -> Vec<u32> {
    heard_a(0)
}

fn hiding_a() -> Vec<u32> {
    heard_a(1)
}

/// An entry of value 7, which has the serial that its clock says.
pub fn entry(office: u32, clock: [u32; 3], plot: u32) -> Entry {
    let serial = clock[office as usize];
    let clock = [clock[0], clock[1], clock[2], 0, 0, 0, 0, 0];
    Entry { office, serial, plot, value: 7, clock, deps: [0; 8] }
}

fn above_a() -> Entry {
    entry(2, [1, 0, 1], 5)
}

fn below_a() -> Entry {
    entry(2, [0, 9, 1], 5)
}

/// The name and clock of A, and other content.
fn tied_with_a() -> Entry {
    entry(0, [1, 0, 0], 5)
}

pub fn carrying(own: &[Entry]) -> Session {
    let mut session = fresh(3);
    session.own[..own.len()].copy_from_slice(own);
    session.count = own.len();
    session
}

/// What a joint reading that is not refused answers for each plot.
fn answers(store: &mut [u32], session: &mut Session, plots: &[u32]) -> Vec<Answer> {
    let mut row = vec![7; 3 * plots.len() + 1];
    read_joint(store, session, plots, &mut row).unwrap();
    assert_eq!(row.pop(), Some(7));
    row.chunks_exact(3).map(|words| words.try_into().unwrap()).collect()
}

fn answer_at_a(own: &[Entry], plot: u32) -> Answer {
    answers(&mut showing_a(), &mut carrying(own), &[plot])[0]
}

fn own_above_is_handed_back() -> bool {
    answer_at_a(&[above_a()], 5) == OWN
}

fn own_below_gives_way() -> bool {
    answer_at_a(&[below_a()], 5) == A
}

fn own_alone_is_handed_back() -> bool {
    answer_at_a(&[entry(2, [0, 0, 1], 6)], 6) == OWN
}

fn tie_gives_way() -> bool {
    answer_at_a(&[tied_with_a()], 5) == A
}

/// The highest of several, wherever it stands; those on other plots are none of them.
fn highest_own_is_handed_back() -> bool {
    let (highest, lower, elsewhere) =
        (entry(1, [1, 3, 0], 5), entry(2, [0, 0, 2], 5), entry(0, [9, 0, 0], 6));
    let (own, turned) = ([elsewhere, above_a(), lower, highest], [highest, lower, above_a(), elsewhere]);
    answer_at_a(&own, 5) == [1, 7, 0x103] && answer_at_a(&turned, 5) == [1, 7, 0x103]
}

/// Two plots, one of them mine: what she wrote at this office, and what others wrote.
fn own_write_beside_the_presented() -> bool {
    let (mut store, mut session) = (showing_a(), fresh(3));
    write(&mut store, &mut session, 6, 7, &mut [0; 7]).unwrap();
    let told = answers(&mut store, &mut session, &[5, 6, 7]) == [A, [1, 7, 0x101], NONE];
    told && answers(&mut store, &mut fresh(3), &[5, 6, 7]) == [A, NONE, NONE]
}

fn repeats_are_answered_alike() -> bool {
    let mut session = carrying(&[above_a(), entry(2, [0, 0, 2], 6)]);
    let told = answers(&mut showing_a(), &mut session, &[5, 6, 5, 9, 6, 5]);
    let six = [1, 7, 0x202];
    told == [OWN, six, OWN, NONE, six, OWN] && session.read == ONLY_A
}

/// Each in its place: own entries on the even plots, and A on plot 5.
fn sixteen_plots() -> bool {
    let own: Vec<Entry> = (1..=8).map(|serial| entry(2, [0, 0, serial], 2 * serial - 2)).collect();
    let plots: Vec<u32> = (0..16).collect();
    let expected = plots.iter().map(|&plot| match plot {
        5 => A,
        _ if plot % 2 == 0 => [1, 7, 0x201 + plot / 2],
        _ => NONE,
    });
    answers(&mut showing_a(), &mut carrying(&own), &plots) == expected.collect::<Vec<Answer>>()
}

/// It shows what was read, and neither answers nor reads.
fn empty_list() -> bool {
    let (mut store, mut session) = (hiding_a(), carrying(&[above_a()]));
    session.read = ONLY_A;
    let before = session;
    let told = answers(&mut store, &mut session, &[]).is_empty() && session == before;
    told && Store::sound(&mut store).unwrap().visible() == ONLY_A
}

/// Whatever is handed back: the presented entries are read, one for each plot, and their clocks joined.
fn only_the_presented_are_read() -> bool {
    let owns = [above_a(), below_a(), tied_with_a(), entry(1, [9, 9, 9], 5)];
    owns.iter().all(|&own| {
        let mut session = carrying(&[own, entry(2, [8, 8, 8], 6)]);
        let expected = Session { read: ONLY_A, clock: CLOCK_OF_A, ..session };
        answers(&mut showing_a(), &mut session, &[6, 5, 7]);
        session == expected
    })
}

/// What the session has read is shown before the presented entry is looked for.
fn presented_once_the_read_is_shown() -> bool {
    let (mut store, mut session) = (hiding_a(), carrying(&[below_a()]));
    let hidden = answers(&mut store, &mut session, &[5]) == [OWN] && session.read == [0; 8];
    session.read = ONLY_A;
    hidden && answers(&mut store, &mut session, &[5]) == [A] && session.clock == CLOCK_OF_A
}

/// Replies, shows and leaves the session as the reading of that plot does.
fn same_as_alone(store: &[u32], session: &Session, plot: u32) -> bool {
    let mut single = (store.to_vec(), *session);
    let mut joint = single.clone();
    let entry = read_plot(&mut single.0, &mut single.1, plot).unwrap();
    let words = entry.map_or(NONE, |entry| [1, entry.value, entry.payload()]);
    answers(&mut joint.0, &mut joint.1, &[plot]) == [words] && joint == single
}

fn one_plot_is_the_reading_of_it() -> bool {
    let owns: [&[Entry]; 5] =
        [&[], &[above_a()], &[below_a()], &[tied_with_a()], &[below_a(), tied_with_a()]];
    let sessions = owns.map(|own| [IdSet::default(), ONLY_A].map(|read| Session { read, ..carrying(own) }));
    sessions.as_flattened().iter().all(|session| {
        let same = |store: &[u32]| [5, 6].iter().all(|&plot| same_as_alone(store, session, plot));
        same(&hiding_a()) && same(&showing_a())
    })
}

/// What the session has read is shown at once, also to others; repeats are answered again.
fn shows_what_was_read() -> bool {
    let (mut store, mut session) = (hiding_a(), fresh(3));
    let before = (store.clone(), session);
    let none = answers(&mut store, &mut session, &[5, 5]) == [NONE, NONE];
    let nothing_read = (store.clone(), session) == before;
    session.read = ONLY_A;
    let some = answers(&mut store, &mut session, &[5, 6, 5]) == [A, NONE, A] && session.clock == CLOCK_OF_A;
    none && nothing_read && some && answers(&mut store, &mut fresh(3), &[5]) == [A]
}

struct Call {
    store: Vec<u32>,
    session: Session,
    plots: Vec<u32>,
    room: usize,
}

impl Call {
    /// Makes the call; a refusal must change nothing.
    fn read(&mut self) -> Result<(), u32> {
        let before = (self.store.clone(), self.session);
        let mut row = vec![7; self.room];
        let result = read_joint(&mut self.store, &mut self.session, &self.plots, &mut row);
        let unchanged = (&self.store, self.session) == (&before.0, before.1) && row.iter().all(|&w| w == 7);
        assert!(result.is_ok() || unchanged);
        result
    }
}

/// A call with every reason to be refused; each repair takes away the reason that comes first. Own entries,
/// above the presented one or where there is none, are no reason.
fn order_of_joint_refusals() -> bool {
    let mut store = showing_a();
    store[12] = 1; // shows an entry that is not held
    let mut session = carrying(&[above_a(), entry(2, [0, 0, 2], 6)]);
    session.offices = 2;
    session.read[2] = 1;
    let mut call = Call { store, session, plots: vec![64; 17], room: 0 };
    let repairs: [(u32, fn(&mut Call)); 7] = [
        (2, |call| call.store[12] = 0),
        (3, |call| call.session.offices = 3),
        (4, |call| call.plots = vec![5; 17]),
        (4, |call| call.plots = vec![64; 16]),
        (4, |call| call.plots = [5, 6].repeat(8)),
        (8, |call| call.room = 48),
        (12, |call| call.session.read[2] = 0),
    ];
    let in_order = repairs.iter().all(|(refusal, repair)| {
        let refused = call.read() == Err(*refusal);
        repair(&mut call);
        refused
    });
    in_order && call.read() == Ok(())
}

pub fn joint_checks() -> Vec<Check> {
    vec![
        ("model: a joint reading shows what was read", shows_what_was_read()),
        ("model: jointly, an own entry above is handed back", own_above_is_handed_back()),
        ("model: jointly, an own entry below gives way", own_below_gives_way()),
        ("model: jointly, an own entry alone is handed back", own_alone_is_handed_back()),
        ("model: jointly, an own entry that ties gives way", tie_gives_way()),
        ("model: jointly, the highest own entry is handed back", highest_own_is_handed_back()),
        ("model: jointly, an own write beside the presented", own_write_beside_the_presented()),
        ("model: jointly, repeats are answered alike", repeats_are_answered_alike()),
        ("model: jointly, 16 plots", sixteen_plots()),
        ("model: jointly, an empty list", empty_list()),
        ("model: jointly, only the presented are read", only_the_presented_are_read()),
        ("model: jointly, presented once the read is shown", presented_once_the_read_is_shown()),
        ("model: a joint reading of one plot is the reading of it", one_plot_is_the_reading_of_it()),
        ("model: order of refusals of joint readings", order_of_joint_refusals()),
    ]
}
