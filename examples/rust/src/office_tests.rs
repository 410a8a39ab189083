//! What an office does, seen through the wrapper.

use crate::bounds::{CARRIED, JOINT, MAX_OFFICES, MAX_VALUE, MIN_OFFICES};
use crate::{Entry, Frame, Id, NotLoaded, Office, Refusal, Ring, Session, Settings};

const RING: Ring = Ring { offices: 3, plots: 64 };

fn opened(own: u32) -> (Office, Session) {
    (Office::open(RING, own).unwrap(), Session::fresh(RING).unwrap())
}

fn entry(office: u32, serial: u32, plot: u32, value: u32) -> Entry {
    Entry { id: Id { office, serial }, plot, value }
}

#[test]
fn a_store_tells_its_settings() {
    for offices in MIN_OFFICES..=MAX_OFFICES {
        let ring = Ring { offices, plots: 7 * offices };
        let office = Office::open(ring, offices - 1).unwrap();
        assert_eq!(office.settings(), Settings { ring, own: offices - 1 });
        assert_eq!(Settings::of_store(office.words()), Ok(office.settings()));
        assert_eq!(Office::open(ring, offices).err(), Some(Refusal::BadSettings));
    }
}

#[test]
fn a_loaded_office_goes_on_where_it_was() {
    let (mut office, mut session) = opened(1);
    office.write(&mut session, 5, 709).unwrap();
    let mut again = Office::load(RING, 1, office.words().to_vec()).unwrap();
    assert_eq!(again.words(), office.words());
    let frames = again.write(&mut session, 6, 1).unwrap();
    assert_eq!(frames[0].entry(), entry(1, 2, 6, 1));
}

#[test]
fn words_of_another_office_or_ring_are_not_loaded() {
    let kept = opened(1).0;
    let load = |offices, plots, own| {
        Office::load(Ring { offices, plots }, own, kept.words().to_vec()).err()
    };
    let wanted = Settings { ring: RING, own: 0 };
    assert_eq!(load(3, 64, 0), Some(NotLoaded::Foreign { kept: kept.settings(), wanted }));
    assert!(matches!(load(2, 64, 1), Some(NotLoaded::Foreign { .. })));
    assert!(matches!(load(3, 63, 1), Some(NotLoaded::Foreign { .. })));
    assert_eq!(load(3, 64, 1), None);
    let said = "the store is that of office 1 of a ring of 3 with 64 plots, \
                not that of office 0 of a ring of 3 with 64 plots";
    assert_eq!(load(3, 64, 0).unwrap().to_string(), said);
}

#[test]
fn words_that_are_no_store_are_not_loaded() {
    let kept = opened(0).0.words().to_vec();
    let mut damaged = kept.clone();
    damaged[3] = 2; // id 0.2 is held, and 0.1 is not
    for words in [vec![], kept[..kept.len() - 1].to_vec(), damaged] {
        let loaded = Office::load(RING, 0, words);
        assert_eq!(loaded.err(), Some(NotLoaded::Refused(Refusal::BadStore)));
    }
}

#[test]
fn carried_entries_go_out_before_the_new_one() {
    let (mut office, mut session) = opened(0);
    for plot in 0..15 {
        office.write(&mut session, plot, 7).unwrap();
    }
    let frames = opened(1).0.write(&mut session, 20, 8).unwrap();
    let told: Vec<Entry> = frames.iter().map(Frame::entry).collect();
    let carried = (0..15).map(|plot| entry(0, plot + 1, plot, 7));
    assert_eq!(told, carried.chain([entry(1, 1, 20, 8)]).collect::<Vec<_>>());
    assert_eq!(session.carried(), CARRIED);
}

#[test]
fn a_frame_goes_on_until_the_last_office_has_heard_it() {
    for offices in MIN_OFFICES..=MAX_OFFICES {
        let ring = Ring { offices, plots: 64 };
        let mut session = Session::fresh(ring).unwrap();
        let mut way = Office::open(ring, 0).unwrap().write(&mut session, 5, 709).unwrap().pop();
        for own in 1..offices {
            let frame = way.unwrap();
            assert_eq!(frame.hops(), offices - 1 - own);
            way = Office::open(ring, own).unwrap().hear(&frame).unwrap();
        }
        assert_eq!(way, None);
    }
}

#[test]
fn an_entry_is_shown_at_the_last_office_only() {
    let ([mut middle, mut last], mut session) = ([opened(1).0, opened(2).0], opened(0).1);
    let frame = opened(0).0.write(&mut session, 5, 709).unwrap().remove(0);
    let onward = middle.hear(&frame).unwrap().unwrap();
    assert_eq!(last.hear(&onward), Ok(None));
    assert_eq!(middle.read(&mut opened(1).1, 5), Ok(None));
    assert_eq!(last.read(&mut opened(2).1, 5), Ok(Some(entry(0, 1, 5, 709))));
}

#[test]
fn plots_are_read_jointly_in_the_order_asked() {
    let ((mut first, mut writer), mut middle) = (opened(0), opened(1).0);
    let (mut last, mut reader) = opened(2);
    assert_eq!(last.read_joint(&mut reader, &[5, 6]), Ok(vec![None, None]));
    for (plot, value) in [(5, 709), (6, 1)] {
        let frame = first.write(&mut writer, plot, value).unwrap().remove(0);
        let onward = middle.hear(&frame).unwrap().unwrap();
        assert_eq!(last.hear(&onward), Ok(None));
    }
    let (five, six) = (Some(entry(0, 1, 5, 709)), Some(entry(0, 2, 6, 1)));
    assert_eq!(last.read_joint(&mut reader, &[6, 7, 5, 6]), Ok(vec![six, None, five, six]));
    assert_eq!(last.read_joint(&mut reader, &[]), Ok(vec![]));
}

#[test]
fn own_entries_are_read_jointly_beside_those_of_others() {
    let ((mut first, mut writer), (mut office, mut session)) = (opened(0), opened(1));
    office.write(&mut session, 5, 1).unwrap();
    office.write(&mut session, 6, 2).unwrap();
    let (five, six) = (Some(entry(1, 1, 5, 1)), Some(entry(1, 2, 6, 2)));
    assert_eq!(office.read_joint(&mut session, &[5, 6, 7, 5]), Ok(vec![five, six, None, five]));
    assert_eq!(office.read_joint(&mut opened(1).1, &[5, 6]), Ok(vec![None, None]));

    // What office 0 wrote on plot 5 stands above hers, and is shown at office 2.
    let (mut last, frame) = (opened(2).0, first.write(&mut writer, 5, 709).unwrap().remove(0));
    last.hear(&office.hear(&frame).unwrap().unwrap()).unwrap();
    let shown = Some(entry(0, 1, 5, 709));
    assert_eq!(last.read_joint(&mut session, &[5, 6]), Ok(vec![shown, six]));
    office.write(&mut session, 5, 710).unwrap();
    let corrected = Some(entry(1, 3, 5, 710));
    assert_eq!(last.read_joint(&mut session, &[5, 6]), Ok(vec![corrected, six]));
}

#[test]
fn a_joint_reading_of_one_plot_is_the_reading_of_it() {
    let (mut office, mut session) = opened(1);
    office.write(&mut session, 5, 709).unwrap();
    for plot in [5, 6] {
        let found = office.read(&mut session, plot).unwrap();
        assert_eq!(office.read_joint(&mut session, &[plot]), Ok(vec![found]));
    }
}

/// A frame of office 0 that depends on one which has not been heard.
fn early_frame() -> Frame {
    let (mut office, mut session) = opened(0);
    office.write(&mut session, 5, 709).unwrap();
    office.write(&mut session, 6, 1).unwrap().remove(0)
}

#[test]
fn a_refusal_changes_nothing() {
    let (mut office, mut session) = opened(1);
    office.write(&mut session, 5, 709).unwrap();
    let before = (office.words().to_vec(), session.token());
    assert_eq!(office.write(&mut session, 5, MAX_VALUE + 1), Err(Refusal::BadValue));
    assert_eq!(office.write(&mut session, 64, 1), Err(Refusal::BadPlot));
    assert_eq!(office.read(&mut session, 64), Err(Refusal::BadPlot));
    assert_eq!(office.read_joint(&mut session, &[1; JOINT + 1]), Err(Refusal::BadPlot));
    assert_eq!(office.hear(&early_frame()), Err(Refusal::Missing));
    assert_eq!((office.words().to_vec(), session.token()), before);
}

#[test]
fn a_session_of_another_ring_is_refused() {
    let mut stranger = Session::fresh(Ring { offices: 2, plots: 64 }).unwrap();
    assert_eq!(opened(0).0.read(&mut stranger, 5), Err(Refusal::BadContent));
}

#[test]
fn a_session_that_is_full_is_refused() {
    let (mut office, mut session) = opened(0);
    for _ in 0..CARRIED {
        office.write(&mut session, 5, MAX_VALUE).unwrap();
    }
    assert_eq!(office.write(&mut session, 5, 1), Err(Refusal::SessionFull));
    assert!(office.write(&mut Session::fresh(RING).unwrap(), 5, 1).is_ok());
}
