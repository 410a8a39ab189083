//! The bounds, numbers and texts of the wrapper are those of the header.

use crate::{Refusal, VERSION, archive_version, bounds, check_version, refusal_text};
use std::fs;

fn header() -> String {
    let path = concat!(env!("CARGO_MANIFEST_DIR"), "/../../include/burial_register.h");
    fs::read_to_string(path).expect("the header is beside the examples")
}

/// The number that the header defines under this name.
fn defined(header: &str, name: &str) -> u32 {
    let mut lines = header.lines().map(|line| line.split_whitespace());
    let mut line = lines.find(|line| line.clone().take(2).eq(["#define", name])).expect(name);
    let number = line.nth(2).expect(name).trim_end_matches('u');
    match number.strip_prefix("0x") {
        Some(digits) => u32::from_str_radix(digits, 16).expect(name),
        None => number.parse().expect(name),
    }
}

#[test]
fn bounds_are_those_of_the_header() {
    let header = header();
    let numbers = [
        ("BURIAL_MIN_OFFICES", bounds::MIN_OFFICES as usize),
        ("BURIAL_MAX_OFFICES", bounds::MAX_OFFICES as usize),
        ("BURIAL_MAX_PLOTS", bounds::MAX_PLOTS as usize),
        ("BURIAL_MAX_VALUE", bounds::MAX_VALUE as usize),
        ("BURIAL_MAX_SERIAL", bounds::MAX_SERIAL as usize),
        ("BURIAL_CARRIED", bounds::CARRIED),
        ("BURIAL_JOINT", bounds::JOINT),
        ("BURIAL_FRAME_WORDS", bounds::FRAME_WORDS),
        ("BURIAL_TOKEN_WORDS", bounds::TOKEN_WORDS),
        ("BURIAL_STORE_WORDS", bounds::STORE_WORDS),
        ("BURIAL_WRITE_WORDS", bounds::WRITE_WORDS),
        ("BURIAL_ANSWER_WORDS", bounds::ANSWER_WORDS),
    ];
    for (name, number) in numbers {
        assert_eq!(defined(&header, name) as usize, number, "{name}");
    }
}

#[test]
fn the_version_is_that_of_the_header_and_of_the_archive() {
    assert_eq!(defined(&header(), "BURIAL_VERSION"), VERSION.0);
    assert_eq!(archive_version(), VERSION);
    assert_eq!(check_version(), Ok(()));
    assert_eq!(VERSION.to_string(), "1.2.0");
}

#[test]
fn refusals_have_the_numbers_of_the_header() {
    let header = header();
    let numbers = [
        ("BURIAL_BAD_SETTINGS", Refusal::BadSettings),
        ("BURIAL_BAD_STORE", Refusal::BadStore),
        ("BURIAL_BAD_CONTENT", Refusal::BadContent),
        ("BURIAL_BAD_PLOT", Refusal::BadPlot),
        ("BURIAL_BAD_VALUE", Refusal::BadValue),
        ("BURIAL_OFFICE_FULL", Refusal::OfficeFull),
        ("BURIAL_SESSION_FULL", Refusal::SessionFull),
        ("BURIAL_NO_ROOM", Refusal::NoRoom),
        ("BURIAL_NOT_A_FRAME", Refusal::NotAFrame),
        ("BURIAL_UNMADE", Refusal::Unmade),
        ("BURIAL_DIFFERENT", Refusal::Different),
        ("BURIAL_MISSING", Refusal::Missing),
    ];
    for (name, refusal) in numbers {
        assert_eq!(defined(&header, name), refusal.number(), "{name}");
        assert_eq!(Refusal::check(refusal.number()), Err(refusal));
    }
}

/// Without the marks and spaces that may part a text over two lines.
fn letters(text: &str) -> String {
    text.chars().filter(|c| *c != '"' && !c.is_whitespace()).collect()
}

#[test]
fn refusals_have_the_texts_of_the_header() {
    let header = letters(&header());
    for number in 0..=13 {
        assert!(header.contains(&letters(refusal_text(number))), "{}", refusal_text(number));
    }
    assert_eq!(Refusal::BadValue.to_string(), "refused 5: the value is too great");
    assert_eq!(Refusal::check(13), Err(Refusal::Unknown(13)));
    assert_eq!(Refusal::Unknown(13).to_string(), "refused 13: no refusal of this library");
}
