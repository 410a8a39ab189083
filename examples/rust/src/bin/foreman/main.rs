//! The foreman's story. In a ring of three offices he writes at one, goes to the next with a token
//! in his pocket while the line is slow, and writes again. A visitor who reads the second entry is
//! shown the first one too, wherever she goes. The calls are in the order of scripts/foreman.txt;
//! his look at both entries, newcomers who look in, refusals, a night and a family are added.

mod house;

use burial_register::bounds::MAX_VALUE;
use burial_register::{Entry, Office, Refusal, Ring, Session, Token, check_version};
use house::House;
use std::error::Error;
use std::process::ExitCode;

type Told<T> = Result<T, Box<dyn Error>>;

const RING: Ring = Ring { offices: 3, plots: 64 };

fn say(found: Option<Entry>) -> String {
    found.map_or("none".to_string(), |entry| entry.to_string())
}

/// What someone finds on a plot at an office.
fn read(house: &mut House, own: u32, who: (&str, &mut Session), plot: u32) -> Told<String> {
    let (name, session) = who;
    let found = say(house.office(own).read(session, plot)?);
    println!("office {own}: {name} reads plot {plot}: {found}");
    Ok(found)
}

/// What someone finds on both plots at one moment.
fn read_both(house: &mut House, own: u32, who: (&str, &mut Session)) -> Told<Vec<String>> {
    let (name, session) = who;
    let found = house.office(own).read_joint(session, &[5, 6])?;
    let found: Vec<String> = found.into_iter().map(say).collect();
    println!("office {own}: {name} reads plots 5 and 6 jointly: {}", found.join("; "));
    Ok(found)
}

/// The same for someone who comes in new.
fn newcomer(house: &mut House, own: u32) -> Told<Vec<String>> {
    read_both(house, own, ("a newcomer", &mut Session::fresh(RING)?))
}

/// An office hears the oldest frame of its line.
fn hear(house: &mut House, own: u32) -> Told<usize> {
    let (id, waiting) = house.hear(own)?.ok_or("no frame is waiting")?;
    println!("office {own}: hears of {id}; frames still waiting: {waiting}");
    Ok(waiting)
}

/// At office 0 the foreman writes, and leaves before anyone has heard of it.
fn foreman_leaves(house: &mut House) -> Told<Token> {
    let mut foreman = Session::fresh(RING)?;
    let sent = house.write(0, &mut foreman, 5, 709)?;
    println!("office 0: the foreman writes 709 to plot 5: {}", sent[0]);
    let token = foreman.token()?;
    println!("he goes to office 1 with a token of {} words", token.words().len());
    Ok(token)
}

/// At office 1 he finds what he wrote; with his next entry the first is sent from here as well. He
/// sees both, and nobody else does yet.
fn foreman_arrives(house: &mut House, token: &Token) -> Told<()> {
    let mut foreman = Session::from_token(RING, token)?;
    assert_eq!(read(house, 1, ("the foreman", &mut foreman), 5)?, "709 by 0.1");
    let sent = house.write(1, &mut foreman, 6, 1)?;
    println!("office 1: he writes 1 to plot 6: {} and {} are sent", sent[0], sent[1]);
    assert_eq!([sent[0].to_string(), sent[1].to_string()], ["0.1", "1.1"]);
    let found = read_both(house, 1, ("the foreman", &mut foreman))?;
    assert_eq!(found, ["709 by 0.1", "1 by 1.1"]);
    assert_eq!(newcomer(house, 1)?, ["none", "none"]);
    Ok(())
}

/// The two frames come by office 2, which keeps the entries hidden, to office 0, which shows them.
fn the_ring_hears(house: &mut House) -> Told<()> {
    for own in [2, 0] {
        assert_eq!(newcomer(house, own)?, ["none", "none"]);
        assert_eq!([hear(house, own)?, hear(house, own)?], [1, 0]);
    }
    assert_eq!(newcomer(house, 2)?, ["none", "none"]);
    assert_eq!(newcomer(house, 0)?, ["709 by 0.1", "1 by 1.1"]);
    Ok(())
}

/// What the visitor has read at office 0 is shown at office 2 when she reads there.
fn visitor_goes_round(house: &mut House, mut visitor: Session) -> Told<()> {
    assert_eq!(read(house, 0, ("the visitor", &mut visitor), 6)?, "1 by 1.1");
    println!("the visitor goes to office 2");
    let mut visitor = Session::from_token(RING, &visitor.token()?)?;
    assert_eq!(read(house, 2, ("the visitor", &mut visitor), 5)?, "709 by 0.1");
    assert_eq!(newcomer(house, 2)?, ["709 by 0.1", "1 by 1.1"]);
    Ok(())
}

/// A refused call says why, and has changed nothing.
fn refusals(house: &mut House, token: &Token) -> Told<()> {
    let mut damaged = token.words().to_vec();
    damaged[1] ^= 1;
    let refusal = Session::from_token(RING, &Token::from_words(damaged)).err();
    assert_eq!(refusal, Some(Refusal::NotAFrame));
    println!("a token with one word changed: {}", Refusal::NotAFrame);

    let mut foreman = Session::from_token(RING, token)?;
    let before = house.office(0).words().to_vec();
    let refusal = house.write(0, &mut foreman, 5, MAX_VALUE + 1).err();
    assert_eq!(refusal, Some(Refusal::BadValue));
    println!("a value of {}: {}", MAX_VALUE + 1, Refusal::BadValue);
    assert!(house.office(0).words() == before && foreman.token()? == *token);
    println!("office and foreman are as before");
    Ok(())
}

/// An office closes for the night. Its words come back as this office, and as no other.
fn overnight(house: &mut House) -> Told<()> {
    let kept = house.office(0).words().to_vec();
    let error = Office::load(RING, 1, kept.clone()).err().ok_or("loaded as another office")?;
    println!("the words of office 0 given to office 1: {error}");
    *house.office(0) = Office::load(RING, 0, kept)?;
    assert_eq!(newcomer(house, 0)?, ["709 by 0.1", "1 by 1.1"]);
    Ok(())
}

/// What office 0 sent at the beginning arrives at last: nobody learns anything new.
fn the_slow_line(house: &mut House) -> Told<()> {
    assert_eq!([hear(house, 1)?, hear(house, 2)?], [0, 0]);
    assert_eq!([house.hear(0)?, house.hear(1)?, house.hear(2)?], [None; 3]);
    assert_eq!(newcomer(house, 2)?, ["709 by 0.1", "1 by 1.1"]);
    Ok(())
}

/// Someone goes on at an office with what a token says, and comes back with another one.
fn goes_on(house: &mut House, own: u32, who: (&str, &Token), entry: (u32, u32)) -> Told<Token> {
    let ((name, token), (plot, value)) = (who, entry);
    let mut session = Session::from_token(RING, token)?;
    let new = house.write(own, &mut session, plot, value)?.pop().ok_or("nothing is sent")?;
    println!("office {own}: {name} writes {value} to plot {plot}: {new}");
    Ok(session.token()?)
}

/// A family's token is copied, and two people go on with it. In the evening theirs are joined: the
/// family knows what either of them knows.
fn two_people(house: &mut House) -> Told<()> {
    let morning = goes_on(house, 0, ("a family", &Session::fresh(RING)?.token()?), (7, 300))?;
    let sister = goes_on(house, 1, ("the sister", &morning), (8, 4))?;
    let brother = goes_on(house, 2, ("the brother", &morning), (7, 310))?;
    println!("in the evening their tokens are joined");
    let [sister, brother] = [sister, brother].map(|token| Session::from_token(RING, &token));
    let mut family = Session::join(RING, &sister?, &brother?)?;
    assert_eq!(read(house, 0, ("the family", &mut family), 7)?, "310 by 2.1");
    assert_eq!(read(house, 0, ("the family", &mut family), 8)?, "4 by 1.2");
    Ok(())
}

fn story() -> Told<()> {
    check_version()?;
    let mut house = House::open(RING)?;
    let token = foreman_leaves(&mut house)?;
    foreman_arrives(&mut house, &token)?;
    let mut visitor = Session::fresh(RING)?;
    assert_eq!(read(&mut house, 0, ("a visitor", &mut visitor), 6)?, "none");
    the_ring_hears(&mut house)?;
    visitor_goes_round(&mut house, visitor)?;
    refusals(&mut house, &token)?;
    overnight(&mut house)?;
    the_slow_line(&mut house)?;
    two_people(&mut house)
}

fn main() -> ExitCode {
    match story() {
        Ok(()) => ExitCode::SUCCESS,
        Err(error) => {
            eprintln!("{error}");
            ExitCode::FAILURE
        }
    }
}
