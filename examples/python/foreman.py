"""The foreman's story. In a ring of three offices he writes at one, goes to the next with a token
in his pocket while the line is slow, and writes again. A visitor who reads the second entry is
shown the first one too, wherever she goes. The calls are in the order of scripts/foreman.txt;
his look at both entries, newcomers who look in, refusals, a night and a family are added.
"""
from burial import MAX_VALUE
from house import House
from office import Office, Ring
from refused import Refused
from sessions import fresh_session, join_sessions, session_of, token_of

RING = Ring(offices=3, plots=64)
BOTH = ["709 by 0.1", "1 by 1.1"]
NEITHER = ["none", "none"]


def expect(found, wanted):
    if found != wanted:
        raise AssertionError(f"{found}, not {wanted}")


def say(found):
    return "none" if found is None else str(found)


def expect_read(house, own, who, plot, wanted):
    """What someone finds on a plot at an office."""
    name, session = who
    found = say(house.offices[own].read(session, plot))
    print(f"office {own}: {name} reads plot {plot}: {found}")
    expect(found, wanted)


def expect_both(house, own, who, wanted):
    """What someone finds on both plots at one moment."""
    name, session = who
    found = [say(one) for one in house.offices[own].read_joint(session, [5, 6])]
    print(f"office {own}: {name} reads plots 5 and 6 jointly: {'; '.join(found)}")
    expect(found, wanted)


def expect_newcomer(house, own, wanted):
    """The same for someone who comes in new."""
    expect_both(house, own, ("a newcomer", fresh_session(RING)), wanted)


def expect_heard(house, own, wanted):
    """An office hears the oldest frame of its line."""
    heard, waiting = house.hear(own), len(house.lines[own])
    print(f"office {own}: hears of {heard}; frames still waiting: {waiting}")
    expect((heard, waiting), wanted)


def expect_error(what, call, error):
    try:
        call()
    except (Refused, ValueError) as caught:
        print(f"{what}: {caught}")
        expect(getattr(caught, "number", type(caught)), error)
    else:
        raise AssertionError(f"{what}: not refused")


def foreman_leaves(house):
    """At office 0 the foreman writes, and leaves before anyone has heard of it."""
    foreman = fresh_session(RING)
    sent = house.write(0, foreman, 5, 709)
    print(f"office 0: the foreman writes 709 to plot 5: {sent[0]}")
    token = token_of(foreman)
    print(f"he goes to office 1 with a token of {len(token)} words")
    return token


def foreman_arrives(house, token):
    """At office 1 he finds what he wrote; with his next entry the first is sent from here too. He
    sees both, and nobody else does yet."""
    foreman = session_of(RING, token)
    expect_read(house, 1, ("the foreman", foreman), 5, "709 by 0.1")
    sent = house.write(1, foreman, 6, 1)
    print(f"office 1: he writes 1 to plot 6: {sent[0]} and {sent[1]} are sent")
    expect(sent, ["0.1", "1.1"])
    expect_both(house, 1, ("the foreman", foreman), BOTH)
    expect_newcomer(house, 1, NEITHER)


def the_ring_hears(house):
    """The frames come by office 2, which has the entries hidden, to office 0, which shows them."""
    for own in (2, 0):
        expect_newcomer(house, own, NEITHER)
        expect_heard(house, own, ("0.1", 1))
        expect_heard(house, own, ("1.1", 0))
    expect_newcomer(house, 2, NEITHER)
    expect_newcomer(house, 0, BOTH)


def visitor_goes_round(house, visitor):
    """What the visitor has read at office 0 is shown at office 2 when she reads there."""
    expect_read(house, 0, ("the visitor", visitor), 6, "1 by 1.1")
    print("the visitor goes to office 2")
    visitor = session_of(RING, token_of(visitor))
    expect_read(house, 2, ("the visitor", visitor), 5, "709 by 0.1")
    expect_newcomer(house, 2, BOTH)


def refusals(house, token):
    """A refused call says why, and has changed nothing."""
    damaged = [token[0], token[1] ^ 1, *token[2:]]
    expect_error("a token with one word changed", lambda: session_of(RING, damaged), 9)

    foreman, before, great = session_of(RING, token), house.offices[0].words(), MAX_VALUE + 1
    expect_error(f"a value of {great}", lambda: house.write(0, foreman, 5, great), 5)
    expect((house.offices[0].words(), token_of(foreman)), (before, token))
    print("office and foreman are as before")


def overnight(house):
    """An office closes for the night. Its words come back as this office, and as no other."""
    kept = house.offices[0].words()
    expect_error("the words of office 0 given to office 1", lambda: Office.load(RING, 1, kept),
                 ValueError)
    house.offices[0] = Office.load(RING, 0, kept)
    expect_newcomer(house, 0, BOTH)


def the_slow_line(house):
    """What office 0 sent at the beginning arrives at last: nobody learns anything new."""
    expect_heard(house, 1, ("0.1", 0))
    expect_heard(house, 2, ("0.1", 0))
    expect([house.hear(own) for own in range(3)], [None] * 3)
    expect_newcomer(house, 2, BOTH)


def goes_on(house, own, name, token, plot, value):
    """Someone goes on at an office with what a token says, and comes back with another one."""
    session = session_of(RING, token)
    sent = house.write(own, session, plot, value)
    print(f"office {own}: {name} writes {value} to plot {plot}: {sent[-1]}")
    return token_of(session)


def two_people(house):
    """A family's token is copied, and two people go on with it. In the evening theirs are joined:
    the family knows what either of them knows."""
    morning = goes_on(house, 0, "a family", token_of(fresh_session(RING)), 7, 300)
    tokens = [goes_on(house, 1, "the sister", morning, 8, 4),
              goes_on(house, 2, "the brother", morning, 7, 310)]
    print("in the evening their tokens are joined")
    family = join_sessions(RING, *(session_of(RING, token) for token in tokens))
    expect_read(house, 0, ("the family", family), 7, "310 by 2.1")
    expect_read(house, 0, ("the family", family), 8, "4 by 1.2")


def main():
    house = House(RING)
    token = foreman_leaves(house)
    foreman_arrives(house, token)
    visitor = fresh_session(RING)
    expect_read(house, 0, ("a visitor", visitor), 6, "none")
    the_ring_hears(house)
    visitor_goes_round(house, visitor)
    refusals(house, token)
    overnight(house)
    the_slow_line(house)
    two_people(house)


if __name__ == "__main__":
    main()
