"""Offices killed at random moments, and at the points where the program can be held."""

import random
import time

import ending
from clerks import Clerks
from report import Fault, say_trial
from ring import Ring

SIZES = (2, 3, 5, 8)
# Few enough that there are writes left for each: a ring has 64 plots.
KILLS_A_TRIAL = {2: 20, 3: 15, 5: 10, 8: 6}


class Trial:
    """Random orders at random offices, and strikes: a strike kills offices (power.py has another
    kind). The moments are not repeated to the microsecond by a seed; the choices are."""
    weights = (20, 20, 1, 6, 2, 4, 2)

    def __init__(self, ring, rng, strikes, shared=False):
        self.ring, self.rng, self.left = ring, rng, strikes
        self.clerks = Clerks(ring, rng, shared)

    def strike(self, owns):
        self.left -= len(owns)
        self.kill(owns)

    def kill(self, owns):
        for own in owns:
            office = self.ring.kill(own)
            if office is not None:
                self.clerks.struck(own, office)

    def up(self):
        return [own for own in range(self.ring.offices) if self.ring.at[own] is not None]

    def victims(self):
        """Mostly one office, sometimes two."""
        up = self.up()
        return self.rng.sample(up, min(len(up), 2 if self.rng.random() < 0.25 else 1))

    def pause(self, most):
        """Also none at all: a sleep is never as short as a part of an order."""
        if self.rng.random() < 0.75:
            time.sleep(self.rng.random() * most)

    def start(self, own):
        """Sometimes it is killed again while it starts."""
        self.ring.start(own)
        while self.rng.random() < 0.2 and self.left > 0:
            self.pause(0.004)
            self.strike([own])
            self.ring.start(own)

    def kill_idle(self):
        self.strike(self.victims())

    def kill_under_way(self):
        """At any moment of the order, so the reply may be lost."""
        owns = self.victims()
        for own in owns:
            write = True if self.rng.random() < 0.8 else None
            self.clerks.send(own, self.clerks.think_of(own, write))
        self.pause(self.clerks.usual)
        self.strike(owns)

    def kill_after_reply(self):
        owns = self.victims()
        for own in owns:
            self.clerks.order(own, write=self.rng.random() < 0.6)
        self.strike(owns)

    def kill_hearer(self):
        """While it hears, or sends on, what another has written."""
        owns = self.victims()
        for own in owns:
            before = (own - 1) % self.ring.offices
            if self.ring.at[before] is not None and before not in owns:
                self.clerks.order(before, write=True)
        self.pause(1.5 * self.clerks.usual)
        self.strike(owns)

    def stop_for_a_while(self):
        """The others go on."""
        own = self.rng.choice(self.up())
        still = self.ring.at[own]
        still.stop()
        try:
            for other in self.up():
                if other != own:
                    self.clerks.order(other)
        finally:
            still.go_on()

    def order_many(self):
        """At several offices at once."""
        owns = [own for own in self.up() if self.rng.random() < 0.7]
        for own in owns:
            self.clerks.send(own, self.clerks.think_of(own))
        for own in owns:
            self.clerks.take(own)

    def order_one(self):
        up = self.up()
        if up:
            self.clerks.order(self.rng.choice(up))

    def step(self):
        down = [own for own in range(self.ring.offices) if self.ring.at[own] is None]
        if down and self.rng.random() < 0.5:
            self.start(self.rng.choice(down))
        elif self.up():
            kinds = (self.order_one, self.order_many, self.kill_idle, self.kill_under_way,
                     self.kill_after_reply, self.kill_hearer, self.stop_for_a_while)
            self.rng.choices(kinds, self.weights)[0]()
        if self.rng.random() < 0.3:
            self.pause(0.005)

    def run(self, round_trip=False):
        for own in range(self.ring.offices):
            if self.rng.random() < 0.8:  # the others come later
                self.ring.start(own)
        while self.left > 0:
            self.step()
        return self.end(round_trip)

    def end(self, round_trip):
        """How many entries were acknowledged by now, how many were made, how many replies lost."""
        told = self.clerks.ledger.acknowledged()
        return told, ending.check(self.clerks, round_trip), self.clerks.unanswered


def random_kills(program, folder, offices, kills):
    """A test: trials in rings of one size until so many offices were killed."""
    def test(rng):
        sums, trials, left = [0, 0, 0], 0, kills
        while left > 0:
            now, seed = min(left, KILLS_A_TRIAL[offices]), rng.randrange(1 << 31)
            got = one_trial(program, folder, offices, now, seed, trials)
            sums = [total + more for total, more in zip(sums, got)]
            left, trials = left - now, trials + 1
        return (f"{kills} kills in {trials} trials, {sums[0]} acknowledged, {sums[1]} made, "
                f"{sums[2]} replies lost")
    return test


def one_trial(program, folder, offices, kills, seed, trial):
    """Each third trial has shared plots; the first two bring all out everywhere at the end."""
    shared = (trial + offices) % 3 == 0
    with Ring(program, f"{folder}/kills-{offices}", offices) as ring:
        try:
            got = Trial(ring, random.Random(seed), kills, shared).run(trial < 2)
        except Fault as fault:
            raise Fault(f"{fault} (trial's seed {seed})") from None
    say_trial(f"kills, ring of {offices}", seed, f"{got[0]} acknowledged")
    return got


def points(program, folder):
    """A test: held at each point, as the interface names them, and killed there."""
    def test(rng):
        for point in ("renaming", "sending", "hearing"):
            for offices in (2, 3):
                with Ring(program, f"{folder}/points", offices) as ring:
                    hold(ring, point, rng)
        return "3 points, rings of 2 and 3"
    return test


def hold(ring, point, rng):
    first = rng.randrange(ring.offices)
    after = (first + 1) % ring.offices
    last = (first - 1) % ring.offices
    held = after if point == "hearing" else first
    for own in range(ring.offices):
        ring.start(own, point if own == held else None)
    ring.at[first].send("write 5 709")
    if point == "hearing":
        expect_line(ring, first, f"wrote {first}.1")
    expect_line(ring, held, f"holding at {point}")
    check_held(ring, point, first, after)
    ring.kill(held)
    ring.start(held)
    if point == "renaming":
        ring.expect(first, "read 5", "none")
        ring.expect(first, "write 5 710", f"wrote {first}.1")
    value = 710 if point == "renaming" else 709
    ring.await_reply(last, "present 5", f"{value} by {first}.1")
    ring.settle()
    if ring.complaints():
        raise Fault(f"held at {point}: an office said: {ring.complaints()[:200]}")


def expect_line(ring, own, line):
    got = ring.at[own].take()
    if got != line:
        raise Fault(f"office {own} says '{got}', not '{line}'")


def check_held(ring, point, first, after):
    """A while later: nothing that is not kept was sent on, or acknowledged to the office before."""
    time.sleep(0.3)
    if point == "hearing":
        if ring.number(first, "waiting") != 1:
            raise Fault("a frame was acknowledged before it was kept")
    elif ring.number(after, "heard") != 0:
        raise Fault(f"held at {point}: a frame was sent")


def forwarded(program, folder):
    """A test: frames that an office has heard and not yet passed on outlive its death."""
    def test(rng):
        for offices in (3, 5):
            with Ring(program, f"{folder}/forwarded", offices) as ring:
                forward(ring, rng.randrange(offices))
        return "rings of 3 and 5"
    return test


def forward(ring, first):
    middle, third = (first + 1) % ring.offices, (first + 2) % ring.offices
    ring.start_all()
    ring.kill(third)
    for serial in range(1, 13):
        ring.expect(first, f"write {serial} {70 + serial}", f"wrote {first}.{serial}")
    ring.await_reply(middle, "heard", "12")
    ring.await_reply(first, "waiting", "0")
    if ring.number(middle, "waiting") != 12:
        raise Fault("frames that the next office has not heard do not wait")
    ring.kill(middle)
    ring.kill(first)
    ring.start_all()
    ring.settle()
    last = (first - 1) % ring.offices
    for serial in range(1, 13):
        ring.expect(last, f"present {serial}", f"{70 + serial} by {first}.{serial}")


def reading(program, folder):
    """A test: what a session has read outlives a kill. Its next write depends on it, so where that
    is shown, it is shown too."""
    def test(rng):
        for offices in (2, 3, 8):
            with Ring(program, f"{folder}/reading", offices) as ring:
                ring.start_all()
                maker = rng.randrange(offices)
                reader, last = (maker - 1) % offices, (maker - 2) % offices
                ring.expect(maker, "write 5 709", f"wrote {maker}.1")
                ring.await_reply(reader, "present 5", f"709 by {maker}.1")
                ring.settle()
                ring.expect(reader, "read 5", f"709 by {maker}.1")
                ring.kill(reader)
                ring.start(reader)
                ring.expect(last, "present 5", "none")
                ring.expect(reader, "write 6 1", f"wrote {reader}.1")
                ring.await_reply(last, "present 6", f"1 by {reader}.1")
                ring.expect(last, "present 5", f"709 by {maker}.1")
        return "rings of 2, 3 and 8"
    return test
