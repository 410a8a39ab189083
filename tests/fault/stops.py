"""A neighbour that stands still, lines that are full, and restarts in quick succession."""

import fcntl
import os
import select
import struct
import termios
import time

from report import Fault, Unshown
from ring import Ring

ENTRIES = 24


def look_into(path):
    """How many bytes are in a pipe, and whether it is full."""
    pipe = os.open(path, os.O_RDWR | os.O_NONBLOCK)
    try:
        count = struct.unpack("i", fcntl.ioctl(pipe, termios.FIONREAD, b"\0" * 4))[0]
        return count, not select.select([], [pipe], [], 0)[1]
    finally:
        os.close(pipe)


def write_many(ring, own, count, first_plot):
    """So many entries, each on a plot of its own; a new session where one is full."""
    for serial in range(1, count + 1):
        if serial == 17:
            ring.expect(own, "new", "a new session")
        ring.expect(own, f"write {first_plot + serial - 1} {100 * own + serial}",
                    f"wrote {own}.{serial}")


def check_many(ring, own, count, first_plot):
    last = (own - 1) % ring.offices
    for serial in range(1, count + 1):
        ring.expect(last, f"present {first_plot + serial - 1}",
                    f"{100 * own + serial} by {own}.{serial}")


def stopped_neighbour(program, folder, offices, restarts):
    """A test: one office stands still, the one before it writes and restarts; its line fills."""
    def test(rng):
        still = rng.randrange(offices)
        with Ring(program, f"{folder}/stopped-{offices}", offices) as ring:
            ring.start_all()
            ring.settle()
            ring.at[still].stop()
            try:
                full = work_on(ring, still, restarts)
            finally:
                ring.at[still].go_on()
            ring.settle()
            for work in works(ring, still):
                check_many(ring, *work)
            if ring.complaints():
                raise Fault(f"an office said: {ring.complaints()[:200]}")
        return f"{restarts} restarts, a line of {full} bytes was full"
    return test


def works(ring, still):
    """Office, entries and first plot, for all but the one that stands still: most for the one
    before it."""
    sender = (still - 1) % ring.offices
    return [(own, ENTRIES, 0) if own == sender else (own, 4, ENTRIES + 4 * own)
            for own in range(ring.offices) if own != still]


def work_on(ring, still, restarts):
    """All but one office work. Says how many bytes stood in the full line."""
    sender = (still - 1) % ring.offices
    for work in works(ring, still):
        write_many(ring, *work)
    for _ in range(restarts):
        ring.kill(sender)
        ring.start(sender)
        ring.expect(sender, "read 63", "none")
        ring.expect(sender, "present 63", "none")
    return await_full(ring, still, sender)


def await_full(ring, still, sender):
    path = f"{ring.folder}/lines/to-{still}"
    limit = time.monotonic() + 20
    while True:
        count, full = look_into(path)
        ring.expect(sender, "read 63", "none")
        if full:
            return count
        if time.monotonic() > limit:
            raise Unshown(f"the line was never full: {count} bytes")
        time.sleep(0.02)


def quick_restarts(program, folder, restarts):
    """A test: both offices of a ring of two, with 16 entries each, are killed again and again."""
    def test(rng):
        with Ring(program, f"{folder}/quick", 2) as ring:
            ring.start_all()
            for own in (0, 1):
                write_many(ring, own, 16, 16 * own)
            for _ in range(restarts):
                for own in rng.choice([(0, 1), (1, 0), (0,), (1,)]):
                    ring.kill(own)
                    ring.start(own)
                time.sleep(rng.random() * 0.01)
            heard = ring.settle()
            if heard != [16, 16]:
                raise Fault(f"the offices heard {heard} frames, not 16 each")
            for own in (0, 1):
                check_many(ring, own, 16, 16 * own)
        return f"{restarts} restarts"
    return test


def quick_trials(program, folder, trials, restarts):
    """A test: that many times, since a deadlock comes by chance."""
    def test(rng):
        for _ in range(trials):
            quick_restarts(program, folder, restarts)(rng)
        return f"{trials} trials of {restarts} restarts"
    return test
